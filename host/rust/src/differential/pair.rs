//! One world of the model beside the library's bytes: each step is made by both, and what they
//! give and hold is compared.

use super::compare::expect;
use super::coverage::Coverage;
use super::lent::{edge, handed_back, ledger_bytes, uses, Lent, Uses};
use crate::boundary::records::{self, DOMAIN_SIZE, GUEST_SIZE};
use crate::boundary::{calls, ledger, Encoded};
use crate::guarded::Edge;
use crate::model::machine::{Events, Stepped};
use crate::model::{log, Answer, Domain, Entry, Event, Guest, Model, Next, Side, Step, World};
use crate::random::Random;

/// What a world held before a step, as far as the step can look at it.
#[derive(Clone, Copy)]
pub struct Before {
    /// The hypervisor's record.
    pub domain: Domain,
    /// The guest's record.
    pub guest: Guest,
    /// The ledger entry of the port that the step is on.
    pub entry: Option<Entry>,
}

/// The bytes of both records before a step, to compare with those after it.
#[derive(Default)]
pub(super) struct Kept {
    pub(super) domain: Vec<u8>,
    pub(super) guest: Vec<u8>,
}

/// The model and the library side by side.
pub struct Pair {
    /// The model's world. The memory is shared: an access is performed once, and the word seen is
    /// handed to both.
    pub world: World,
    /// The library's bytes.
    pub lent: Lent,
    /// The model's ledger in bytes; a last odd byte stays as it was lent.
    pub(super) ledger: Vec<u8>,
    pub(super) kept: Kept,
    steps: Vec<Step>,
    events: Vec<Event>,
}

impl Default for Pair {
    fn default() -> Self {
        Pair {
            world: World::fresh(Model::default(), 0, 0),
            lent: Lent::default(),
            ledger: Vec::new(),
            kept: Kept::default(),
            steps: Vec::new(),
            events: Vec::new(),
        }
    }
}

impl Pair {
    /// Begins a history: the library's bytes become the records and the ledger of `world`, and its
    /// records those that the bytes are.
    pub fn begin(&mut self, mut world: World, random: &mut Random) {
        self.lent.random_records(random);
        records::put_domain(self.lent.domain.bytes_mut(), &world.domain);
        records::put_guest(self.lent.guest.bytes_mut(), &world.guest);
        world.domain = records::domain(self.lent.domain.bytes());
        world.guest = records::guest(self.lent.guest.bytes());
        let bytes = ledger_bytes(random, &world.ledger);
        self.restart(world);
        self.lend_bytes(&bytes, edge(random));
    }

    /// Begins a history whose records the library makes fresh.
    pub fn begin_fresh(
        &mut self,
        world: World,
        random: &mut Random,
        coverage: &mut Coverage,
    ) -> Result<(), String> {
        self.lent.random_records(random);
        self.ledger = ledger_bytes(random, &world.ledger);
        self.lent.random_entries(random, &self.ledger);
        self.restart(world);
        self.keep();
        let codes = [
            calls::fresh_domain(self.lent.domain.bytes_mut()),
            calls::fresh_guest(self.lent.guest.bytes_mut()),
            calls::fresh_ledger(self.lent.ledger.bytes_mut()),
        ];
        expect("codes of the fresh records", codes, [0; 3])?;
        self.compare_records()?;
        self.compare_rest()?;
        self.compare_ledger()?;
        coverage.note_fresh_slices(self.lent.longer());
        Ok(())
    }

    /// Begins a history with the records that the lent bytes are.
    pub fn begin_lent(&mut self, world: World) {
        self.restart(world);
        self.read_lent();
    }

    /// The model's records become those that the lent bytes are; a record too short is left.
    pub fn read_lent(&mut self) {
        if self.lent.domain.bytes().len() >= DOMAIN_SIZE {
            self.world.domain = records::domain(self.lent.domain.bytes());
        }
        if self.lent.guest.bytes().len() >= GUEST_SIZE {
            self.world.guest = records::guest(self.lent.guest.bytes());
        }
    }

    fn restart(&mut self, world: World) {
        self.world = world;
        self.steps.clear();
        self.events.clear();
    }

    /// Lends another ledger to both.
    pub fn lend_bytes(&mut self, bytes: &[u8], edge: Edge) {
        self.lent.ledger.set(bytes.len(), edge);
        self.lent.ledger.bytes_mut().copy_from_slice(bytes);
        self.ledger.clear();
        self.ledger.extend_from_slice(bytes);
        self.world.ledger = ledger::entries(bytes);
    }

    /// Number of steps made in this history.
    pub fn length(&self) -> usize {
        self.steps.len()
    }

    /// Makes a step on both sides and compares; what was met is counted.
    pub fn step(&mut self, step: Step, coverage: &mut Coverage) -> Result<Stepped, String> {
        let words = u64::from(self.world.guest.words);
        let library = |lent: &mut Lent, seen| lent.step(step, seen, words);
        self.step_by(step, coverage, library)
    }

    /// The same by another call of the library, which is given the word that a reply hands back.
    pub fn step_by(
        &mut self,
        step: Step,
        coverage: &mut Coverage,
        library: impl FnOnce(&mut Lent, u32) -> Encoded,
    ) -> Result<Stepped, String> {
        self.steps.push(step);
        self.keep();
        if self.is_short(step) {
            let encoded = library(&mut self.lent, handed_back(step));
            return self.short_step(encoded);
        }
        let port = self.port_of(step);
        let before = self.before(port);
        let stepped = self.world.step(step);
        let seen = seen(step, &stepped);
        self.events.extend_from_slice(&stepped.events);
        let encoded = library(&mut self.lent, seen);
        let masked = matches!(step, Step::Mask(_) | Step::MaskWithin { .. });
        self.compare(masked, &stepped, encoded, port)
            .and_then(|()| self.compare_guest(step, &before.guest, stepped.next))
            .map_err(|text| format!("{step:?}, word handed back {seen:08X}: {text}"))?;
        coverage.note(&before, step, seen, &stepped);
        coverage.note_step_slices(self.lent.longer());
        Ok(stepped)
    }

    /// The bytes of both calls of the guest's record, after a step of the guest's.
    fn compare_guest(&self, step: Step, before: &Guest, next: Next) -> Result<(), String> {
        if uses(step) != Uses::Guest {
            return Ok(());
        }
        let replied = before.clearing.is_some() && is_reply(step);
        let clears = replied || matches!(step, Step::ClearMask(_));
        let ended = replied && matches!(next, Next::Answer(..));
        self.compare_clear_mask(clears, ended)
    }

    /// Keeps the bytes of both records.
    pub(super) fn keep(&mut self) {
        self.kept.domain.clear();
        let domain = self.lent.domain.bytes();
        self.kept.domain.extend_from_slice(domain);
        self.kept.guest.clear();
        self.kept.guest.extend_from_slice(self.lent.guest.bytes());
    }

    fn is_short(&self, step: Step) -> bool {
        match uses(step) {
            Uses::Domain => self.lent.domain.bytes().len() < DOMAIN_SIZE,
            Uses::Guest => self.lent.guest.bytes().len() < GUEST_SIZE,
            Uses::Nothing => false,
        }
    }

    /// A record too short gives 64 and is left alone, and so is the ledger.
    fn short_step(&mut self, encoded: Encoded) -> Result<Stepped, String> {
        self.expect_short(encoded)?;
        let next = Next::Answer(Answer::Done, 0);
        let events = Events::NONE;
        Ok(Stepped { next, events })
    }

    /// 64, and nothing is changed.
    pub(super) fn expect_short(&self, encoded: Encoded) -> Result<(), String> {
        expect("short buffer", encoded, Encoded::TOO_SHORT)?;
        self.expect_unchanged()
    }

    /// Both records and the ledger are as they were kept.
    pub(super) fn expect_unchanged(&self) -> Result<(), String> {
        self.compare_unchanged()?;
        self.compare_ledger()
    }

    /// The port whose entry a step may look at.
    fn port_of(&self, step: Step) -> Option<usize> {
        match step {
            Step::Bind(port) | Step::Close(port) | Step::Raise(port) | Step::Unmask(port) => {
                usize::try_from(port).ok()
            }
            Step::SetPriority { port, .. } => usize::try_from(port).ok(),
            Step::Access(Side::Hypervisor) | Step::HandBack(Side::Hypervisor, _) => {
                self.world.domain.call.map(|call| call.port.index())
            }
            _ => None,
        }
    }

    fn before(&self, port: Option<usize>) -> Before {
        Before {
            domain: self.world.domain,
            guest: self.world.guest,
            entry: port.and_then(|port| self.world.ledger.get(port).copied()),
        }
    }

    /// At a history's end: the whole ledger of the model, entry by entry.
    pub fn finish(&self) -> Result<(), String> {
        let entries = ledger::entries(self.lent.ledger.bytes());
        if entries == self.world.ledger {
            return Ok(());
        }
        Err("the model's ledger differs at the history's end".to_string())
    }

    /// The steps and the access log up to now.
    pub fn history(&self) -> String {
        let mut text = String::from("steps:\n");
        for (at, step) in self.steps.iter().enumerate() {
            text.push_str(&format!("{at}\t{step:?}\n"));
        }
        text.push_str("access log:\n");
        text.push_str(&log::log(&self.events));
        text
    }
}

fn is_reply(step: Step) -> bool {
    matches!(step, Step::Access(_) | Step::HandBack(..))
}

/// The word that a step's reply hands back.
fn seen(step: Step, stepped: &Stepped) -> u32 {
    match (step, stepped.events.first()) {
        (Step::Access(_), Some(Event::Accessed(accessed))) => accessed.seen,
        _ => handed_back(step),
    }
}
