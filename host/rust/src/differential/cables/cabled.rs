//! Domains and their cables by the model beside the library's bytes: each call is made by both, and
//! what they give and hold is compared.

use super::asked::{far, laid, EndAt};
use super::met::{Met, Point};
use crate::boundary::cables::{self, TABLE_SIZE};
use crate::boundary::records::DOMAIN_SIZE;
use crate::boundary::Encoded;
use crate::differential::compare::expect;
use crate::differential::coverage::Coverage;
use crate::differential::lent::{handed_back, Lent};
use crate::differential::pair::Pair;
use crate::guarded::{Edge, Guarded};
use crate::model::cables::{Cables, End, Refusal, Table, DOMAINS};
use crate::model::machine::Stepped;
use crate::model::{Call, Next, Side, Step};

/// Bytes that a table may have.
const TABLE_CAPACITY: usize = 2 * TABLE_SIZE;
/// Bytes more that the first place's ledger may have: entries of ports from 2^20 on.
const LEDGER_MORE: usize = 1 << 21;

/// A call of a history, to be shown.
#[derive(Clone, Copy, Debug)]
#[allow(dead_code)]
enum Order {
    Lay(EndAt, EndAt),
    Cut(EndAt),
    Send(EndAt, u32),
    /// By the functions with cables: the place, the domain's number.
    Step(usize, u64, Step),
    /// By those without: the place.
    Plain(usize, Step),
    /// A ledger of so many bytes is lent at a place.
    Lend(usize, usize),
}

/// The model and the library side by side.
pub struct Cabled {
    /// The rules.
    pub rules: Cables,
    /// The model's table; none where the library's has too few bytes.
    pub table: Option<Table>,
    /// One domain each, by its place.
    pub pairs: Vec<Pair>,
    /// What was met.
    pub met: Met,
    /// The domains' own steps.
    pub steps: Coverage,
    bytes: Guarded,
    /// The bytes of the table before a call.
    pub(super) kept: Vec<u8>,
    /// The call whose reply was refused with 14 at each place.
    pub(super) refused: Vec<Option<Call>>,
    /// How many places are in use; a far domain's is its number modulo this.
    places: usize,
    orders: Vec<Order>,
}

impl Cabled {
    /// Forty places and no history.
    pub fn new(rules: Cables) -> Self {
        let places = DOMAINS as usize;
        let mut pairs: Vec<Pair> = (0..places).map(|_| Pair::default()).collect();
        pairs[0].lent = Lent::more_by(LEDGER_MORE);
        Cabled {
            rules,
            table: None,
            pairs,
            met: Met::default(),
            steps: Coverage::default(),
            bytes: Guarded::new(TABLE_CAPACITY),
            kept: Vec::new(),
            refused: vec![None; places],
            places,
            orders: Vec::new(),
        }
    }

    /// Begins a history that uses so many places; their domains are to be begun by themselves.
    pub fn begin(&mut self, places: usize, table: &[u8], edge: Edge) {
        self.places = places;
        self.orders.clear();
        self.refused.fill(None);
        self.lend_table(table, edge);
    }

    /// Lends another table.
    pub fn lend_table(&mut self, table: &[u8], edge: Edge) {
        self.bytes.set(table.len(), edge);
        self.bytes.bytes_mut().copy_from_slice(table);
        self.table = cables::table(table);
    }

    /// Lends another ledger.
    pub fn lend_ledger(&mut self, at: usize, bytes: &[u8], edge: Edge) {
        self.orders.push(Order::Lend(at, bytes.len()));
        self.pairs[at].lend_bytes(bytes, edge);
    }

    /// Number of calls of this history.
    pub fn length(&self) -> usize {
        self.orders.len()
    }

    /// lay by both.
    pub fn lay(&mut self, near: EndAt, far: EndAt) -> Result<Result<usize, Refusal>, String> {
        self.orders.push(Order::Lay(near, far));
        self.keep(&[near.at, far.at]);
        let (pairs, table) = (&self.pairs, self.table.as_mut());
        let outcome = self.rules.lay(table, near.named(pairs), far.named(pairs));
        let given = cables::lay(self.bytes.bytes_mut(), near.lent(pairs), far.lent(pairs));
        expect("what lay gives", given, laid(&outcome))?;
        self.compare(&[near.at, far.at])?;
        self.note_lay(near, far, &outcome);
        Ok(outcome)
    }

    /// cut by both.
    pub fn cut(&mut self, near: EndAt) -> Result<Result<(), Refusal>, String> {
        self.orders.push(Order::Cut(near));
        self.keep(&[near.at]);
        let pairs = &self.pairs;
        let outcome = self.rules.cut(self.table.as_mut(), near.named(pairs));
        let given = cables::cut(self.bytes.bytes_mut(), near.lent(pairs));
        let number = outcome.map_or_else(Refusal::number, |()| 0);
        expect("what cut gives", given, number)?;
        self.compare(&[near.at])?;
        self.note_cut(near, &outcome);
        Ok(outcome)
    }

    /// send by both, and the far raise's start where it comes through; none is that raise's 64.
    pub fn send(
        &mut self,
        near: EndAt,
        hint: u32,
    ) -> Result<Result<Option<Next>, Refusal>, String> {
        self.orders.push(Order::Send(near, hint));
        self.keep(&[near.at]);
        let (pairs, table) = (&self.pairs, self.table.as_ref());
        let outcome = self.rules.send(table, near.named(pairs), hint);
        let given = cables::send(self.bytes.bytes(), near.lent(pairs), hint);
        expect("what send gives", given, far(&outcome))?;
        self.compare(&[near.at])?;
        self.note_send(near, hint, &outcome);
        match outcome {
            Ok(found) => self.raise(found.far).map(Ok),
            Err(refusal) => Ok(Err(refusal)),
        }
    }

    fn raise(&mut self, far: End) -> Result<Option<Next>, String> {
        let at = far.domain() as usize % self.places;
        let call = self.pairs[at].world.domain.call;
        let next = self.plain(at, Step::Raise(far.port().into()))?;
        let next = next.map(|stepped| stepped.next);
        self.met.note_far(far.port(), call, next);
        Ok(next)
    }

    /// A step of one domain by the functions without cables; none is a short record's 64.
    pub fn plain(&mut self, at: usize, step: Step) -> Result<Option<Stepped>, String> {
        self.orders.push(Order::Plain(at, step));
        let stepped = self.pairs[at].step(step, &mut self.steps)?;
        Ok(self.is_whole(at).then_some(stepped))
    }

    /// A close, or a reply of the hypervisor's, by the functions with cables; none is 64.
    pub fn step(&mut self, at: usize, number: u64, step: Step) -> Result<Option<Stepped>, String> {
        self.orders.push(Order::Step(at, number, step));
        self.keep(&[at]);
        let before = self.pairs[at].world.domain;
        let standing = self.standing(number, step, before.call);
        let whole = self.is_whole(at);
        let Some(table) = &mut self.table else {
            return self.short_table(at, number, step);
        };
        let bytes = self.bytes.bytes_mut();
        let library = |lent: &mut Lent, seen| by_library(bytes, lent, number, step, seen);
        let stepped = self.pairs[at].step_by(step, &mut self.steps, library)?;
        if whole {
            let next = stepped.next;
            self.rules.follow(table, number, &before, step, next);
        }
        self.compare_table()?;
        match whole {
            true => self.note_step(at, step, before.call, standing, stepped.next),
            false => self.note_either(step, [Point::CloseShortRecord, Point::ReplyShortRecord]),
        }
        Ok(whole.then_some(stepped))
    }

    /// 64, and nothing is done.
    fn short_table(
        &mut self,
        at: usize,
        number: u64,
        step: Step,
    ) -> Result<Option<Stepped>, String> {
        let (table, lent) = (self.bytes.bytes_mut(), &mut self.pairs[at].lent);
        let given = by_library(table, lent, number, step, handed_back(step));
        self.pairs[at].expect_short(given)?;
        self.compare_table()?;
        self.note_either(step, [Point::CloseShortTable, Point::ReplyShortTable]);
        Ok(None)
    }

    /// Whether the record is long enough.
    pub(super) fn is_whole(&self, at: usize) -> bool {
        self.pairs[at].lent.domain.bytes().len() >= DOMAIN_SIZE
    }

    fn keep(&mut self, places: &[usize]) {
        self.kept.clear();
        self.kept.extend_from_slice(self.bytes.bytes());
        places.iter().for_each(|at| self.pairs[*at].keep());
    }

    /// After a call that changes the table alone.
    fn compare(&self, places: &[usize]) -> Result<(), String> {
        self.compare_table()?;
        let mut pairs = places.iter().map(|at| &self.pairs[*at]);
        pairs.try_for_each(Pair::expect_unchanged)
    }

    /// Every slot of the table, and the bytes behind it.
    fn compare_table(&self) -> Result<(), String> {
        let bytes = self.bytes.bytes();
        let Some(table) = &self.table else {
            return expect("short table's bytes", bytes, &self.kept);
        };
        let mut slots = table.slots().iter().enumerate();
        if let Some((at, slot)) = slots.find(|(at, slot)| cables::slot(bytes, *at) != **slot) {
            return expect(&format!("slot {at}"), cables::slot(bytes, at), *slot);
        }
        let (behind, former) = (&bytes[TABLE_SIZE..], &self.kept[TABLE_SIZE..]);
        expect("bytes behind the table", behind, former)
    }

    /// The calls up to now.
    pub fn history(&self) -> String {
        let mut text = String::from("calls:\n");
        for (at, order) in self.orders.iter().enumerate() {
            text.push_str(&format!("{at}\t{order:?}\n"));
        }
        text
    }
}

/// The library's close or reply.
fn by_library(table: &mut [u8], lent: &mut Lent, number: u64, step: Step, seen: u32) -> Encoded {
    let (domain, ledger) = (lent.domain.bytes_mut(), lent.ledger.bytes_mut());
    match step {
        Step::Close(port) => cables::close(table, domain, ledger, number, port),
        _ => cables::reply(table, domain, ledger, number, seen),
    }
}

/// Whether a step is one of the functions with cables.
pub fn has_cables(step: Step) -> bool {
    matches!(
        step,
        Step::Close(_) | Step::Access(Side::Hypervisor) | Step::HandBack(Side::Hypervisor, _)
    )
}
