//! The library's side: records and ledger in guarded bytes, and one step on them.

use crate::boundary::records::{DOMAIN_SIZE, GUEST_SIZE};
use crate::boundary::{calls, Encoded};
use crate::guarded::{Edge, Guarded};
use crate::model::{Entry, Side, Step};
use crate::random::Random;

/// Bytes that a ledger may have: a little more than one entry for each port.
const LEDGER_CAPACITY: usize = 2 * 131_072 + 4096;
/// Bytes that a record may have.
const RECORD_CAPACITY: usize = 4096;

/// The buffers lent to the library.
pub struct Lent {
    /// The hypervisor's record.
    pub domain: Guarded,
    /// The ledger.
    pub ledger: Guarded,
    /// The guest's record.
    pub guest: Guarded,
}

impl Default for Lent {
    fn default() -> Self {
        Lent::more_by(0)
    }
}

/// Mostly the last edge: a step too far is the likelier fault.
pub fn edge(random: &mut Random) -> Edge {
    if random.once_in(4) {
        Edge::First
    } else {
        Edge::Last
    }
}

/// The length of a slice that has room for `size` bytes: in half of the cases a longer one.
pub fn length_from(random: &mut Random, size: usize) -> usize {
    match random.below(4) {
        0 => size + 1,
        1 => size + random.below(200) as usize,
        _ => size,
    }
}

/// Random bytes of a length, at either edge.
pub fn random_bytes(random: &mut Random, bytes: &mut Guarded, length: usize) {
    bytes.set(length, edge(random));
    for byte in bytes.bytes_mut() {
        *byte = random.word() as u8;
    }
}

/// A ledger's bytes.
pub fn ledger_bytes(random: &mut Random, entries: &[Entry]) -> Vec<u8> {
    let two = |entry: &Entry| entry.bits().to_le_bytes();
    let mut bytes = entries.iter().flat_map(two).collect();
    odd_byte(random, &mut bytes);
    bytes
}

/// One ledger in four has a last odd byte.
pub fn odd_byte(random: &mut Random, ledger: &mut Vec<u8>) {
    if random.once_in(4) {
        ledger.push(random.word() as u8);
    }
}

/// The record that a step is given.
#[derive(Clone, Copy, Debug, PartialEq, Eq)]
pub enum Uses {
    /// The hypervisor's.
    Domain,
    /// The guest's.
    Guest,
    /// None.
    Nothing,
}

/// The record that a step is given.
pub fn uses(step: Step) -> Uses {
    match step {
        Step::Mask(_) | Step::MaskWithin { .. } => Uses::Nothing,
        Step::Service
        | Step::ClearMask(_)
        | Step::Tell(_)
        | Step::Access(Side::Guest)
        | Step::HandBack(Side::Guest, _) => Uses::Guest,
        _ => Uses::Domain,
    }
}

/// The word that a reply of the step hands back, where the step has it.
pub fn handed_back(step: Step) -> u32 {
    match step {
        Step::HandBack(_, seen) => seen,
        _ => 0,
    }
}

impl Lent {
    /// Room for so many bytes more in each buffer.
    pub fn more_by(bytes: usize) -> Self {
        Lent {
            domain: Guarded::new(RECORD_CAPACITY + bytes),
            ledger: Guarded::new(LEDGER_CAPACITY + bytes),
            guest: Guarded::new(RECORD_CAPACITY + bytes),
        }
    }

    /// Whether the slices of the domain's record, the guest's and the ledger are longer than needed.
    pub fn longer(&self) -> [bool; 3] {
        [
            self.domain.bytes().len() > DOMAIN_SIZE,
            self.guest.bytes().len() > GUEST_SIZE,
            self.ledger.bytes().len() % 2 == 1,
        ]
    }

    /// Random bytes with room for both records.
    pub fn random_records(&mut self, random: &mut Random) {
        let length = length_from(random, DOMAIN_SIZE);
        random_bytes(random, &mut self.domain, length);
        let length = length_from(random, GUEST_SIZE);
        random_bytes(random, &mut self.guest, length);
    }

    /// A ledger as long as `ledger` and with its last odd byte, whose entries are random.
    pub fn random_entries(&mut self, random: &mut Random, ledger: &[u8]) {
        random_bytes(random, &mut self.ledger, ledger.len());
        let odd = ledger.len() / 2 * 2;
        self.ledger.bytes_mut()[odd..].copy_from_slice(&ledger[odd..]);
    }

    /// The library's call or reply of a step; `seen` is the word that a reply hands back, `words`
    /// the guest record's number of words.
    pub fn step(&mut self, step: Step, seen: u32, words: u64) -> Encoded {
        let domain = self.domain.bytes_mut();
        let ledger = self.ledger.bytes_mut();
        let guest = self.guest.bytes_mut();
        match step {
            Step::InitControl {
                vcpu,
                frame,
                frames,
                offset,
            } => calls::init_control(domain, vcpu, frame, frames, offset),
            Step::ExpandArray { frame, frames } => calls::expand_array(domain, frame, frames),
            Step::Bind(port) => calls::bind(domain, ledger, port),
            Step::Close(port) => calls::close(domain, ledger, port),
            Step::SetPriority { port, priority } => {
                calls::set_priority(domain, ledger, port, priority)
            }
            Step::Raise(port) => calls::raise(domain, ledger, port),
            Step::Unmask(port) => calls::unmask(domain, ledger, port),
            Step::Service => calls::service(guest),
            Step::ClearMask(port) => calls::clear_mask(guest, port),
            Step::Mask(port) => calls::mask(port, words),
            Step::MaskWithin { port, words } => calls::mask(port, words),
            Step::Tell(words) => calls::tell(guest, words),
            Step::Access(Side::Hypervisor) | Step::HandBack(Side::Hypervisor, _) => {
                calls::reply(domain, ledger, seen)
            }
            Step::Access(Side::Guest) | Step::HandBack(Side::Guest, _) => {
                calls::service_reply(guest, seen)
            }
        }
    }
}
