//! Inputs of lay, cut and send for which chosen lines hold, as bytes.

use super::ends::{bad_domain, bad_port, number};
use crate::boundary::cables::{put_slot, TABLE_SIZE};
use crate::boundary::records::{put_domain, DOMAIN_SIZE};
use crate::differential::inputs::{ledger, small_port};
use crate::differential::lent::length_from;
use crate::model::arbitrary;
use crate::model::cables::{End, Part, Refusal, Slot, Which, DOMAINS, SLOTS};
use crate::model::Answer;
use crate::random::Random;

/// Ports from here on are those of cables that no call names.
const OTHERS: u64 = 1 << 18;

/// The lines that hold. Those after the first hold where they can.
#[derive(Clone, Copy)]
pub struct Lines<'a>(pub &'a [Refusal]);

impl Lines<'_> {
    fn has(self, line: Refusal) -> bool {
        self.0.contains(&line)
    }
}

/// An end, with what its domain lends.
pub struct LentEnd {
    /// The record's bytes.
    pub record: Vec<u8>,
    /// The ledger's bytes.
    pub ledger: Vec<u8>,
    /// Number of the domain.
    pub domain: u64,
    /// The port.
    pub port: u64,
}

/// A table and two ends, the second for a lay alone.
pub struct Input {
    /// The table's bytes.
    pub table: Vec<u8>,
    /// The near end.
    pub near: LentEnd,
    /// The far end.
    pub far: LentEnd,
}

impl Input {
    /// An input of a lay.
    pub fn lay(random: &mut Random, lines: Lines<'_>) -> Self {
        let (near, far) = numbers(random, lines);
        let near = lent_end(random, lines, Which::Near, near);
        let far = lent_end(random, lines, Which::Far, far);
        let mut table = table(random, lines);
        for (at, end, which) in [(0, &near, Which::Near), (1, &far, Which::Far)] {
            if lines.has(Refusal::Taken(which)) {
                put_cable(random, &mut table, end, at);
            }
        }
        let table = cut_short(random, lines, table);
        Input { table, near, far }
    }

    /// An input of a cut or a send. The cable is in one slot or in several.
    pub fn near(random: &mut Random, lines: Lines<'_>) -> Self {
        let (near, far) = numbers(random, lines);
        let near = lent_end(random, lines, Which::Near, near);
        let far = lent_end(random, lines, Which::Far, far);
        let mut table = table(random, lines);
        for _ in 0..random.pick(&[1, 1, 3]) {
            if !lines.has(Refusal::NoCable) {
                put_cable(random, &mut table, &near, 0);
            }
        }
        let table = cut_short(random, lines, table);
        Input { table, near, far }
    }
}

/// Numbers of two domains: 40 or more, or the same, where those lines hold.
fn numbers(random: &mut Random, lines: Lines<'_>) -> (u64, u64) {
    let near = random.below(DOMAINS);
    let far = (near + 1 + random.below(DOMAINS - 1)) % DOMAINS;
    let same = lines.has(Refusal::SameDomain) || !random.once_in(4);
    let (bad_near, bad_far) = (bad_domain(random, near), bad_domain(random, far));
    let has = |which| lines.has(Refusal::BadDomain(which));
    match (has(Which::Near), has(Which::Far)) {
        (true, true) if same => (bad_near, bad_near),
        (true, true) => (bad_near, bad_far),
        (true, false) => (bad_near, far),
        (false, true) => (near, bad_far),
        (false, false) if lines.has(Refusal::SameDomain) => (near, near),
        (false, false) => (near, far),
    }
}

/// What an end's domain lends: any record with any call under way, and a ledger.
fn lent_end(random: &mut Random, lines: Lines<'_>, which: Which, domain: u64) -> LentEnd {
    let has = |answer| lines.has(Refusal::Port(which, answer));
    let port = small_port(random);
    let ledger = ledger(random, port, has(Answer::NoEntry), !has(Answer::NotBound));
    let mut record = arbitrary::domain(random);
    record.given = !has(Answer::NotGiven);
    let mut bytes = random_bytes(random, DOMAIN_SIZE);
    put_domain(&mut bytes, &record);
    if lines.has(Refusal::TooShort(Part::Record(which))) {
        bytes.truncate(random.below(DOMAIN_SIZE as u64) as usize);
    }
    let port = match has(Answer::BadPort) {
        true => bad_port(random, port),
        false => port,
    };
    LentEnd {
        record: bytes,
        ledger,
        domain,
        port,
    }
}

/// Random bytes of this length or longer.
fn random_bytes(random: &mut Random, size: usize) -> Vec<u8> {
    let length = length_from(random, size);
    (0..length).map(|_| random.word() as u8).collect()
}

/// A table of other cables, full or not; free slots have zeros or other numbers.
fn table(random: &mut Random, lines: Lines<'_>) -> Vec<u8> {
    let mut bytes = vec![0xAA; length_from(random, TABLE_SIZE)];
    let full = lines.has(Refusal::TableFull);
    let some = random.pick(&[0, 4, 1020]);
    let none = random.pick(&[0, 39 << 20, 40 << 20, u32::MAX]);
    for at in 0..SLOTS {
        let first = number(at as u64 % DOMAINS, OTHERS + at as u64);
        let second = number((at as u64 + 1) % DOMAINS, 2 * OTHERS + at as u64);
        let slot = match full || at < some {
            true => Slot([first, second]),
            false => Slot([first & none, none]),
        };
        put_slot(&mut bytes, at, slot);
    }
    bytes
}

/// Puts a cable of the end, from its first number or its second, in an even slot or an odd one.
fn put_cable(random: &mut Random, table: &mut [u8], end: &LentEnd, odd: usize) {
    let Some(end) = End::of(end.domain, end.port) else {
        return;
    };
    let other = number(random.below(DOMAINS), 3 * OTHERS + random.below(OTHERS));
    let ends = match random.once_in(2) {
        true => [end.number(), other],
        false => [other, end.number()],
    };
    let at = 2 * random.below(SLOTS as u64 / 2) as usize + odd;
    put_slot(table, at, Slot(ends));
}

fn cut_short(random: &mut Random, lines: Lines<'_>, mut table: Vec<u8>) -> Vec<u8> {
    if lines.has(Refusal::TooShort(Part::Table)) {
        table.truncate(random.pick(&[0, 1, 8, 4096, TABLE_SIZE - 8, TABLE_SIZE - 1]));
    }
    table
}
