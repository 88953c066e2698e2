//! Domain numbers, ports and hints that histories choose from.

use super::asked::EndAt;
use super::cabled::Cabled;
use crate::boundary::cables::NO_HINT;
use crate::model::arbitrary::with_bit_from;
use crate::model::cables::{End, SLOTS};
use crate::random::Random;

/// Numbers that are no domain's; some, in 32 bits beside a port, leave the number of a domain.
const BAD_DOMAINS: [u64; 8] = [
    40,
    41,
    63,
    1 << 12,
    1 << 20,
    u32::MAX as u64,
    1 << 44,
    u64::MAX,
];
/// Ports that are refused with 3.
const BAD_PORTS: [u64; 8] = [
    0,
    131_072,
    131_073,
    (1 << 20) - 1,
    1 << 20,
    (1 << 20) + 5,
    u32::MAX as u64,
    u64::MAX,
];

/// A number of 40 or more: one of these, or a domain's with one bit more.
pub fn bad_domain(random: &mut Random, domain: u64) -> u64 {
    match random.once_in(2) {
        true => random.pick(&BAD_DOMAINS),
        false => with_bit_from(random, 6, domain),
    }
}

/// A port that is refused with 3: one of these, or a good one with one bit more.
pub fn bad_port(random: &mut Random, port: u64) -> u64 {
    match random.once_in(2) {
        true => random.pick(&BAD_PORTS),
        false => with_bit_from(random, 17, port),
    }
}

/// An end as one number; 0 where there is none.
pub fn number(domain: u64, port: u64) -> u32 {
    End::of(domain, port).map_or(0, End::number)
}

/// A hint of a send: none, a slot that has the end, another slot, or no slot's number.
pub fn hint(random: &mut Random, cabled: &Cabled, near: EndAt) -> u32 {
    let end = End::of(near.domain, near.port);
    let slots = cabled.table.as_ref().map_or(&[][..], |table| table.slots());
    let mut has = slots
        .iter()
        .map(|slot| end.is_some_and(|end| slot.has(end)));
    let found = match random.below(8) {
        0 | 1 => None,
        2 | 3 => has.position(|has| has),
        4 => has.rposition(|has| has),
        5 => Some(random.below(SLOTS as u64) as usize),
        6 => Some(random.below(24) as usize),
        _ => Some(random.pick(&[SLOTS + 1, 1 << 31, u32::MAX as usize])),
    };
    found.map_or(NO_HINT, |slot| slot as u32)
}
