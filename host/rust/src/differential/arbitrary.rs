//! Arbitrary records and ledgers: random bytes, short, long, odd, changing between start and reply.

use super::coverage::Coverage;
use super::lent::{edge, ledger_bytes, length_from, random_bytes};
use super::pair::Pair;
use crate::boundary::records::{
    put_domain, put_guest, put_number, CLEAR_STAGE, CLEAR_STAGES, DOMAIN_SIZE, GIVEN, GUEST_SIZE,
    GUEST_STAGE, OWNER, SERVICE_STAGES, STAGE, STAGES,
};
use crate::guarded::Guarded;
use crate::model::arbitrary::{self, hostile_step};
use crate::model::{Memory, Model, World};
use crate::random::Random;

const LENGTH: usize = 10;

/// One history from a seed.
pub fn history(
    pair: &mut Pair,
    random: &mut Random,
    model: Model,
    coverage: &mut Coverage,
) -> Result<(), String> {
    random_domain(random, &mut pair.lent.domain);
    random_guest(random, &mut pair.lent.guest);
    pair.begin_lent(random_world(random, model));
    let bytes = random_ledger(random);
    pair.lend_bytes(&bytes, edge(random));
    while pair.length() < LENGTH {
        let step = hostile_step(random, &pair.world);
        pair.step(step, coverage)?;
        change(random, pair);
    }
    pair.finish()
}

/// Between two steps the ledger is often another, and a record at times.
fn change(random: &mut Random, pair: &mut Pair) {
    if random.once_in(3) {
        let bytes = random_ledger(random);
        pair.lend_bytes(&bytes, edge(random));
    }
    if random.once_in(16) {
        random_domain(random, &mut pair.lent.domain);
        pair.read_lent();
    }
    if random.once_in(16) {
        random_guest(random, &mut pair.lent.guest);
        pair.read_lent();
    }
}

/// Random memory; the records are those of the lent bytes.
fn random_world(random: &mut Random, model: Model) -> World {
    let mut world = World::fresh(model, 0, 0);
    world.memory = Memory::zeroed(random.pick(&[0, 8, 16]));
    let words = &mut world.memory.words;
    words.iter_mut().for_each(|w| *w = arbitrary::word(random));
    world.memory.control.ready = random.word();
    let head = &mut world.memory.control.head;
    head.iter_mut().for_each(|h| *h = arbitrary::port(random));
    world
}

/// A record's length: mostly enough.
fn length(random: &mut Random, size: usize) -> usize {
    match random.below(16) {
        0 => random.below(size as u64) as usize,
        1 => size - 1,
        _ => length_from(random, size),
    }
}

/// A hypervisor's record: random bytes, or random fields with codes that may be none of the list.
pub(super) fn random_domain(random: &mut Random, bytes: &mut Guarded) {
    let length = length(random, DOMAIN_SIZE);
    random_bytes(random, bytes, length);
    if length < DOMAIN_SIZE {
        return;
    }
    if !random.once_in(8) {
        put_domain(bytes.bytes_mut(), &arbitrary::domain(random));
    }
    if random.once_in(6) {
        put_number(bytes.bytes_mut(), OWNER, code(random, 6));
        put_number(bytes.bytes_mut(), STAGE, code(random, STAGES + 1));
    }
    if random.once_in(6) {
        let given = random.pick(&[0, 2, 256, 1 << 16, 1 << 31, u32::MAX]);
        put_number(bytes.bytes_mut(), GIVEN, given);
    }
}

/// A guest's record, likewise.
fn random_guest(random: &mut Random, bytes: &mut Guarded) {
    let length = length(random, GUEST_SIZE);
    random_bytes(random, bytes, length);
    if length < GUEST_SIZE {
        return;
    }
    if !random.once_in(8) {
        put_guest(bytes.bytes_mut(), &arbitrary::guest(random));
    }
    if random.once_in(6) {
        let stage = code(random, SERVICE_STAGES + 2);
        put_number(bytes.bytes_mut(), GUEST_STAGE, stage);
    }
    if random.once_in(6) {
        let stage = code(random, CLEAR_STAGES + 2);
        put_number(bytes.bytes_mut(), CLEAR_STAGE, stage);
    }
}

/// A code, mostly below `list`.
fn code(random: &mut Random, list: u32) -> u32 {
    match random.below(8) {
        0 => random.word(),
        1 => random.pick(&[255, 256, 1 << 16, 0x0100_0001, u32::MAX]),
        _ => random.below(list.into()) as u32,
    }
}

/// The bytes of any ledger.
pub fn random_ledger(random: &mut Random) -> Vec<u8> {
    let entries = arbitrary::ledger(random);
    ledger_bytes(random, &entries)
}
