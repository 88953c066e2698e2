//! Stages: a call under way on either side whose record and entry are about its own port, then
//! replies with words chosen so that every branch is met, until both calls have ended.

use super::coverage::Coverage;
use super::pair::Pair;
use crate::model::arbitrary::word;
use crate::model::{
    ClearStage, ClearTag, Domain, Entry, FlatCall, FlatClear, FlatService, Guest, Model, Owner,
    ServiceTag, Side, Stage, StageTag, Step, World,
};
use crate::random::Random;

const LENGTH: usize = 32;
const BUSY: u32 = 1 << 28;
const LINKED: u32 = 1 << 29;
const MASKED: u32 = 1 << 30;
const PENDING: u32 = 1 << 31;
const PORTS: [u32; 8] = [1, 2, 5, 9, 40, 1023, 1024, 1030];
/// Few queues, so that a port's priority and its last queue often are the same.
const QUEUES: [u16; 4] = [0, 7, 7, 15];
const COUNTS: [u32; 6] = [1, 2, 3, 8, u32::MAX - 1, u32::MAX];

/// One history from a seed.
pub fn history(
    pair: &mut Pair,
    random: &mut Random,
    model: Model,
    coverage: &mut Coverage,
) -> Result<(), String> {
    let port = random.pick(&PORTS);
    let mut world = World::fresh(model, 0, 0);
    world.domain = domain(random, port);
    world.guest = guest(random);
    world.ledger = ledger(random, port);
    pair.begin(world, random);
    while pair.length() < LENGTH && under_way(&pair.world) {
        let side = random.pick(&[Side::Hypervisor, Side::Guest]);
        let seen = match side {
            Side::Hypervisor => hypervisor_word(random, &pair.world),
            Side::Guest => guest_word(random, &pair.world.guest),
        };
        pair.step(Step::HandBack(side, seen), coverage)?;
    }
    pair.finish()
}

fn under_way(world: &World) -> bool {
    world.domain.call.is_some() || world.guest.is_under_way()
}

/// A raise or unmask of the port; tails that are the port, others, outside or none.
fn domain(random: &mut Random, port: u32) -> Domain {
    let mut tails = [0; 16];
    for tail in &mut tails {
        *tail = random.pick(&[0, port, port, 3, 1023, 1024, 2048, 131_072]);
    }
    let owner = random.pick(&[Owner::Raise, Owner::Unmask]);
    let first = match owner {
        Owner::Unmask => StageTag::U1,
        _ => StageTag::R1,
    };
    let call = FlatCall {
        owner: Some(owner),
        stage: random.pick(&[first, StageTag::R2, StageTag::R2, StageTag::R3]),
        port,
        queue: u32::from(random.pick(&QUEUES)),
        word: 0,
        tries: 0,
        count: random.pick(&COUNTS),
    };
    Domain {
        given: true,
        pages: random.pick(&[0, 1, 1, 2]),
        tails,
        call: call.call(),
    }
}

/// A ledger that ends with the port's entry, whose queues are few.
fn ledger(random: &mut Random, port: u32) -> Vec<Entry> {
    let mut ledger = Entry::ledger(port as usize + 1);
    let queues = random.pick(&QUEUES) | random.pick(&QUEUES) << 4;
    let rest = random.word() as u16 & 0xFF00;
    ledger[port as usize] = Entry::from_bits(queues | rest);
    ledger
}

/// A service at any stage, often with a clear_mask; heads that are inside, outside or none.
fn guest(random: &mut Random) -> Guest {
    let mut heads = [0; 16];
    for head in &mut heads {
        *head = random.pick(&[0, 5, 1023, 1024, 0x2_0005]);
    }
    let service = FlatService {
        stage: random.pick(&[
            None,
            Some(ServiceTag::G0),
            Some(ServiceTag::G0),
            Some(ServiceTag::G1),
            Some(ServiceTag::G2),
            Some(ServiceTag::G3),
        ]),
        port: random.pick(&PORTS),
        queue: random.below(16) as u32,
        count: random.pick(&COUNTS),
    };
    Guest {
        heads,
        local: random.pick(&[0, 1 << 7, 0x8001, 0xFFFF_0000]),
        words: 1024,
        call: service.service(),
        clearing: clearing(random).clear_mask(),
    }
}

fn clearing(random: &mut Random) -> FlatClear {
    FlatClear {
        stage: random.pick(&[None, Some(ClearTag::Read), Some(ClearTag::Read)]),
        port: random.pick(&PORTS),
        word: 0,
        count: random.pick(&COUNTS),
    }
}

/// A word that mostly leads the call on.
fn hypervisor_word(random: &mut Random, world: &World) -> u32 {
    let any = word(random);
    match world.domain.call.map(|call| call.stage) {
        Some(Stage::R2) if !random.once_in(8) => any & !LINKED,
        Some(Stage::R1) if !random.once_in(3) => any & !(LINKED | MASKED),
        Some(Stage::R3 { .. } | Stage::SetBusy { .. }) if !random.once_in(8) => any | LINKED,
        Some(Stage::R4 { old, .. }) => match random.below(10) {
            0 | 1 => old,
            2 => any & !LINKED,
            3 => any | LINKED,
            _ => any | LINKED | BUSY,
        },
        _ => any,
    }
}

/// For a clear_mask a word that mostly leads it on; else READY's bits, an index, or an event word.
fn guest_word(random: &mut Random, guest: &Guest) -> u32 {
    if let Some(clearing) = guest.clearing {
        return clearing_word(random, clearing.stage);
    }
    match (guest.call, random.below(4)) {
        (None, _) => random.word(),
        (_, 0) => random.pick(&[0, 5, 1023, 1024, 0x1_0005, 0x2_0005]),
        (_, 1) => 1 << random.below(32),
        _ => word(random),
    }
}

/// A cas's word is the old one with a bit more or less, or none.
fn clearing_word(random: &mut Random, stage: ClearStage) -> u32 {
    let any = word(random);
    match stage {
        ClearStage::Read if random.once_in(2) => any & !(PENDING | BUSY) | MASKED,
        ClearStage::Read => any,
        ClearStage::Cas { old } => old ^ random.pick(&[0, 0, PENDING, MASKED, LINKED, BUSY, 1]),
    }
}
