//! Random worlds with arbitrary records, and random steps on them with lying words.

use super::domain::{Domain, Owner, Stage};
use super::entry::Entry;
use super::flat::{ClearTag, FlatCall, FlatClear, FlatService, ServiceTag, StageTag};
use super::guest::{ClearStage, Guest};
use super::machine::{Memory, Side, Step, World};
use super::Model;
use crate::random::Random;

const STAGES: [StageTag; 12] = [
    StageTag::BindRead,
    StageTag::CloseAnd,
    StageTag::R1,
    StageTag::U1,
    StageTag::R2,
    StageTag::R3,
    StageTag::R4,
    StageTag::R4,
    StageTag::R5,
    StageTag::R6,
    StageTag::SetBusy,
    StageTag::ClearBusy,
];
const SERVICES: [Option<ServiceTag>; 7] = [
    None,
    None,
    Some(ServiceTag::G0),
    Some(ServiceTag::G1),
    Some(ServiceTag::G2),
    Some(ServiceTag::G3),
    Some(ServiceTag::G4),
];
const CLEARS: [Option<ClearTag>; 5] = [None, None, None, Some(ClearTag::Read), Some(ClearTag::Cas)];
const OWNERS: [Option<Owner>; 7] = [
    None,
    None,
    None,
    Some(Owner::Bind),
    Some(Owner::Close),
    Some(Owner::Raise),
    Some(Owner::Unmask),
];
const PORTS: [u32; 14] = [
    0,
    1,
    2,
    5,
    9,
    1023,
    1024,
    2047,
    2048,
    131_071,
    131_072,
    131_077,
    262_149,
    u32::MAX,
];
const SMALL_PORTS: [u32; 5] = [0, 1, 2, 5, 9];
const PENDING: u32 = 0x8000_0000;
const MASKED: u32 = 0x4000_0000;
const LINKED: u32 = 0x2000_0000;
const BUSY: u32 = 0x1000_0000;
/// Entries of bound and unbound ports on queues 0 and 7.
const ENTRIES: [u16; 7] = [0x0007, 0x0107, 0x0100, 0x0377, 0x0370, 0x0307, 0x0300];
const COUNTS: [u32; 6] = [0, 1, 4, 12, u32::MAX - 1, u32::MAX];
const TRIES: [u32; 9] = [0, 1, 2, 3, 4, 5, 5, 6, u32::MAX];

/// A port, mostly small.
pub fn port(random: &mut Random) -> u32 {
    match random.below(8) {
        0 => random.word(),
        1 | 2 => random.pick(&PORTS),
        _ => random.pick(&SMALL_PORTS),
    }
}

/// An event word: flags mostly, with any reserved bits and LINK at times.
pub fn word(random: &mut Random) -> u32 {
    let flags = (random.below(16) as u32) << 28;
    match random.below(4) {
        0 => random.word(),
        1 => flags | random.pick(&[0, 5, 9, 0x1_FFFF, 0x1_0005]),
        2 => flags | (random.word() & 0x0FFF_FFFF),
        _ => flags,
    }
}

/// A queue, mostly below 16.
fn queue(random: &mut Random) -> u32 {
    match random.below(8) {
        0 => random.word(),
        1 => random.pick(&[16, 23, 31, 32, u32::MAX]),
        _ => random.below(16) as u32,
    }
}

fn pages(random: &mut Random) -> u32 {
    match random.below(4) {
        0 => random.pick(&[0, 2, 127, 128, 129, 200, u32::MAX]),
        _ => 1,
    }
}

/// A flat call under way with any fields.
pub fn flat_call(random: &mut Random) -> FlatCall {
    FlatCall {
        owner: random.pick(&OWNERS),
        stage: random.pick(&STAGES),
        port: port(random),
        queue: queue(random),
        word: word(random),
        tries: random.pick(&TRIES),
        count: random.pick(&COUNTS),
    }
}

/// A flat service under way with any fields.
pub fn flat_service(random: &mut Random) -> FlatService {
    FlatService {
        stage: random.pick(&SERVICES),
        port: port(random),
        queue: queue(random),
        count: random.pick(&COUNTS),
    }
}

/// A flat clear_mask under way with any fields.
pub fn flat_clear(random: &mut Random) -> FlatClear {
    FlatClear {
        stage: random.pick(&CLEARS),
        port: port(random),
        word: word(random),
        count: random.pick(&COUNTS),
    }
}

/// Any hypervisor's record.
pub fn domain(random: &mut Random) -> Domain {
    let mut tails = [0; 16];
    tails.iter_mut().for_each(|tail| *tail = port(random));
    Domain {
        given: !random.once_in(6),
        pages: pages(random),
        tails,
        call: flat_call(random).call(),
    }
}

/// Any guest's record.
pub fn guest(random: &mut Random) -> Guest {
    let mut heads = [0; 16];
    heads.iter_mut().for_each(|head| *head = port(random));
    let local = random.pick(&[0, 0, 1, 0x80, 0x81, 0xFFFF, 0xFFFF_0000, 0x8000_0080]);
    Guest {
        heads,
        local,
        words: random.pick(&[0, 10, 1024, 2048, 131_072, 200_000, u32::MAX]),
        call: flat_service(random).service(),
        clearing: flat_clear(random).clear_mask(),
    }
}

/// Any ledger, mostly short.
pub fn ledger(random: &mut Random) -> Vec<Entry> {
    let length = random.pick(&[0, 5, 6, 10, 10, 10, 10, 1030]);
    let usual = !random.once_in(3);
    let bits = |_| match usual {
        true => random.pick(&ENTRIES),
        false => random.word() as u16,
    };
    (0..length).map(bits).map(Entry::from_bits).collect()
}

/// Any records, ledger and memory.
pub fn world(random: &mut Random, model: Model) -> World {
    let mut memory = Memory::zeroed(random.pick(&[0, 8, 16, 1024]));
    memory.words.iter_mut().for_each(|w| *w = word(random));
    memory.control.ready = random.word();
    let head = &mut memory.control.head;
    head.iter_mut().for_each(|h| *h = port(random));
    World {
        model,
        memory,
        domain: domain(random),
        ledger: ledger(random),
        guest: guest(random),
    }
}

/// The world's next step: mostly replies, with words that need not be those in memory.
pub fn hostile_step(random: &mut Random, world: &World) -> Step {
    match random.below(22) {
        0..=6 => Step::HandBack(Side::Hypervisor, hypervisor_word(random, world)),
        7..=10 => Step::HandBack(Side::Guest, guest_word(random, world)),
        11 => Step::Access(Side::Hypervisor),
        12 => Step::Access(Side::Guest),
        13 => Step::Service,
        14 => Step::ClearMask(port_argument(random)),
        15 => mask(random),
        16 => Step::Tell(words(random)),
        _ => start(random),
    }
}

/// A word for the hypervisor: often one that leads the call on, or that takes a cas.
fn hypervisor_word(random: &mut Random, world: &World) -> u32 {
    let any = word(random);
    let old = world.model.due(&world.domain).and_then(|a| a.op.old());
    match (
        random.below(4),
        world.domain.call.map(|call| call.stage),
        old,
    ) {
        (0, _, Some(old)) => old,
        (1..=2, Some(Stage::R3 { .. } | Stage::R4 { .. } | Stage::SetBusy { .. }), _) => {
            any | LINKED
        }
        (1..=2, Some(Stage::R1 | Stage::U1 | Stage::R2), _) => any & !(LINKED | MASKED),
        _ => any,
    }
}

/// A word for the guest: for a clear_mask often one that leads it on, or that takes its cas.
fn guest_word(random: &mut Random, world: &World) -> u32 {
    let stage = world.guest.clearing.map(|clearing| clearing.stage);
    match (random.below(4), stage) {
        (0..=1, Some(ClearStage::Read)) => word(random) & !(PENDING | BUSY) | MASKED,
        (2, Some(ClearStage::Read)) => word(random) | MASKED,
        (0..=1, Some(ClearStage::Cas { old })) => old,
        _ => word_or_index(random),
    }
}

fn word_or_index(random: &mut Random) -> u32 {
    if random.once_in(2) {
        word(random)
    } else {
        port(random)
    }
}

/// A number with one bit more, from bit `from` up.
pub fn with_bit_from(random: &mut Random, from: u64, number: u64) -> u64 {
    number | 1 << (from + random.below(64 - from))
}

/// An argument of 64 bits: one of the choices, at times with one bit more in the upper half.
fn argument(random: &mut Random, choices: &[u64]) -> u64 {
    let number = random.pick(choices);
    match random.once_in(10) {
        true => with_bit_from(random, 32, number),
        false => number,
    }
}

fn port_argument(random: &mut Random) -> u64 {
    let port = port(random).into();
    argument(random, &[port])
}

fn words(random: &mut Random) -> u64 {
    argument(random, &[0, 1023, 1024, 2048, 200_000, 1 << 32])
}

fn mask(random: &mut Random) -> Step {
    let port = port_argument(random);
    match random.once_in(2) {
        true => Step::Mask(port),
        false => Step::MaskWithin {
            port,
            words: words(random),
        },
    }
}

fn start(random: &mut Random) -> Step {
    let port = port_argument(random);
    match random.below(7) {
        0 => Step::InitControl {
            vcpu: argument(random, &[0, 0, 0, 1]),
            frame: argument(random, &[0, 1, 2, 3]),
            frames: argument(random, &[2, 4, u64::MAX]),
            offset: argument(random, &[0, 8, 4_020, 4_024, 4_032]),
        },
        1 => Step::ExpandArray {
            frame: argument(random, &[0, 1, 2, 3]),
            frames: argument(random, &[2, 4, u64::MAX]),
        },
        2 => Step::Bind(port),
        3 => Step::Close(port),
        4 => Step::SetPriority {
            port,
            priority: argument(random, &[0, 3, 7, 15, 16, 256]),
        },
        5 => Step::Raise(port),
        _ => Step::Unmask(port),
    }
}
