//! Any line of the form: every kind, with numbers that need not be anyone's.

use crate::model::log::{Line, LoggedCall};
use crate::model::{Access, Op, Place, Port, Queue, Side};
use crate::random::Random;

const NUMBERS: [u32; 12] = [
    0,
    1,
    5,
    7,
    10,
    16,
    1023,
    1024,
    131_071,
    131_072,
    u32::MAX - 1,
    u32::MAX,
];
const WORDS: [u32; 10] = [
    0,
    5,
    0x80,
    0x1000_0000,
    0x4000_0000,
    0x8000_0000,
    0xA000_0009,
    0xDFFE_0000,
    0xEFFF_FFFF,
    u32::MAX,
];

/// A decimal below 2^32, often one at an edge.
pub fn number(random: &mut Random) -> u32 {
    match random.below(4) {
        0 => random.word(),
        1 => random.word() >> random.below(32),
        _ => random.pick(&NUMBERS),
    }
}

/// A word, often one that runs have.
pub fn word(random: &mut Random) -> u32 {
    match random.below(3) {
        0 => random.word(),
        _ => random.pick(&WORDS),
    }
}

/// A line of the form.
pub fn line(random: &mut Random) -> Line {
    match random.below(16) {
        0 => Line::Header,
        1..=5 => Line::Call(call(random)),
        6..=10 => access(random),
        _ => answer(random),
    }
}

/// A call with any arguments.
pub fn call(random: &mut Random) -> LoggedCall {
    let mut number = || number(random);
    let (port, argument, third) = (number(), number(), number());
    match random.below(10) {
        0 => LoggedCall::InitControl {
            vcpu: port,
            frame: argument,
            offset: third,
        },
        1 => LoggedCall::ExpandArray { frame: argument },
        2 => LoggedCall::Bind(port),
        3 => LoggedCall::Close(port),
        4 => LoggedCall::SetPriority {
            port,
            priority: argument,
        },
        5 => LoggedCall::Raise(port),
        6 => LoggedCall::Unmask(port),
        7 => LoggedCall::Service,
        8 => LoggedCall::Mask(port),
        _ => LoggedCall::ClearMask(port),
    }
}

/// Either side.
pub fn side(random: &mut Random) -> Side {
    random.pick(&[Side::Hypervisor, Side::Guest])
}

/// Any place.
pub fn place(random: &mut Random) -> Place {
    match random.below(3) {
        0 => Place::Word(Port(number(random))),
        1 => Place::Ready,
        _ => Place::Head(Queue(number(random))),
    }
}

fn access(random: &mut Random) -> Line {
    let (operand, old) = (word(random), word(random));
    let op = match random.below(6) {
        0 => Op::Read,
        1 => Op::Store(operand),
        2 => Op::Or(operand),
        3 => Op::And(operand),
        4 => Op::Swap(operand),
        _ => Op::Cas { old, new: operand },
    };
    let seen = match op {
        Op::Store(_) => None,
        _ => Some(word(random)),
    };
    let (side, place) = (side(random), place(random));
    let access = Access { place, op };
    Line::Access { side, access, seen }
}

fn answer(random: &mut Random) -> Line {
    let number = match random.below(4) {
        0 => number(random),
        1 => random.pick(&[19, 21]),
        _ => random.below(36) as u32,
    };
    let port = matches!(number, 19 | 21).then(|| Port(self::number(random)));
    let side = side(random);
    Line::Answer { side, number, port }
}
