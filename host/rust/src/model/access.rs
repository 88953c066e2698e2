//! One atomic access: a place and an operation on the word there.

use super::kinds::{Port, Queue};

/// A word of the shared memory.
#[derive(Clone, Copy, Debug, PartialEq, Eq)]
pub enum Place {
    /// Event word of a port.
    Word(Port),
    /// READY of the control block.
    Ready,
    /// HEAD of a queue.
    Head(Queue),
}

/// What is done there.
#[derive(Clone, Copy, Debug, PartialEq, Eq)]
pub enum Op {
    /// Read.
    Read,
    /// Store the operand.
    Store(u32),
    /// Fetch-or.
    Or(u32),
    /// Fetch-and.
    And(u32),
    /// Exchange.
    Swap(u32),
    /// Compare-exchange: taken exactly when the word seen equals `old`.
    Cas {
        /// The word compared with.
        old: u32,
        /// The word stored when taken.
        new: u32,
    },
}

/// One atomic access that a call names and the host performs.
#[derive(Clone, Copy, Debug, PartialEq, Eq)]
pub struct Access {
    /// Where.
    pub place: Place,
    /// What.
    pub op: Op,
}

impl Access {
    /// `op` on the event word of `port`.
    pub fn word(port: Port, op: Op) -> Self {
        let place = Place::Word(port);
        Access { place, op }
    }

    /// `op` on READY.
    pub fn ready(op: Op) -> Self {
        let place = Place::Ready;
        Access { place, op }
    }

    /// `op` on `place`.
    pub fn at(place: Place, op: Op) -> Self {
        Access { place, op }
    }
}

impl Op {
    /// The kind's name in the access log.
    pub fn kind(self) -> &'static str {
        match self {
            Op::Read => "read",
            Op::Store(_) => "store",
            Op::Or(_) => "or",
            Op::And(_) => "and",
            Op::Swap(_) => "swap",
            Op::Cas { .. } => "cas",
        }
    }

    /// The old operand: only a cas has one.
    pub fn old(self) -> Option<u32> {
        match self {
            Op::Cas { old, .. } => Some(old),
            _ => None,
        }
    }

    /// The operand: all but a read have one; a cas's is its new word.
    pub fn operand(self) -> Option<u32> {
        match self {
            Op::Read => None,
            Op::Store(x) | Op::Or(x) | Op::And(x) | Op::Swap(x) => Some(x),
            Op::Cas { new, .. } => Some(new),
        }
    }

    /// The word left behind where `seen` was found.
    pub fn effect(self, seen: u32) -> u32 {
        match self {
            Op::Read => seen,
            Op::Store(x) | Op::Swap(x) => x,
            Op::Or(x) => seen | x,
            Op::And(x) => seen & x,
            Op::Cas { old, new } if seen == old => new,
            Op::Cas { .. } => seen,
        }
    }
}
