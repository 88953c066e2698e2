//! What a call gives as four numbers, decoded strictly: a field that carries nothing is 0.

use crate::model::{Access, Answer, Next, Op, Place, Port, Queue};

/// Four numbers of 32 bits, as C has them.
#[repr(C)]
#[derive(Clone, Copy, Debug, PartialEq, Eq)]
pub struct Encoded {
    /// Kind and place of an access (256 and above), or an answer's number.
    pub code: u32,
    /// Port or queue of the place; an answer's port or link bits.
    pub index: u32,
    /// Operand; an answer's count of accesses.
    pub value: u32,
    /// A cas's old word.
    pub old: u32,
}

impl Encoded {
    /// A buffer is too short.
    pub const TOO_SHORT: Encoded = Encoded {
        code: 64,
        index: 0,
        value: 0,
        old: 0,
    };

    /// The access or answer; none where the numbers are no call's.
    pub fn next(self) -> Option<Next> {
        if self.code >= 0x100 {
            return self.access().map(Next::Access);
        }
        if self.old != 0 {
            return None;
        }
        Some(Next::Answer(self.answer()?, self.value))
    }

    fn access(self) -> Option<Access> {
        let place = self.place()?;
        let op = match self.code & !0xF {
            0x100 if self.value == 0 => Op::Read,
            0x110 => Op::Store(self.value),
            0x120 => Op::Or(self.value),
            0x130 => Op::And(self.value),
            0x140 => Op::Swap(self.value),
            0x150 => {
                let (old, new) = (self.old, self.value);
                return Some(Access::at(place, Op::Cas { old, new }));
            }
            _ => return None,
        };
        (self.old == 0).then_some(Access::at(place, op))
    }

    fn place(self) -> Option<Place> {
        match self.code & 0xF {
            0 => Some(Place::Word(Port(self.index))),
            1 if self.index == 0 => Some(Place::Ready),
            2 => Some(Place::Head(Queue(self.index))),
            _ => None,
        }
    }

    fn answer(self) -> Option<Answer> {
        let carried = match self.code {
            0 if self.index != 0 => Some(Answer::DoneLinkBits(self.index)),
            19 => Some(Answer::HandedOver(Port(self.index))),
            21 => Some(Answer::NotHandedOver(Port(self.index))),
            35 if self.index == 0 => Some(Answer::CallUnmask),
            _ => None,
        };
        carried.or_else(|| PLAIN.get(self.plain_number()?).copied())
    }

    /// The number of an answer that carries no value.
    fn plain_number(self) -> Option<usize> {
        let plain = self.index == 0 && self.code != 19;
        plain.then_some(self.code as usize)
    }
}

/// Answers without a value, by number; 19's place is never read.
const PLAIN: [Answer; 21] = [
    Answer::Done,
    Answer::UpcallWanted,
    Answer::LinkAbandoned,
    Answer::BadPort,
    Answer::NotBound,
    Answer::AlreadyBound,
    Answer::OutsideArray,
    Answer::StillLinked,
    Answer::BadPriority,
    Answer::AlreadyGiven,
    Answer::NotGiven,
    Answer::BadFrame,
    Answer::BadOffset,
    Answer::PagesFull,
    Answer::NoEntry,
    Answer::UnderWay,
    Answer::NoCall,
    Answer::BadVcpu,
    Answer::BadIndex,
    Answer::Idle,
    Answer::Idle,
];
