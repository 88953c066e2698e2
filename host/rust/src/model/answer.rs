//! Answers with the documents' numbers and values, and what a call or reply gives.

use super::access::Access;
use super::kinds::Port;

/// Every answer of document 01's table, and clear_mask's 35.
#[derive(Clone, Copy, Debug, PartialEq, Eq)]
pub enum Answer {
    /// 0: done.
    Done,
    /// 0: done, with the number of link bits (init_control only).
    DoneLinkBits(u32),
    /// 1: done, upcall wanted.
    UpcallWanted,
    /// 2: done, link abandoned after five tries.
    LinkAbandoned,
    /// 3: port 0 or at least 131,072.
    BadPort,
    /// 4: port not bound.
    NotBound,
    /// 5: port already bound.
    AlreadyBound,
    /// 6: port outside the present array.
    OutsideArray,
    /// 7: its old event is still LINKED.
    StillLinked,
    /// 8: priority above 15.
    BadPriority,
    /// 9: control block already given.
    AlreadyGiven,
    /// 10: control block not yet given.
    NotGiven,
    /// 11: frame not below the domain's frame count.
    BadFrame,
    /// 12: offset not a multiple of 8, or above 4,024.
    BadOffset,
    /// 13: 128 pages or more already.
    PagesFull,
    /// 14: lent ledger has no entry for the port.
    NoEntry,
    /// 15: a call is under way.
    UnderWay,
    /// 16: reply with no call under way.
    NoCall,
    /// 17: VCPU other than 0.
    BadVcpu,
    /// 18: index from the hypervisor is 0 or outside the array.
    BadIndex,
    /// 19: port handed over.
    HandedOver(Port),
    /// 20: idle.
    Idle,
    /// 21: taken, not handed over.
    NotHandedOver(Port),
    /// 35: call unmask.
    CallUnmask,
}

impl Answer {
    /// The number in the documents.
    pub fn number(self) -> u32 {
        match self {
            Answer::Done | Answer::DoneLinkBits(_) => 0,
            Answer::UpcallWanted => 1,
            Answer::LinkAbandoned => 2,
            Answer::BadPort => 3,
            Answer::NotBound => 4,
            Answer::AlreadyBound => 5,
            Answer::OutsideArray => 6,
            Answer::StillLinked => 7,
            Answer::BadPriority => 8,
            Answer::AlreadyGiven => 9,
            Answer::NotGiven => 10,
            Answer::BadFrame => 11,
            Answer::BadOffset => 12,
            Answer::PagesFull => 13,
            Answer::NoEntry => 14,
            Answer::UnderWay => 15,
            Answer::NoCall => 16,
            Answer::BadVcpu => 17,
            Answer::BadIndex => 18,
            Answer::HandedOver(_) => 19,
            Answer::Idle => 20,
            Answer::NotHandedOver(_) => 21,
            Answer::CallUnmask => 35,
        }
    }

    /// The port that 19 and 21 give.
    pub fn port(self) -> Option<Port> {
        match self {
            Answer::HandedOver(port) | Answer::NotHandedOver(port) => Some(port),
            _ => None,
        }
    }

    /// The number of link bits that init_control's 0 gives.
    pub fn link_bits(self) -> Option<u32> {
        match self {
            Answer::DoneLinkBits(bits) => Some(bits),
            _ => None,
        }
    }
}

/// What a call or reply gives: the next access, or an answer with its count.
#[derive(Clone, Copy, Debug, PartialEq, Eq)]
pub enum Next {
    /// The access that the call under way waits for.
    Access(Access),
    /// The answer, with the number of accesses that the call named.
    Answer(Answer, u32),
}

impl Next {
    /// An answer that ends no call under way counts 0.
    pub(super) fn at_once(answer: Answer) -> Self {
        Next::Answer(answer, 0)
    }

    /// The answer of a start that names no access, refused or not.
    pub(super) fn from_start(start: Result<Next, Answer>) -> Self {
        start.unwrap_or_else(Next::at_once)
    }
}

/// What mask gives: its access and its answer together, or a refusal.
#[derive(Clone, Copy, Debug, PartialEq, Eq)]
pub enum Masking {
    /// The access, named with answer 0; count 1; it takes no reply.
    Named(Access),
    /// 3 or 6; count 0.
    Refused(Answer),
}

impl Masking {
    /// The answer and its count.
    pub fn answer(self) -> (Answer, u32) {
        match self {
            Masking::Named(_) => (Answer::Done, 1),
            Masking::Refused(answer) => (answer, 0),
        }
    }
}
