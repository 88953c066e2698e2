//! Operands, limits and small rules that a seeded fault can change, one function each: `rules`
//! those of document 01, `busy` and `clear_mask` those of T-05.

mod busy;
mod clear_mask;
mod rules;

use super::Model;

/// A single fault; `None` is the rules as written.
#[derive(Clone, Copy, Debug, Default, PartialEq, Eq)]
pub enum Faults {
    /// The rules as written.
    #[default]
    None,
    /// R1 ors 40000000.
    R1Operand,
    /// U1 ands 7FFFFFFF.
    U1Operand,
    /// G2 ands DFFF0000.
    G2Operand,
    /// G4 ands BFFFFFFF.
    G4Operand,
    /// READY's bit is that of the next queue.
    ReadyBit,
    /// Six tries.
    TryLimit,
    /// Port 131,071 is refused.
    PortLimit,
    /// Offset 4,032 is accepted.
    OffsetLimit,
    /// 129 pages.
    PageLimit,
    /// R2's "its last queue is not q" is negated.
    StaleTailTest,
    /// Close sets priority 0.
    ClosePriority,
    /// Close clears bit 9.
    CloseClearsLinked,
    /// 4 comes before 14.
    NotBoundFirst,
    /// G2 clears the local bit when the LINK seen is not 0.
    G2LocalBit,
    /// A service takes the highest set queue.
    HighestQueue,
    /// A service takes the lowest queue of READY's before those of the local bits.
    NewBitsFirst,
    /// The count starts at 0.
    FirstCount,
    /// The cas keeps the old LINK.
    CasLink,
    /// R5 stores the tail.
    R5Value,
    /// 18 leaves H.
    BadIndexHead,
    /// Tell takes the smaller number.
    TellSmaller,
    /// A tail at or beyond the array's end counts as none.
    OutsideIsNone,
    /// A port is cut to 32 bits.
    PortCut,
    /// A priority is cut to 32 bits.
    PriorityCut,
    /// A VCPU is cut to 32 bits.
    VcpuCut,
    /// A frame is cut to 32 bits.
    FrameCut,
    /// A frame count is cut to 32 bits.
    FramesCut,
    /// An offset is cut to 32 bits.
    OffsetCut,
    /// A mask's number of words is cut to 32 bits.
    MaskWordsCut,
    /// The number of words told is cut to 32 bits.
    ToldWordsCut,
    /// clear_mask's port is cut to 32 bits.
    ClearPortCut,
    /// Four tries.
    FewerTries,
    /// After a first cas not taken the next follows, and BUSY is never set.
    BusyNever,
    /// BUSY is also set where the first cas saw LINKED lost.
    BusyWhereLost,
    /// The or sets bit 27.
    BusyOperand,
    /// The and clears LINKED.
    ClearBusyOperand,
    /// The cas after the or compares with the word that the or saw.
    BusyUncompared,
    /// No cas's new word clears BUSY.
    CasKeepsBusy,
    /// The first cas's new word keeps BUSY.
    FirstCasKeepsBusy,
    /// The last cas's new word keeps BUSY.
    LastCasKeepsBusy,
    /// Where LINKED is lost BUSY is left.
    BusyLeftAtHead,
    /// BUSY is left at answer 2.
    BusyLeftAtEnd,
    /// HEAD is stored before BUSY is cleared.
    BusyAfterHead,
    /// The word that the and sees decides between answer 2 and HEAD.
    ClearedWordJudged,
    /// For answer 2 the tail moves before BUSY is cleared.
    EarlyTail,
    /// clear_mask ignores BUSY.
    ClearIgnoresBusy,
    /// clear_mask ignores PENDING.
    ClearIgnoresPending,
    /// clear_mask tries its cas whether or not the word is MASKED.
    ClearIgnoresMasked,
    /// clear_mask stores the new word.
    ClearStores,
    /// clear_mask's new word has LINK 0.
    ClearDropsLink,
    /// clear_mask's cas is not counted.
    ClearCount,
    /// clear_mask answers 0 where its cas is not taken.
    ClearLostDone,
    /// clear_mask answers 35 where its cas is taken.
    ClearTakenRefused,
    /// A clear_mask begins during another.
    ClearTwice,
    /// A clear_mask is refused during a service.
    ClearNotInService,
    /// clear_mask has no 6.
    ClearAnyWord,
    /// clear_mask's 6 comes before 3.
    ClearOutsideFirst,
    /// A service begins during a clear_mask.
    ServiceInClear,
    /// A reply during a clear_mask is the service's.
    ReplyToService,
    /// The access due during a clear_mask is the service's.
    DueOfService,
    /// A clear_mask's answer ends the service, too.
    ClearEndsService,
}

impl Faults {
    /// Every fault of a rule with the words of the list it stands in.
    pub const ALL: [(Faults, &'static str); 52] = [
        (Faults::R1Operand, "R1 operand 80000000 -> 40000000"),
        (Faults::U1Operand, "U1 operand BFFFFFFF -> 7FFFFFFF"),
        (Faults::G2Operand, "G2 operand DFFE0000 -> DFFF0000"),
        (Faults::G4Operand, "G4 operand 7FFFFFFF -> BFFFFFFF"),
        (Faults::ReadyBit, "READY bit q -> q+1"),
        (Faults::TryLimit, "try limit 5 -> 6"),
        (Faults::PortLimit, "port limit 131,072 -> 131,071"),
        (Faults::OffsetLimit, "offset limit 4,024 -> 4,032"),
        (Faults::PageLimit, "page limit 128 -> 129"),
        (Faults::StaleTailTest, "R2's last != q negated"),
        (Faults::ClosePriority, "close priority 7 -> 0"),
        (Faults::CloseClearsLinked, "close clears bit 9"),
        (Faults::NotBoundFirst, "14 and 4 exchanged"),
        (Faults::G2LocalBit, "G2 clears the bit when LINK != 0"),
        (Faults::HighestQueue, "the highest ready queue"),
        (Faults::NewBitsFirst, "READY's queues before local ones"),
        (Faults::FirstCount, "count 1 -> 0 at start"),
        (Faults::CasLink, "cas operand keeps the old LINK"),
        (Faults::R5Value, "R5 value p -> T[q]"),
        (Faults::BadIndexHead, "18 leaves H[q]"),
        (Faults::TellSmaller, "tell min for max"),
        (Faults::OutsideIsNone, "a tail outside the array is none"),
        (Faults::FewerTries, "try limit 5 -> 4"),
        (Faults::BusyNever, "BUSY is never set"),
        (Faults::BusyWhereLost, "BUSY is set where LINKED is lost"),
        (Faults::BusyOperand, "or operand 10000000 -> 08000000"),
        (Faults::ClearBusyOperand, "and operand EFFFFFFF -> DFFFFFFF"),
        (
            Faults::BusyUncompared,
            "the or's word compared without BUSY",
        ),
        (Faults::CasKeepsBusy, "every cas's new word keeps BUSY"),
        (
            Faults::FirstCasKeepsBusy,
            "the first cas's new word keeps BUSY",
        ),
        (
            Faults::LastCasKeepsBusy,
            "the last cas's new word keeps BUSY",
        ),
        (Faults::BusyLeftAtHead, "no and where LINKED is lost"),
        (Faults::BusyLeftAtEnd, "no and before answer 2"),
        (Faults::BusyAfterHead, "the and after HEAD"),
        (Faults::ClearedWordJudged, "2 by the word that the and sees"),
        (Faults::EarlyTail, "T[q] moves before the and"),
        (Faults::ClearIgnoresBusy, "clear_mask ignores BUSY"),
        (Faults::ClearIgnoresPending, "clear_mask ignores PENDING"),
        (Faults::ClearIgnoresMasked, "clear_mask ignores MASKED"),
        (Faults::ClearStores, "clear_mask stores"),
        (Faults::ClearDropsLink, "clear_mask drops LINK"),
        (Faults::ClearCount, "clear_mask's cas is not counted"),
        (Faults::ClearLostDone, "clear_mask: 0 where its cas is lost"),
        (
            Faults::ClearTakenRefused,
            "clear_mask: 35 where it is taken",
        ),
        (Faults::ClearTwice, "no 15 during a clear_mask"),
        (Faults::ClearNotInService, "clear_mask: 15 during a service"),
        (Faults::ClearAnyWord, "clear_mask has no 6"),
        (Faults::ClearOutsideFirst, "clear_mask: 6 before 3"),
        (Faults::ServiceInClear, "service begins during a clear_mask"),
        (Faults::ReplyToService, "clear_mask's reply to the service"),
        (Faults::DueOfService, "due is the service's first"),
        (
            Faults::ClearEndsService,
            "clear_mask's answer ends the service",
        ),
    ];

    /// Every argument of 64 bits, cut.
    pub const CUTS: [(Faults, &'static str); 9] = [
        (Faults::PortCut, "port cut to 32 bits"),
        (Faults::PriorityCut, "priority cut to 32 bits"),
        (Faults::VcpuCut, "VCPU cut to 32 bits"),
        (Faults::FrameCut, "frame cut to 32 bits"),
        (Faults::FramesCut, "frame count cut to 32 bits"),
        (Faults::OffsetCut, "offset cut to 32 bits"),
        (Faults::MaskWordsCut, "mask's words cut to 32 bits"),
        (Faults::ToldWordsCut, "tell's words cut to 32 bits"),
        (Faults::ClearPortCut, "clear_mask's port cut to 32 bits"),
    ];
}

impl Model {
    fn has(&self, fault: Faults) -> bool {
        self.fault == fault
    }

    fn choose<T>(&self, fault: Faults, faulty: T, right: T) -> T {
        if self.has(fault) {
            faulty
        } else {
            right
        }
    }

    /// An argument: all its 64 bits.
    pub(in crate::model) fn whole(&self, fault: Faults, number: u64) -> u64 {
        self.choose(fault, number % (1 << 32), number)
    }
}
