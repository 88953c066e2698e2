//! Small rules of cables that a seeded fault can change, one function each.

use super::refusal::{Refusal, Which};
use super::rules::{Lent, Named};
use super::table::{End, Slot, Table, DOMAINS};
use super::Cables;
use crate::model::answer::{Answer, Next};
use crate::model::domain::{Call, Owner, Stage};
use crate::model::kinds::Port;
use crate::model::starts::unless;

/// A single fault; `None` is the rules as written.
#[derive(Clone, Copy, Debug, Default, PartialEq, Eq)]
#[allow(missing_docs)]
pub enum CableFault {
    #[default]
    None,
    CloseKeeps,
    ReplyKeeps,
    RefusedReplyCuts,
    BegunCloseCuts,
    OtherStageCuts,
    ClosedNumberWraps,
    ClosedPortWraps,
    LowestOnly,
    TakenForNone,
    NearForFar,
    HintTrusted,
    HintIgnored,
    SendUnderWay,
    SecondFree,
    FreshOnly,
    EndsSwapped,
    HalfTaken,
    FarEndUntaken,
    OutsideRefused,
    FullFirst,
    FarFirst,
    ShortFirst,
    SameFirst,
    FarNumberUnasked,
    NumberCut,
}

use CableFault as Fault;

impl CableFault {
    /// Every fault in words.
    pub const ALL: [(CableFault, &'static str); 25] = [
        (Fault::CloseKeeps, "a close at once does not cut"),
        (Fault::ReplyKeeps, "a close's reply does not cut"),
        (Fault::RefusedReplyCuts, "a close's reply cuts at 14"),
        (Fault::BegunCloseCuts, "a close cuts when it begins"),
        (Fault::OtherStageCuts, "a close at another stage cuts"),
        (Fault::ClosedNumberWraps, "a closing domain's number wraps"),
        (Fault::ClosedPortWraps, "a closing port from 2^20 on wraps"),
        (Fault::LowestOnly, "only the lowest slot is freed"),
        (Fault::TakenForNone, "25 for 26"),
        (Fault::NearForFar, "send gives the near end"),
        (Fault::HintTrusted, "a hinted cable is not looked at"),
        (Fault::HintIgnored, "the hint is ignored"),
        (Fault::SendUnderWay, "send gives 15 for the near domain"),
        (Fault::SecondFree, "lay takes the second free slot"),
        (Fault::FreshOnly, "only slots of zeros are free"),
        (Fault::EndsSwapped, "lay puts the far end first"),
        (Fault::HalfTaken, "an end of no cable is taken"),
        (Fault::FarEndUntaken, "25 for the near end alone"),
        (Fault::OutsideRefused, "lay, cut and send give 6"),
        (Fault::FullFirst, "34 before 25"),
        (Fault::FarFirst, "the far end's refusals first"),
        (Fault::ShortFirst, "64 before 23"),
        (Fault::SameFirst, "24 before 23"),
        (Fault::FarNumberUnasked, "23 for the near number alone"),
        (Fault::NumberCut, "a domain number is cut to 32 bits"),
    ];
}

impl Cables {
    fn has(&self, fault: Fault) -> bool {
        self.fault == fault
    }

    /// A domain number: all its 64 bits.
    pub(super) fn whole(&self, number: u64) -> u64 {
        match self.fault {
            Fault::NumberCut => number % (1 << 32),
            _ => number,
        }
    }

    /// 23 of one end.
    pub(super) fn known(&self, named: &Named<'_>, which: Which) -> Result<(), Refusal> {
        let bad = self.whole(named.domain) >= DOMAINS;
        unless(bad, Refusal::BadDomain(which))
    }

    /// 23 of both ends.
    pub(super) fn known_numbers(&self, near: &Named<'_>, far: &Named<'_>) -> Result<(), Refusal> {
        self.known(near, Which::Near)?;
        match self.fault {
            Fault::FarNumberUnasked => Ok(()),
            _ => self.known(far, Which::Far),
        }
    }

    /// 24.
    pub(super) fn in_two_domains(&self, near: &Named<'_>, far: &Named<'_>) -> Result<(), Refusal> {
        let same = self.whole(near.domain) == self.whole(far.domain);
        unless(same, Refusal::SameDomain)
    }

    /// 23, 24, 64.
    pub(super) fn before_ports<T>(
        &self,
        numbers: Result<(), Refusal>,
        differ: Result<(), Refusal>,
        whole: Result<T, Refusal>,
    ) -> Result<T, Refusal> {
        match self.fault {
            Fault::ShortFirst => whole.and_then(|whole| numbers.and(differ).map(|()| whole)),
            Fault::SameFirst => differ.and(numbers).and(whole),
            _ => numbers.and(differ).and(whole),
        }
    }

    /// All refusals of the near end come before any of the far one.
    pub(super) fn in_turn(
        &self,
        near: Result<End, Refusal>,
        far: Result<End, Refusal>,
    ) -> Result<(End, End), Refusal> {
        match self.fault {
            Fault::FarFirst => far.and_then(|far| Ok((near?, far))),
            _ => near.and_then(|near| Ok((near, far?))),
        }
    }

    /// No 6: a port outside the array has an end like any other.
    pub(super) fn in_array(&self, lent: Lent<'_>, port: Port, which: Which) -> Result<(), Refusal> {
        let outside = self.has(Fault::OutsideRefused) && !lent.record.in_array(port);
        unless(outside, Refusal::Port(which, Answer::OutsideArray))
    }

    /// No 15: a send goes through while the near domain has a call under way.
    pub(super) fn at_rest(&self, near: &Named<'_>) -> Result<(), Refusal> {
        let call = near.lent.and_then(|lent| lent.record.call);
        let refused = self.has(Fault::SendUnderWay) && call.is_some();
        unless(refused, Refusal::Port(Which::Near, Answer::UnderWay))
    }

    /// 25 of both ends.
    pub(super) fn untaken(&self, table: &Table, near: End, far: End) -> Result<(), Refusal> {
        unless(self.is_taken(table, near), Refusal::Taken(Which::Near))?;
        let far_taken = self.is_taken(table, far) && !self.has(Fault::FarEndUntaken);
        unless(far_taken, Refusal::Taken(Which::Far))
    }

    /// Whether a cable has the end.
    fn is_taken(&self, table: &Table, end: End) -> bool {
        let number = |slot: &Slot| slot.0.contains(&end.number());
        match self.fault {
            Fault::HalfTaken => table.slots().iter().any(number),
            _ => table.lowest(end).is_some(),
        }
    }

    /// The slot that a lay takes.
    pub(super) fn free_slot(&self, table: &Table) -> Option<usize> {
        let slots = || table.slots().iter().enumerate();
        match self.fault {
            Fault::SecondFree => {
                let mut free = slots().filter(|(_, slot)| slot.cable().is_none());
                free.nth(1).map(|(at, _)| at)
            }
            Fault::FreshOnly => {
                let mut fresh = slots().filter(|(_, slot)| **slot == Slot::FRESH);
                fresh.next().map(|(at, _)| at)
            }
            _ => table.lowest_free(),
        }
    }

    /// 25, 34.
    pub(super) fn before_laying(
        &self,
        untaken: Result<(), Refusal>,
        free: Result<usize, Refusal>,
    ) -> Result<usize, Refusal> {
        match self.fault {
            Fault::FullFirst => free.and_then(|slot| untaken.map(|()| slot)),
            _ => untaken.and(free),
        }
    }

    /// The slot of a new cable: the near end first.
    pub(super) fn laid(&self, near: End, far: End) -> Slot {
        match self.fault {
            Fault::EndsSwapped => Slot::of(far, near),
            _ => Slot::of(near, far),
        }
    }

    /// 26.
    pub(super) fn no_cable(&self) -> Refusal {
        match self.fault {
            Fault::TakenForNone => Refusal::Taken(Which::Near),
            _ => Refusal::NoCable,
        }
    }

    /// The slot of a send's cable.
    pub(super) fn find(&self, table: &Table, end: End, hint: u32) -> Option<usize> {
        let hinted = table.slots().get(hint as usize);
        match self.fault {
            Fault::HintTrusted if hinted.is_some_and(|slot| slot.cable().is_some()) => {
                Some(hint as usize)
            }
            Fault::HintIgnored => table.lowest(end),
            _ => table.find(end, hint),
        }
    }

    /// The end that a send leads to.
    pub(super) fn across(&self, slot: Slot, near: End) -> End {
        match self.fault {
            Fault::NearForFar => near,
            _ => slot.across(near).unwrap_or(near),
        }
    }

    /// Frees every slot that has the end.
    pub(super) fn free_every(&self, table: &mut Table, end: End) {
        match (self.fault, table.lowest(end)) {
            (Fault::LowestOnly, Some(lowest)) => table.put(lowest, Slot::FRESH),
            _ => table.free_every(end),
        }
    }

    /// Whether a close falls at its start.
    pub(super) fn falls_at_start(&self, next: Next) -> bool {
        match self.fault {
            Fault::CloseKeeps => false,
            Fault::BegunCloseCuts => is_done(next) || matches!(next, Next::Access(_)),
            _ => is_done(next),
        }
    }

    /// Whether a reply is a close's and not refused. It goes by the stage, as the reply does.
    pub(super) fn falls_at_reply(&self, call: &Call, next: Next) -> bool {
        let closes = call.stage == Stage::CloseAnd;
        match self.fault {
            Fault::ReplyKeeps => false,
            Fault::RefusedReplyCuts => closes,
            Fault::OtherStageCuts => call.owner == Owner::Close && is_done(next),
            _ => closes && is_done(next),
        }
    }

    /// The end that a close cuts; none where the domain's number is 40 or more.
    pub(super) fn closed_end(&self, number: u64, port: u64) -> Option<End> {
        match self.fault {
            Fault::ClosedNumberWraps => End::of(number % (1 << 12), port),
            Fault::ClosedPortWraps => End::of(number.wrapping_add(port >> 20), port % (1 << 20)),
            _ => End::of(number, port),
        }
    }
}

fn is_done(next: Next) -> bool {
    matches!(next, Next::Answer(Answer::Done, _))
}
