//! The branches of clear_mask, and of the guest's other steps while one is under way.

use super::branches::Point;
use crate::model::{Answer, ClearMask, ClearStage, EventWord, Guest, Next, Step};

/// The branch of a reply to a clear_mask.
pub(super) fn of_clear_reply(clearing: &ClearMask, seen: u32) -> Point {
    let word = EventWord::from_bits(seen);
    match clearing.stage {
        ClearStage::Read => of_read(word),
        ClearStage::Cas { old } if old == seen => Point::ClearTaken,
        ClearStage::Cas { old } => of_lost(EventWord::from_bits(old), word),
    }
}

fn of_read(word: EventWord) -> Point {
    match (word.masked, word.pending, word.busy) {
        (false, false, false) => Point::ClearNotMasked,
        (false, _, _) => Point::ClearUnmasked,
        (true, true, _) => Point::ClearPending,
        (true, false, true) => Point::ClearBusy,
        (true, false, false) => Point::ClearGoes,
    }
}

fn of_lost(old: EventWord, word: EventWord) -> Point {
    match (word.busy && !old.busy, word.pending && !old.pending) {
        (true, _) => Point::ClearLostBusy,
        (false, true) => Point::ClearLostPending,
        (false, false) => Point::ClearLost,
    }
}

/// The branch of a step of the guest's that is no reply.
pub(super) fn of_guest_step(guest: &Guest, step: Step, next: Next) -> Option<Point> {
    let refused = next == Next::Answer(Answer::UnderWay, 0);
    match step {
        Step::Service if refused => Some(of_refused_service(guest)),
        Step::ClearMask(_) if refused => Some(match guest.call.is_some() {
            true => Point::ClearTwiceInService,
            false => Point::ClearTwice,
        }),
        Step::ClearMask(_) => of_begun(guest, next),
        Step::Mask(port) | Step::MaskWithin { port, .. } => {
            let clearing = guest.clearing?;
            (u64::from(clearing.port.0) == port).then_some(Point::MaskInClear)
        }
        Step::Tell(_) => guest.clearing.map(|_| Point::TellInClear),
        _ => None,
    }
}

fn of_refused_service(guest: &Guest) -> Point {
    match (guest.call.is_some(), guest.clearing.is_some()) {
        (true, false) => Point::ServiceTwice,
        (false, _) => Point::ServiceInClear,
        (true, true) => Point::ServiceTwiceInClear,
    }
}

fn of_begun(guest: &Guest, next: Next) -> Option<Point> {
    match (next, guest.call) {
        (Next::Answer(..), _) => None,
        (Next::Access(_), None) => Some(Point::ClearAlone),
        (Next::Access(_), Some(_)) => Some(Point::ClearInService),
    }
}
