//! The branches of R4 and of BUSY.

use super::branches::Point;
use crate::model::{Call, EventWord, Stage};

/// The branch of a cas, by its number, whether it was taken, and the word seen.
pub(super) fn of_r4(taken: bool, seen: EventWord, tries: u32) -> Point {
    let later = (2..=5).contains(&tries);
    match (tries, seen.linked) {
        (0, _) => Point::R4Zero,
        (6.., _) => Point::R4Beyond,
        _ if taken => of_taken(tries),
        (_, false) => of_lost(tries),
        _ if later && !seen.busy => Point::R4BusyGone,
        (1, true) => Point::R4Again1,
        (2, true) => Point::R4Again2,
        (3, true) => Point::R4Again3,
        (4, true) => Point::R4Again4,
        _ => Point::R4Abandoned,
    }
}

fn of_taken(tries: u32) -> Point {
    match tries {
        1 => Point::R4Taken1,
        2 => Point::R4Taken2,
        3 => Point::R4Taken3,
        4 => Point::R4Taken4,
        _ => Point::R4Taken5,
    }
}

fn of_lost(tries: u32) -> Point {
    match tries {
        1 => Point::R4Lost1,
        2 => Point::R4Lost2,
        3 => Point::R4Lost3,
        4 => Point::R4Lost4,
        _ => Point::R4Lost5,
    }
}

/// The branch of the or that sets BUSY.
pub(super) fn of_set_busy(seen: EventWord) -> Point {
    match (seen.linked, seen.busy) {
        (false, _) => Point::BusyLost,
        (true, false) => Point::BusyLinked,
        (true, true) => Point::BusyWasSet,
    }
}

/// The branch of the and that clears BUSY: the word kept decides, not the one seen.
pub(super) fn of_clear_busy(kept: EventWord, seen: EventWord) -> Point {
    match (kept.linked, seen.linked) {
        (false, false) => Point::UnbusyHead,
        (false, true) => Point::UnbusyHeadLinked,
        (true, true) => Point::UnbusyEnds,
        (true, false) => Point::UnbusyEndsLost,
    }
}

/// The branch of a reply of BUSY's accesses that is refused with 14.
pub(super) fn of_refused(call: &Call) -> Option<Point> {
    match call.stage {
        Stage::SetBusy { .. } => Some(Point::BusyNoEntry),
        Stage::ClearBusy { .. } => Some(Point::UnbusyNoEntry),
        _ => None,
    }
}
