//! The branches of every stage, told from the record before the reply and the word seen.

use super::linking::{of_clear_busy, of_r4, of_set_busy};
use super::pair::Before;
use crate::model::decisions::queue_value;
use crate::model::{Call, Domain, Entry, EventWord, Guest, Port, Queue, ServiceStage, Stage};

points! {
    BindLinked = "bind: seen LINKED",
    BindFree = "bind: seen not LINKED",
    CloseMade = "close: and made",
    R1Masked = "R1: seen MASKED",
    R1Linked = "R1: seen LINKED, not MASKED",
    R1Pending = "R1: goes on, PENDING was set",
    R1Clear = "R1: goes on, PENDING was clear",
    U1NotPending = "U1: seen not PENDING",
    U1Linked = "U1: seen PENDING and LINKED",
    U1Goes = "U1: goes on",
    R2Linked = "R2: seen LINKED",
    R2StaleTail = "R2: tail of the last queue becomes 0",
    R2NeverLinked = "R2: bit 9 clear, that queue's tail is p",
    R2SameQueue = "R2: last queue is q, its tail is p",
    R2OtherTail = "R2: last queue is another, its tail is not p",
    R2StaleOutside = "R2: tail of the last queue, outside the array, becomes 0",
    R2NoTail = "R2: T[q] is 0, to R5",
    R2TailIsPort = "R2: T[q] is p, to R5",
    R2Tail = "R2: T[q] in the array, to R3",
    R2TailOutside = "R2: T[q] outside the array, to R3",
    R3Linked = "R3: seen LINKED, not BUSY, to R4",
    R3Busy = "R3: seen LINKED and BUSY, to R4",
    R3NotLinked = "R3: seen not LINKED, to R5",
    R4Taken1 = "R4: taken on try 1",
    R4Taken2 = "R4: taken on try 2",
    R4Taken3 = "R4: taken on try 3",
    R4Taken4 = "R4: taken on try 4",
    R4Taken5 = "R4: taken on try 5",
    R4Lost1 = "R4: try 1 loses LINKED, to R5",
    R4Lost2 = "R4: try 2 loses LINKED, to the and",
    R4Lost3 = "R4: try 3 loses LINKED, to the and",
    R4Lost4 = "R4: try 4 loses LINKED, to the and",
    R4Lost5 = "R4: try 5 loses LINKED, to the and",
    R4Again1 = "R4: try 1 not taken, keeps LINKED, to the or",
    R4Again2 = "R4: try 2 not taken, keeps LINKED and BUSY",
    R4Again3 = "R4: try 3 not taken, keeps LINKED and BUSY",
    R4Again4 = "R4: try 4 not taken, keeps LINKED and BUSY",
    R4BusyGone = "R4: a later try not taken, BUSY gone, LINKED not",
    R4Abandoned = "R4: try 5 not taken, keeps LINKED, to the and",
    R4Zero = "R4: no try so far (arbitrary records)",
    R4Beyond = "R4: tries above 5 (arbitrary records)",
    BusyLinked = "BUSY or: seen LINKED, not BUSY, to try 2",
    BusyWasSet = "BUSY or: seen LINKED and BUSY, to try 2",
    BusyLost = "BUSY or: seen not LINKED, to the and",
    BusyNoEntry = "BUSY or: 14, the call stands",
    UnbusyHead = "BUSY and: LINKED was lost and is, to R5",
    UnbusyHeadLinked = "BUSY and: LINKED was lost, seen again, to R5",
    UnbusyEnds = "BUSY and: LINKED was kept and is: 2",
    UnbusyEndsLost = "BUSY and: LINKED was kept, seen lost: 2",
    UnbusyNoEntry = "BUSY and: 14, the call stands",
    R5Made = "R5: HEAD stored",
    R6BitClear = "R6: bit was clear: 1",
    R6BitSet = "R6: bit was set: 0",
    G0Idle = "G0: no bit: 20",
    G0Head = "G0: H[q] not 0, to G2",
    G0BadHead = "G0: H[q] outside: 18",
    G0NoHead = "G0: H[q] is 0, to G1",
    G1Index = "G1: HEAD[q] inside, to G2",
    G1Zero = "G1: HEAD[q] is 0: 18",
    G1Outside = "G1: HEAD[q] outside: 18",
    G2End = "G2: LINK 0, the local bit clears",
    G2Link = "G2: LINK not 0",
    G3NotPending = "G3: not PENDING: 21",
    G3Masked = "G3: PENDING and MASKED: 21",
    G3Goes = "G3: to G4",
    G4Pending = "G4: seen PENDING: 19",
    G4NotPending = "G4: seen not PENDING: 21",
    ClearNotMasked = "clear_mask read: not MASKED, PENDING or BUSY: 0",
    ClearUnmasked = "clear_mask read: PENDING or BUSY, not MASKED: 0",
    ClearPending = "clear_mask read: MASKED, PENDING: 35",
    ClearBusy = "clear_mask read: MASKED, BUSY, not PENDING: 35",
    ClearGoes = "clear_mask read: MASKED alone, to its cas",
    ClearTaken = "clear_mask cas: taken: 0",
    ClearLostBusy = "clear_mask cas: not taken, BUSY since its read: 35",
    ClearLostPending = "clear_mask cas: not taken, PENDING since: 35",
    ClearLost = "clear_mask cas: not taken, otherwise: 35",
    ClearAlone = "clear_mask: begins, no service under way",
    ClearInService = "clear_mask: begins during a service",
    ClearTwice = "clear_mask: 15, no service under way",
    ClearTwiceInService = "clear_mask: 15, and a service under way",
    ServiceTwice = "service: 15, no clear_mask under way",
    ServiceInClear = "service: 15, a clear_mask alone under way",
    ServiceTwiceInClear = "service: 15, and a clear_mask under way",
    ServiceWaits = "reply to clear_mask: a service waits",
    ServiceGoesOn = "reply to service: a clear_mask ended before",
    MaskInClear = "mask: of the port of a clear_mask under way",
    TellInClear = "tell: a clear_mask under way",
}

/// The branches of an accepted reply to the hypervisor's call: R2 has two.
pub fn of_reply(before: &Before, call: &Call, entry: Entry, seen: u32) -> [Option<Point>; 2] {
    let word = EventWord::from_bits(seen);
    let one = match call.stage {
        Stage::BindRead if word.linked => Point::BindLinked,
        Stage::BindRead => Point::BindFree,
        Stage::CloseAnd => Point::CloseMade,
        Stage::R1 => of_r1(word),
        Stage::U1 => of_u1(word),
        Stage::R2 if word.linked => Point::R2Linked,
        Stage::R2 => return of_r2(&before.domain, call.port, entry),
        Stage::R3 { .. } => of_r3(word),
        Stage::R4 { old, tries, .. } => of_r4(old == seen, word, tries),
        Stage::SetBusy { .. } => of_set_busy(word),
        Stage::ClearBusy { word: kept, .. } => of_clear_busy(EventWord::from_bits(kept), word),
        Stage::R5 { .. } => Point::R5Made,
        Stage::R6 { queue } if seen >> (queue.0 % 16) & 1 == 0 => Point::R6BitClear,
        Stage::R6 { .. } => Point::R6BitSet,
    };
    [Some(one), None]
}

fn of_r1(word: EventWord) -> Point {
    match (word.masked, word.linked, word.pending) {
        (true, _, _) => Point::R1Masked,
        (_, true, _) => Point::R1Linked,
        (_, _, true) => Point::R1Pending,
        _ => Point::R1Clear,
    }
}

fn of_u1(word: EventWord) -> Point {
    match (word.pending, word.linked) {
        (false, _) => Point::U1NotPending,
        (_, true) => Point::U1Linked,
        _ => Point::U1Goes,
    }
}

fn of_r2(domain: &Domain, port: Port, entry: Entry) -> [Option<Point>; 2] {
    let queue = entry.priority.queue();
    [
        of_last_queue(domain, port, entry, queue),
        Some(of_tail(domain, port, queue)),
    ]
}

fn of_last_queue(domain: &Domain, port: Port, entry: Entry, queue: Queue) -> Option<Point> {
    let tail_is_port = queue_value(&domain.tails, entry.last) == port.0 && port.0 != 0;
    let same = entry.last == queue;
    match (entry.been_linked, same, tail_is_port) {
        (false, false, true) => Some(Point::R2NeverLinked),
        (true, true, true) => Some(Point::R2SameQueue),
        (true, false, false) => Some(Point::R2OtherTail),
        (true, false, true) if domain.in_array(port) => Some(Point::R2StaleTail),
        (true, false, true) => Some(Point::R2StaleOutside),
        _ => None,
    }
}

fn of_tail(domain: &Domain, port: Port, queue: Queue) -> Point {
    match queue_value(&domain.tails, queue) {
        0 => Point::R2NoTail,
        tail if tail == port.0 => Point::R2TailIsPort,
        tail if domain.in_array(Port(tail)) => Point::R2Tail,
        _ => Point::R2TailOutside,
    }
}

fn of_r3(word: EventWord) -> Point {
    match (word.linked, word.busy) {
        (false, _) => Point::R3NotLinked,
        (true, false) => Point::R3Linked,
        (true, true) => Point::R3Busy,
    }
}

/// The branch of a reply to the service.
pub fn of_service_reply(guest: &Guest, stage: ServiceStage, seen: u32) -> Point {
    let word = EventWord::from_bits(seen);
    match stage {
        ServiceStage::G0 => of_g0(guest, seen),
        ServiceStage::G1 { .. } if seen == 0 => Point::G1Zero,
        ServiceStage::G1 { .. } if seen >= guest.words => Point::G1Outside,
        ServiceStage::G1 { .. } => Point::G1Index,
        ServiceStage::G2 { .. } if word.link.0 == 0 => Point::G2End,
        ServiceStage::G2 { .. } => Point::G2Link,
        ServiceStage::G3 { .. } if !word.pending => Point::G3NotPending,
        ServiceStage::G3 { .. } if word.masked => Point::G3Masked,
        ServiceStage::G3 { .. } => Point::G3Goes,
        ServiceStage::G4 { .. } if word.pending => Point::G4Pending,
        ServiceStage::G4 { .. } => Point::G4NotPending,
    }
}

fn of_g0(guest: &Guest, seen: u32) -> Point {
    let bits = (guest.local | seen) as u16;
    if bits == 0 {
        return Point::G0Idle;
    }
    match guest.heads[bits.trailing_zeros() as usize] {
        0 => Point::G0NoHead,
        head if head >= guest.words => Point::G0BadHead,
        _ => Point::G0Head,
    }
}
