//! Operands, limits and small rules of document 01.

use super::Faults;
use crate::model::answer::Answer;
use crate::model::decisions;
use crate::model::domain::Domain;
use crate::model::entry::{Entry, DEFAULT_PRIORITY};
use crate::model::kinds::{Port, Priority, Queue};
use crate::model::Model;

impl Model {
    /// R1's operand: PENDING.
    pub(in crate::model) fn r1_operand(&self) -> u32 {
        self.choose(Faults::R1Operand, 0x4000_0000, 0x8000_0000)
    }

    /// U1's operand: all but MASKED.
    pub(in crate::model) fn u1_operand(&self) -> u32 {
        self.choose(Faults::U1Operand, 0x7FFF_FFFF, 0xBFFF_FFFF)
    }

    /// G2's operand: all but LINKED and LINK.
    pub(in crate::model) fn g2_operand(&self) -> u32 {
        self.choose(Faults::G2Operand, 0xDFFF_0000, 0xDFFE_0000)
    }

    /// G4's operand: all but PENDING.
    pub(in crate::model) fn g4_operand(&self) -> u32 {
        self.choose(Faults::G4Operand, 0xBFFF_FFFF, 0x7FFF_FFFF)
    }

    /// R6's bit.
    pub(in crate::model) fn r6_bit(&self, queue: Queue) -> u32 {
        let next = Queue(queue.0.wrapping_add(1));
        decisions::ready_bit(self.choose(Faults::ReadyBit, next, queue))
    }

    /// The least number that is no port.
    pub(in crate::model) fn port_limit(&self) -> u64 {
        self.choose(Faults::PortLimit, 131_071, 131_072)
    }

    /// The largest offset of a control block.
    pub(in crate::model) fn offset_limit(&self) -> u64 {
        self.choose(Faults::OffsetLimit, 4_032, 4_024)
    }

    /// The number of pages that can't be exceeded.
    pub(in crate::model) fn page_limit(&self) -> u32 {
        self.choose(Faults::PageLimit, 129, 128)
    }

    /// Whether a port last linked on `last` moves when it is linked on `queue`.
    pub(in crate::model) fn moves(&self, last: Queue, queue: Queue) -> bool {
        self.choose(Faults::StaleTailTest, last == queue, last != queue)
    }

    /// The entry of a closed port: unbound, priority 7, other bits kept.
    pub(in crate::model) fn closed(&self, entry: Entry) -> Entry {
        Entry {
            priority: self.choose(Faults::ClosePriority, Priority(0), DEFAULT_PRIORITY),
            bound: false,
            been_linked: entry.been_linked && !self.has(Faults::CloseClearsLinked),
            ..entry
        }
    }

    /// The answer of close, raise and unmask for a port without an entry.
    pub(in crate::model) fn missing_entry(&self) -> Answer {
        self.choose(Faults::NotBoundFirst, Answer::NotBound, Answer::NoEntry)
    }

    /// Whether the local bit clears at G2, given the LINK seen.
    pub(in crate::model) fn clears_local(&self, link: Port) -> bool {
        self.choose(Faults::G2LocalBit, link.0 != 0, link.0 == 0)
    }

    /// The queue that a service takes: the lowest set bit's. `seen` are READY's bits, which `local`
    /// has too.
    pub(in crate::model) fn served_queue(&self, local: u32, seen: u32) -> Option<Queue> {
        let new = decisions::local_bits(seen);
        let highest = (0..32).rev().find(|bit| local >> bit & 1 == 1).map(Queue);
        let new_first = lowest(new).or(lowest(local));
        let lowest = self.choose(Faults::HighestQueue, highest, lowest(local));
        self.choose(Faults::NewBitsFirst, new_first, lowest)
    }

    /// The count of a call that has named its first access.
    pub(in crate::model) fn first_count(&self) -> u32 {
        self.choose(Faults::FirstCount, 0, 1)
    }

    /// R5's value: the port.
    pub(in crate::model) fn head_value(&self, domain: &Domain, queue: Queue, port: Port) -> u32 {
        let tail = decisions::queue_value(&domain.tails, queue);
        self.choose(Faults::R5Value, tail, port.0)
    }

    /// H of a queue after 18, given H before.
    pub(in crate::model) fn refused_head(&self, head: u32) -> u32 {
        self.choose(Faults::BadIndexHead, head, 0)
    }

    /// The number of words after a tell.
    pub(in crate::model) fn told_words(&self, old: u32, told: u32) -> u32 {
        self.choose(Faults::TellSmaller, old.min(told), old.max(told))
    }

    /// D10: the queue's tail, none where it is 0.
    pub(in crate::model) fn tail(&self, domain: &Domain, queue: Queue) -> Option<Port> {
        let tail = Port(decisions::queue_value(&domain.tails, queue));
        let none = tail.0 == 0 || (self.has(Faults::OutsideIsNone) && !domain.in_array(tail));
        (!none).then_some(tail)
    }
}

/// The queue of the lowest set bit.
fn lowest(bits: u32) -> Option<Queue> {
    (0..32).find(|bit| bits >> bit & 1 == 1).map(Queue)
}
