//! R3, R4 and BUSY: the accesses on the word of the queue's tail, and where they lead. BUSY is set
//! once a first cas was not taken and kept LINKED, and is clear again before HEAD or an answer.

use super::access::{Access, Op};
use super::answer::Answer;
use super::decisions::{first_try, head_place, set_queue_value, tail_place, SECOND_TRY};
use super::domain::{Domain, Stage};
use super::kinds::{Port, Queue};
use super::replies::Outcome::{self, End, Go};
use super::word::EventWord;
use super::Model;

/// With the seeded fault that stores HEAD before BUSY is cleared: the word kept once HEAD is
/// stored.
const HEAD_STORED: u32 = 0x1FFF_FFFF;

/// A cas that was named: its queue, the word compared with, and the number of cas so far.
#[derive(Clone, Copy)]
pub(super) struct Try {
    pub(super) queue: Queue,
    pub(super) old: u32,
    pub(super) tries: u32,
}

impl Model {
    /// The access of R4.
    pub(super) fn cas_access(&self, domain: &Domain, port: Port, made: Try) -> Access {
        let Try { queue, old, tries } = made;
        let new = self.linking_word(old, tries, port);
        Access::at(tail_place(domain, queue), Op::Cas { old, new })
    }

    /// The or that sets BUSY.
    pub(super) fn set_busy_access(&self, domain: &Domain, queue: Queue) -> Access {
        Access::at(tail_place(domain, queue), Op::Or(self.busy_operand()))
    }

    /// The and that clears BUSY.
    pub(super) fn clear_busy_access(
        &self,
        domain: &Domain,
        port: Port,
        queue: Queue,
        kept: u32,
    ) -> Access {
        if self.clears_after_head() && !is_linked(kept) && kept != HEAD_STORED {
            return Access::at(head_place(queue), Op::Store(port.0));
        }
        let operand = self.clear_busy_operand();
        Access::at(tail_place(domain, queue), Op::And(operand))
    }

    /// R4: taken; after a first cas BUSY, or R5; after a later one the next, or BUSY's clearing.
    pub(super) fn r4(&self, domain: &mut Domain, port: Port, made: Try, seen: u32) -> Outcome {
        let Try { queue, old, tries } = made;
        if seen == old {
            set_tail(domain, queue, port);
            return End(Answer::Done);
        }
        let linked = is_linked(seen);
        if first_try(tries) && self.sets_busy(linked) {
            return Go(Stage::SetBusy { queue });
        }
        if first_try(tries) && !linked {
            return Go(Stage::R5 { queue });
        }
        if linked && !self.tries_spent(tries) {
            return Go(Stage::R4 {
                queue,
                old: seen,
                tries: tries + 1,
            });
        }
        self.leave_tail(domain, port, queue, seen)
    }

    /// The or's reply: goes on from the word that it left, where that is LINKED.
    pub(super) fn set_busy(
        &self,
        domain: &mut Domain,
        port: Port,
        queue: Queue,
        seen: u32,
    ) -> Outcome {
        if !is_linked(seen) {
            return self.leave_tail(domain, port, queue, seen);
        }
        Go(Stage::R4 {
            queue,
            old: self.standing(seen),
            tries: SECOND_TRY,
        })
    }

    /// BUSY is set and no cas clears it: the and does, before HEAD or before answer 2.
    fn leave_tail(&self, domain: &mut Domain, port: Port, queue: Queue, seen: u32) -> Outcome {
        let abandoned = is_linked(seen);
        if !self.clears_busy(abandoned) {
            return left_tail(domain, port, queue, seen);
        }
        if abandoned && self.moves_tail_early() {
            set_tail(domain, queue, port);
        }
        Go(Stage::ClearBusy { queue, word: seen })
    }

    /// The and's reply goes by the word kept from before it; the one that it sees is ignored.
    pub(super) fn clear_busy(
        &self,
        domain: &mut Domain,
        port: Port,
        (queue, kept): (Queue, u32),
        seen: u32,
    ) -> Outcome {
        let kept = self.deciding(kept, seen);
        if self.clears_after_head() && !is_linked(kept) {
            return after_head(domain, port, queue, kept);
        }
        left_tail(domain, port, queue, kept)
    }
}

/// R3: a tail that is not LINKED leads to R5, else the first cas.
pub(super) fn r3(queue: Queue, seen: u32) -> Outcome {
    if is_linked(seen) {
        Go(Stage::R4 {
            queue,
            old: seen,
            tries: 1,
        })
    } else {
        Go(Stage::R5 { queue })
    }
}

/// With BUSY clear: answer 2 where the latest word seen has LINKED, else R5.
fn left_tail(domain: &mut Domain, port: Port, queue: Queue, seen: u32) -> Outcome {
    if !is_linked(seen) {
        return Go(Stage::R5 { queue });
    }
    set_tail(domain, queue, port);
    End(Answer::LinkAbandoned)
}

/// With the seeded fault: the and once HEAD is stored, then R6.
fn after_head(domain: &mut Domain, port: Port, queue: Queue, kept: u32) -> Outcome {
    if kept != HEAD_STORED {
        let word = HEAD_STORED;
        return Go(Stage::ClearBusy { queue, word });
    }
    set_tail(domain, queue, port);
    Go(Stage::R6 { queue })
}

fn is_linked(seen: u32) -> bool {
    EventWord::from_bits(seen).linked
}

/// T of the queue becomes the port.
pub(super) fn set_tail(domain: &mut Domain, queue: Queue, port: Port) {
    set_queue_value(&mut domain.tails, queue, port.0);
}
