//! The replies to the hypervisor's calls: one function a stage, R1 to R6, U1, bind, close; those
//! on the tail's word are in `linking`.

use super::access::{Access, Op};
use super::answer::{Answer, Next};
use super::decisions::{head_place, one_more, set_queue_value, tail_place};
use super::domain::{Call, Domain, Stage};
use super::entry::Entry;
use super::kinds::{Port, Queue};
use super::linking::{r3, set_tail, Try};
use super::word::EventWord;
use super::Model;

/// LINKED, R2's operand.
const LINKED: u32 = 0x2000_0000;
/// All but PENDING, close's operand.
const ALL_BUT_PENDING: u32 = 0x7FFF_FFFF;

/// What a stage's reply leads to.
pub(super) enum Outcome {
    /// The next access is that of this stage.
    Go(Stage),
    /// The call ends.
    End(Answer),
}

use Outcome::{End, Go};

impl Model {
    /// The access that the call under way waits for, as long as it isn't replied to.
    pub fn due(&self, domain: &Domain) -> Option<Access> {
        domain.call.map(|call| self.access_of(domain, &call))
    }

    /// The access of a call's stage.
    pub(super) fn access_of(&self, domain: &Domain, call: &Call) -> Access {
        let port = call.port;
        match call.stage {
            Stage::BindRead => Access::word(port, Op::Read),
            Stage::CloseAnd => Access::word(port, Op::And(ALL_BUT_PENDING)),
            Stage::R1 => Access::word(port, Op::Or(self.r1_operand())),
            Stage::U1 => Access::word(port, Op::And(self.u1_operand())),
            Stage::R2 => Access::word(port, Op::Or(LINKED)),
            Stage::R3 { queue } => Access::at(tail_place(domain, queue), Op::Read),
            Stage::R4 { queue, old, tries } => {
                self.cas_access(domain, port, Try { queue, old, tries })
            }
            Stage::SetBusy { queue } => self.set_busy_access(domain, queue),
            Stage::ClearBusy { queue, word } => self.clear_busy_access(domain, port, queue, word),
            Stage::R5 { queue } => {
                let value = self.head_value(domain, queue, port);
                Access::at(head_place(queue), Op::Store(value))
            }
            Stage::R6 { queue } => Access::ready(Op::Or(self.r6_bit(queue))),
        }
    }

    /// The reply to the hypervisor's call under way: 16, 14, then its stage.
    pub fn reply(&self, domain: &mut Domain, ledger: &mut [Entry], seen: u32) -> Next {
        let Some(call) = domain.call else {
            return Next::at_once(Answer::NoCall);
        };
        let Some(entry) = ledger.get_mut(call.port.index()) else {
            return Next::at_once(Answer::NoEntry);
        };
        match self.stage_reply(domain, entry, &call, seen) {
            Go(stage) => {
                let count = one_more(call.count);
                Next::Access(self.name(
                    domain,
                    Call {
                        stage,
                        count,
                        ..call
                    },
                ))
            }
            End(answer) => {
                domain.call = None;
                Next::Answer(answer, call.count)
            }
        }
    }

    fn stage_reply(
        &self,
        domain: &mut Domain,
        entry: &mut Entry,
        call: &Call,
        seen: u32,
    ) -> Outcome {
        let word = EventWord::from_bits(seen);
        match call.stage {
            Stage::BindRead => bind_read(entry, word),
            Stage::CloseAnd => {
                *entry = self.closed(*entry);
                End(Answer::Done)
            }
            Stage::R1 => r1(word),
            Stage::U1 => u1(word),
            Stage::R2 => self.r2(domain, entry, call.port, word),
            Stage::R3 { queue } => r3(queue, seen),
            Stage::R4 { queue, old, tries } => {
                self.r4(domain, call.port, Try { queue, old, tries }, seen)
            }
            Stage::SetBusy { queue } => self.set_busy(domain, call.port, queue, seen),
            Stage::ClearBusy { queue, word } => {
                self.clear_busy(domain, call.port, (queue, word), seen)
            }
            Stage::R5 { queue } => {
                set_tail(domain, queue, call.port);
                Go(Stage::R6 { queue })
            }
            Stage::R6 { queue } => self.r6(queue, seen),
        }
    }

    /// R2: the queue is the entry's priority now; a tail left on the last queue becomes 0.
    fn r2(&self, domain: &mut Domain, entry: &mut Entry, port: Port, word: EventWord) -> Outcome {
        if word.linked {
            return End(Answer::Done);
        }
        let queue = entry.priority.queue();
        let was_tail = self.tail(domain, entry.last) == Some(port);
        if entry.been_linked && self.moves(entry.last, queue) && was_tail {
            set_queue_value(&mut domain.tails, entry.last, 0);
        }
        entry.last = queue;
        entry.been_linked = true;
        match self.tail(domain, queue) {
            Some(tail) if tail != port => Go(Stage::R3 { queue }),
            _ => Go(Stage::R5 { queue }),
        }
    }

    /// R6: an upcall is wanted if the queue's bit was clear.
    fn r6(&self, queue: Queue, seen: u32) -> Outcome {
        if seen & self.r6_bit(queue) == 0 {
            End(Answer::UpcallWanted)
        } else {
            End(Answer::Done)
        }
    }
}

/// bind: LINKED gives 7, which ends the call.
fn bind_read(entry: &mut Entry, word: EventWord) -> Outcome {
    if word.linked {
        return End(Answer::StillLinked);
    }
    entry.bound = true;
    End(Answer::Done)
}

/// R1: MASKED or LINKED ends the raise.
fn r1(word: EventWord) -> Outcome {
    if word.masked || word.linked {
        End(Answer::Done)
    } else {
        Go(Stage::R2)
    }
}

/// U1: goes on at R2 if PENDING and not LINKED.
fn u1(word: EventWord) -> Outcome {
    if word.pending && !word.linked {
        Go(Stage::R2)
    } else {
        End(Answer::Done)
    }
}
