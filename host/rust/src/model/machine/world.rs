//! One domain's world and its steps, each the model's own call or reply.

use super::event::{Accessed, Event, Events, Maker, Side};
use super::memory::Memory;
use crate::model::access::Access;
use crate::model::answer::{Answer, Masking, Next};
use crate::model::domain::Domain;
use crate::model::entry::Entry;
use crate::model::guest::Guest;
use crate::model::kinds::Port;
use crate::model::Model;

/// A step of either side.
#[derive(Clone, Copy, Debug, PartialEq, Eq)]
#[allow(missing_docs)]
pub enum Step {
    /// Start of init_control.
    InitControl {
        vcpu: u64,
        frame: u64,
        frames: u64,
        offset: u64,
    },
    /// Start of expand_array.
    ExpandArray { frame: u64, frames: u64 },
    /// Start of bind.
    Bind(u64),
    /// Start of close.
    Close(u64),
    /// Start of set_priority.
    SetPriority { port: u64, priority: u64 },
    /// Start of raise.
    Raise(u64),
    /// Start of unmask.
    Unmask(u64),
    /// Start of a service.
    Service,
    /// Start of a clear_mask.
    ClearMask(u64),
    /// A mask with its access, by the guest record's number of words.
    Mask(u64),
    /// A mask with its access, by any number of words.
    MaskWithin { port: u64, words: u64 },
    /// A tell.
    Tell(u64),
    /// The access of the side's call under way, with its reply.
    Access(Side),
    /// The reply alone, with any word and no access performed.
    HandBack(Side, u32),
}

/// What a step gives: what the call or reply gave, and the events.
#[derive(Clone, Copy, Debug, PartialEq, Eq)]
pub struct Stepped {
    /// The next access or the answer.
    pub next: Next,
    /// The events, in order.
    pub events: Events,
}

/// Lent memory, records and ledger of one domain with one VCPU.
#[derive(Clone, Debug, PartialEq, Eq)]
pub struct World {
    /// The rules.
    pub model: Model,
    /// Event words and control block.
    pub memory: Memory,
    /// The hypervisor's record.
    pub domain: Domain,
    /// The lent ledger.
    pub ledger: Vec<Entry>,
    /// The guest's record.
    pub guest: Guest,
}

impl World {
    /// Fresh records, a fresh ledger of `entries`, `words` lent words and a control block of 0.
    pub fn fresh(model: Model, words: usize, entries: usize) -> Self {
        World {
            model,
            memory: Memory::zeroed(words),
            domain: Domain::FRESH,
            ledger: Entry::ledger(entries),
            guest: Guest::FRESH,
        }
    }

    /// Makes one step.
    pub fn step(&mut self, step: Step) -> Stepped {
        let model = self.model;
        let (domain, ledger) = (&mut self.domain, &mut self.ledger);
        let started = match step {
            Step::InitControl {
                vcpu,
                frame,
                frames,
                offset,
            } => model.init_control(domain, vcpu, frame, frames, offset),
            Step::ExpandArray { frame, frames } => self.expand(frame, frames),
            Step::Bind(port) => model.bind(domain, ledger, port),
            Step::Close(port) => model.close(domain, ledger, port),
            Step::SetPriority { port, priority } => {
                model.set_priority(domain, ledger, port, priority)
            }
            Step::Raise(port) => model.raise(domain, ledger, port),
            Step::Unmask(port) => model.unmask(domain, ledger, port),
            Step::Service => return given(Side::Guest, None, model.service(&mut self.guest)),
            Step::ClearMask(port) => {
                return given(Side::Guest, None, model.clear_mask(&mut self.guest, port))
            }
            Step::Mask(port) => return self.mask(port, self.guest.words.into()),
            Step::MaskWithin { port, words } => return self.mask(port, words),
            Step::Tell(words) => return self.tell(words),
            Step::Access(side) => return self.access(side),
            Step::HandBack(side, seen) => return self.hand_back(side, seen, false),
        };
        given(Side::Hypervisor, None, started)
    }

    /// D21: the page that an expand adds is zeroed.
    fn expand(&mut self, frame: u64, frames: u64) -> Next {
        let page = self.domain.pages;
        let next = self.model.expand_array(&mut self.domain, frame, frames);
        if self.domain.pages > page {
            self.memory.zero_page(page);
        }
        next
    }

    fn mask(&mut self, port: u64, words: u64) -> Stepped {
        let masking = self.model.mask(port, words);
        let accessed = match masking {
            Masking::Refused(_) => None,
            Masking::Named(access) => Some(Event::Accessed(Accessed {
                maker: Maker::Mask(Port(port as u32)),
                access,
                seen: self.memory.perform(access),
                performed: true,
                accepted: true,
            })),
        };
        let (answer, count) = masking.answer();
        given(Side::Guest, accessed, Next::Answer(answer, count))
    }

    fn tell(&mut self, words: u64) -> Stepped {
        let next = self.model.tell(&mut self.guest, words);
        let events = Events::of([Some(Event::Told(self.guest.words)), None]);
        Stepped { next, events }
    }

    /// The call under way and the access that it waits for.
    pub fn due(&self, side: Side) -> Option<(Maker, Access)> {
        match side {
            Side::Hypervisor => {
                let access = self.model.due(&self.domain)?;
                Some((Maker::Call(self.domain.call?), access))
            }
            Side::Guest => Some((self.guest_maker()?, self.model.guest_due(&self.guest)?)),
        }
    }

    /// The guest's call whose access is due: its clear_mask, else its service.
    fn guest_maker(&self) -> Option<Maker> {
        let clearing = self.guest.clearing.map(Maker::ClearMask);
        clearing.or(self.guest.call.map(Maker::Service))
    }

    /// D19: without a call under way, a reply of 0.
    fn access(&mut self, side: Side) -> Stepped {
        let seen = match self.due(side) {
            Some((_, access)) => self.memory.perform(access),
            None => 0,
        };
        self.hand_back(side, seen, true)
    }

    fn hand_back(&mut self, side: Side, seen: u32, performed: bool) -> Stepped {
        let due = self.due(side);
        let next = match side {
            Side::Hypervisor => self.model.reply(&mut self.domain, &mut self.ledger, seen),
            Side::Guest => self.model.guest_reply(&mut self.guest, seen),
        };
        let accessed = due.map(|(maker, access)| {
            let accepted = next != Next::Answer(Answer::NoEntry, 0);
            Event::Accessed(Accessed {
                maker,
                access,
                seen,
                performed,
                accepted,
            })
        });
        given(side, accessed, next)
    }
}

/// What a call or reply gave, with the events of its access and of its answer.
fn given(side: Side, accessed: Option<Event>, next: Next) -> Stepped {
    let answered = match next {
        Next::Access(_) => None,
        Next::Answer(answer, count) => Some(Event::Answered(side, answer, count)),
    };
    let events = Events::of([accessed, answered]);
    Stepped { next, events }
}
