//! What a step leaves in the history: accesses and answers.

use crate::model::access::Access;
use crate::model::answer::Answer;
use crate::model::domain::Call;
use crate::model::guest::{ClearMask, Service};
use crate::model::kinds::Port;
use std::ops::Deref;

/// Who makes a step.
#[derive(Clone, Copy, Debug, PartialEq, Eq)]
pub enum Side {
    /// The hypervisor: X in the log.
    Hypervisor,
    /// The guest: G in the log.
    Guest,
}

/// The call that an access belongs to, as it stood when it named the access.
#[derive(Clone, Copy, Debug, PartialEq, Eq)]
pub enum Maker {
    /// A call of the hypervisor.
    Call(Call),
    /// A service.
    Service(Service),
    /// A clear_mask.
    ClearMask(ClearMask),
    /// A mask.
    Mask(Port),
}

/// An access in the history.
#[derive(Clone, Copy, Debug, PartialEq, Eq)]
pub struct Accessed {
    /// The call that named it.
    pub maker: Maker,
    /// The access.
    pub access: Access,
    /// The word handed back.
    pub seen: u32,
    /// Whether it was performed on the memory in this step.
    pub performed: bool,
    /// Whether the reply was accepted in this step.
    pub accepted: bool,
}

/// One event of a history.
#[derive(Clone, Copy, Debug, PartialEq, Eq)]
pub enum Event {
    /// An access, a reply, or both at once.
    Accessed(Accessed),
    /// An answer with its count.
    Answered(Side, Answer, u32),
    /// A tell's answer 0, with the number of words after it; the log has no line for it.
    Told(u32),
}

/// The events of one step in order: at most an access and an answer.
#[derive(Clone, Copy, Debug, PartialEq, Eq)]
pub struct Events {
    list: [Event; 2],
    length: usize,
}

impl Events {
    /// No event.
    pub const NONE: Events = Events {
        list: [Event::Told(0); 2],
        length: 0,
    };

    /// The events that are there.
    pub fn of(events: [Option<Event>; 2]) -> Self {
        let mut given = Events::NONE;
        for event in events.into_iter().flatten() {
            given.list[given.length] = event;
            given.length += 1;
        }
        given
    }
}

impl Deref for Events {
    type Target = [Event];

    fn deref(&self) -> &[Event] {
        &self.list[..self.length]
    }
}

impl Maker {
    /// The side of the call.
    pub fn side(&self) -> Side {
        match self {
            Maker::Call(_) => Side::Hypervisor,
            Maker::Service(_) | Maker::ClearMask(_) | Maker::Mask(_) => Side::Guest,
        }
    }
}
