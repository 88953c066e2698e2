//! A line of the log as a value, and the line of an event.

use crate::model::access::{Access, Op};
use crate::model::kinds::Port;
use crate::model::machine::{Accessed, Event, Side, Step};

/// A call of a call line with its arguments, which are any decimals of the form.
#[derive(Clone, Copy, Debug, PartialEq, Eq)]
#[allow(missing_docs)]
pub enum LoggedCall {
    InitControl { vcpu: u32, frame: u32, offset: u32 },
    ExpandArray { frame: u32 },
    Bind(u32),
    Close(u32),
    SetPriority { port: u32, priority: u32 },
    Raise(u32),
    Unmask(u32),
    Service,
    Mask(u32),
    ClearMask(u32),
}

/// A line. The form's lines are those that `Line::of` and `read` make: a store's access alone has
/// no word seen, and the answers 19 and 21 alone have a port.
#[derive(Clone, Copy, Debug, PartialEq, Eq)]
#[allow(missing_docs)]
pub enum Line {
    /// `accesses` and the format's number 1.
    Header,
    /// The start of a call.
    Call(LoggedCall),
    /// An access with the word seen.
    Access {
        side: Side,
        access: Access,
        seen: Option<u32>,
    },
    /// An answer's number, and the port of 19 and 21.
    Answer {
        side: Side,
        number: u32,
        port: Option<Port>,
    },
}

impl LoggedCall {
    /// The call that a step starts. None where it starts none, and where a line can't say how: an
    /// argument of 2^32 or more, or a mask by another number of words than the guest's.
    pub fn of(step: Step) -> Option<LoggedCall> {
        let decimal = |number| u32::try_from(number).ok();
        Some(match step {
            Step::InitControl {
                vcpu,
                frame,
                offset,
                ..
            } => LoggedCall::InitControl {
                vcpu: decimal(vcpu)?,
                frame: decimal(frame)?,
                offset: decimal(offset)?,
            },
            Step::ExpandArray { frame, .. } => LoggedCall::ExpandArray {
                frame: decimal(frame)?,
            },
            Step::Bind(port) => LoggedCall::Bind(decimal(port)?),
            Step::Close(port) => LoggedCall::Close(decimal(port)?),
            Step::SetPriority { port, priority } => LoggedCall::SetPriority {
                port: decimal(port)?,
                priority: decimal(priority)?,
            },
            Step::Raise(port) => LoggedCall::Raise(decimal(port)?),
            Step::Unmask(port) => LoggedCall::Unmask(decimal(port)?),
            Step::Service => LoggedCall::Service,
            Step::Mask(port) => LoggedCall::Mask(decimal(port)?),
            Step::ClearMask(port) => LoggedCall::ClearMask(decimal(port)?),
            Step::MaskWithin { .. } | Step::Tell(_) | Step::Access(_) | Step::HandBack(..) => {
                return None
            }
        })
    }

    /// The side whose call it is.
    pub fn side(self) -> Side {
        match self {
            LoggedCall::Service | LoggedCall::Mask(_) | LoggedCall::ClearMask(_) => Side::Guest,
            _ => Side::Hypervisor,
        }
    }

    /// Its name in the log.
    pub fn name(self) -> &'static str {
        match self {
            LoggedCall::InitControl { .. } => "init_control",
            LoggedCall::ExpandArray { .. } => "expand_array",
            LoggedCall::Bind(_) => "bind",
            LoggedCall::Close(_) => "close",
            LoggedCall::SetPriority { .. } => "set_priority",
            LoggedCall::Raise(_) => "raise",
            LoggedCall::Unmask(_) => "unmask",
            LoggedCall::Service => "service",
            LoggedCall::Mask(_) => "mask",
            LoggedCall::ClearMask(_) => "clear_mask",
        }
    }

    /// The last three fields: port, argument and none; of init_control its three arguments.
    pub fn arguments(self) -> [Option<u32>; 3] {
        match self {
            LoggedCall::InitControl {
                vcpu,
                frame,
                offset,
            } => [Some(vcpu), Some(frame), Some(offset)],
            LoggedCall::ExpandArray { frame } => [None, Some(frame), None],
            LoggedCall::SetPriority { port, priority } => [Some(port), Some(priority), None],
            LoggedCall::Bind(port)
            | LoggedCall::Close(port)
            | LoggedCall::Raise(port)
            | LoggedCall::Unmask(port)
            | LoggedCall::Mask(port)
            | LoggedCall::ClearMask(port) => [Some(port), None, None],
            LoggedCall::Service => [None; 3],
        }
    }

    /// The call as a step of the machine, in a domain of `frames` frames.
    pub fn step(self, frames: u64) -> Step {
        match self {
            LoggedCall::InitControl {
                vcpu,
                frame,
                offset,
            } => Step::InitControl {
                vcpu: vcpu.into(),
                frame: frame.into(),
                frames,
                offset: offset.into(),
            },
            LoggedCall::ExpandArray { frame } => Step::ExpandArray {
                frame: frame.into(),
                frames,
            },
            LoggedCall::Bind(port) => Step::Bind(port.into()),
            LoggedCall::Close(port) => Step::Close(port.into()),
            LoggedCall::SetPriority { port, priority } => Step::SetPriority {
                port: port.into(),
                priority: priority.into(),
            },
            LoggedCall::Raise(port) => Step::Raise(port.into()),
            LoggedCall::Unmask(port) => Step::Unmask(port.into()),
            LoggedCall::Service => Step::Service,
            LoggedCall::Mask(port) => Step::Mask(port.into()),
            LoggedCall::ClearMask(port) => Step::ClearMask(port.into()),
        }
    }
}

impl Line {
    /// The line of an event. A tell has none; an access has one once its reply is accepted.
    pub fn of(event: &Event) -> Option<Line> {
        match event {
            Event::Accessed(accessed) => accessed.accepted.then(|| Line::of_access(accessed)),
            Event::Answered(side, answer, _) => Some(Line::Answer {
                side: *side,
                number: answer.number(),
                port: answer.port(),
            }),
            Event::Told(_) => None,
        }
    }

    fn of_access(accessed: &Accessed) -> Line {
        Line::Access {
            side: accessed.maker.side(),
            access: accessed.access,
            seen: match accessed.access.op {
                Op::Store(_) => None,
                _ => Some(accessed.seen),
            },
        }
    }
}
