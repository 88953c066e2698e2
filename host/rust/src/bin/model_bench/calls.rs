//! The calls: the state before each, its answer, and the words that it must leave.

use crate::host::Host;
use evtchn_fifo_host::model::{Answer, Entry, Masking, Model, Next, Port, Queue};
use std::sync::atomic::Ordering::Relaxed;

/// The port that the call is on.
const PORT: u32 = 5;
/// A port that stands on the queue before a raise on a tail, and behind the port served.
const OTHER: u32 = 1;
/// Every port's queue.
const QUEUE: usize = 7;
/// The queue's READY bit.
const READY: u32 = 1 << QUEUE;
/// PENDING and LINKED.
const STANDS: u32 = 0xA000_0000;

/// A call that is measured.
#[derive(Clone, Copy)]
pub enum Call {
    RaiseEmpty,
    RaiseTail,
    Service,
    Unmask,
    ClearMask,
    Bind,
    Refused,
}

/// Every word that one of the calls changes.
#[derive(Clone, Copy, PartialEq, Eq)]
pub struct Words {
    tail: u32,
    head: u32,
    local: u32,
    entry: Entry,
    word: u32,
    other_word: u32,
    ready: u32,
    queue_head: u32,
}

impl Words {
    /// As they stand.
    pub fn of(host: &Host) -> Self {
        Words {
            tail: host.domain.tails[QUEUE],
            head: host.guest.heads[QUEUE],
            local: host.guest.local,
            entry: host.ledger[PORT as usize],
            word: host.shared.words[PORT as usize].load(Relaxed),
            other_word: host.shared.words[OTHER as usize].load(Relaxed),
            ready: host.shared.ready.load(Relaxed),
            queue_head: host.shared.heads[QUEUE].load(Relaxed),
        }
    }

    /// Puts them back.
    pub fn put(&self, host: &mut Host) {
        host.domain.tails[QUEUE] = self.tail;
        host.guest.heads[QUEUE] = self.head;
        host.guest.local = self.local;
        host.ledger[PORT as usize] = self.entry;
        host.shared.words[PORT as usize].store(self.word, Relaxed);
        host.shared.words[OTHER as usize].store(self.other_word, Relaxed);
        host.shared.ready.store(self.ready, Relaxed);
        host.shared.heads[QUEUE].store(self.queue_head, Relaxed);
    }

    /// The port linked as the queue's tail.
    fn linked(self) -> Self {
        Words {
            tail: PORT,
            word: STANDS,
            entry: Entry {
                last: Queue(QUEUE as u32),
                been_linked: true,
                ..self.entry
            },
            ..self
        }
    }
}

impl Call {
    /// The call of a name.
    pub fn named(name: &str) -> Option<Call> {
        Some(match name {
            "raise-empty" => Call::RaiseEmpty,
            "raise-tail" => Call::RaiseTail,
            "service" => Call::Service,
            "unmask" => Call::Unmask,
            "clear-mask" => Call::ClearMask,
            "bind" => Call::Bind,
            "refused" => Call::Refused,
            _ => return None,
        })
    }

    /// Makes the state just before the call, by the model's calls.
    pub fn prepare(self, host: &mut Host) -> Result<(), String> {
        match self {
            Call::RaiseEmpty => done(host.bind(PORT)),
            Call::RaiseTail => {
                done(host.bind(PORT))?;
                bind_and_raise(host, OTHER)
            }
            Call::Service => {
                bind_and_raise(host, PORT)?;
                bind_and_raise(host, OTHER)
            }
            Call::Unmask => {
                mask(host)?;
                bind_and_raise(host, PORT)
            }
            Call::ClearMask => mask(host),
            Call::Bind | Call::Refused => Ok(()),
        }
    }

    /// The call, from its start to its answer.
    pub fn run(self, host: &mut Host) -> Next {
        match self {
            Call::RaiseEmpty | Call::RaiseTail | Call::Refused => host.raise(PORT),
            Call::Service => host.service(),
            Call::Unmask => host.unmask(PORT),
            Call::ClearMask => host.clear_mask(PORT),
            Call::Bind => host.bind(PORT),
        }
    }

    /// Whether the answer and its count are the call's.
    pub fn is_right(self, next: Next) -> bool {
        let (answer, count) = match self {
            Call::RaiseEmpty | Call::Unmask => (Answer::UpcallWanted, 4),
            Call::RaiseTail => (Answer::Done, 4),
            Call::Service => (Answer::HandedOver(Port(PORT)), 5),
            Call::ClearMask => (Answer::Done, 2),
            Call::Bind => (Answer::Done, 1),
            Call::Refused => (Answer::NotBound, 0),
        };
        next == Next::Answer(answer, count)
    }

    /// The words that the call must leave.
    pub fn left(self, before: Words) -> Words {
        match self {
            Call::RaiseEmpty | Call::Unmask => Words {
                ready: READY,
                queue_head: PORT,
                ..before.linked()
            },
            Call::RaiseTail => Words {
                other_word: STANDS | PORT,
                ..before.linked()
            },
            Call::Service => Words {
                head: OTHER,
                local: READY,
                word: 0,
                ready: 0,
                ..before
            },
            Call::ClearMask => Words { word: 0, ..before },
            Call::Bind => Words {
                entry: Entry {
                    bound: true,
                    ..before.entry
                },
                ..before
            },
            Call::Refused => before,
        }
    }
}

fn done(next: Next) -> Result<(), String> {
    match next {
        Next::Answer(Answer::Done | Answer::UpcallWanted, _) => Ok(()),
        _ => Err(format!("a call before the one to measure gives {next:?}")),
    }
}

fn bind_and_raise(host: &mut Host, port: u32) -> Result<(), String> {
    done(host.bind(port))?;
    done(host.raise(port))
}

fn mask(host: &mut Host) -> Result<(), String> {
    match Model::default().mask(PORT.into(), host.guest.words.into()) {
        Masking::Named(access) => host.shared.perform(access).map(|_| ()),
        Masking::Refused(_) => None,
    }
    .ok_or_else(|| "the mask is refused".to_string())
}
