//! A domain of one page and its guest, by the model, over shared memory of atomics.

use evtchn_fifo_host::model::domain::PAGE_WORDS;
use evtchn_fifo_host::model::{Domain, Entry, Guest, Model, Next};
use evtchn_fifo_host::stress::shared::Shared;

/// Records, ledger and shared memory.
pub struct Host {
    pub domain: Domain,
    pub guest: Guest,
    pub ledger: Vec<Entry>,
    pub shared: Shared,
}

/// The model's starts and replies: what `tools/bench` counts.
mod counted {
    use super::*;

    #[inline(never)]
    pub fn bind(host: &mut Host, port: u32) -> Next {
        Model::default().bind(&mut host.domain, &mut host.ledger, port.into())
    }

    #[inline(never)]
    pub fn raise(host: &mut Host, port: u32) -> Next {
        Model::default().raise(&mut host.domain, &host.ledger, port.into())
    }

    #[inline(never)]
    pub fn unmask(host: &mut Host, port: u32) -> Next {
        Model::default().unmask(&mut host.domain, &host.ledger, port.into())
    }

    #[inline(never)]
    pub fn reply(host: &mut Host, seen: u32) -> Next {
        Model::default().reply(&mut host.domain, &mut host.ledger, seen)
    }

    #[inline(never)]
    pub fn service(host: &mut Host) -> Next {
        Model::default().service(&mut host.guest)
    }

    #[inline(never)]
    pub fn service_reply(host: &mut Host, seen: u32) -> Next {
        Model::default().guest_reply(&mut host.guest, seen)
    }

    #[inline(never)]
    pub fn clear_mask(host: &mut Host, port: u32) -> Next {
        Model::default().clear_mask(&mut host.guest, port.into())
    }
}

impl Host {
    /// Fresh records; the control block given, one page, and the guest told.
    pub fn begin() -> Self {
        let mut host = Host {
            domain: Domain::FRESH,
            guest: Guest::FRESH,
            ledger: Entry::ledger(PAGE_WORDS as usize),
            shared: Shared::zeroed(PAGE_WORDS as usize),
        };
        let model = Model::default();
        model.init_control(&mut host.domain, 0, 0, 1, 0);
        model.expand_array(&mut host.domain, 0, 1);
        model.tell(&mut host.guest, PAGE_WORDS.into());
        host
    }

    /// bind, from its start to its answer.
    pub fn bind(&mut self, port: u32) -> Next {
        let next = counted::bind(self, port);
        self.finish(next, counted::reply)
    }

    /// raise, from its start to its answer.
    pub fn raise(&mut self, port: u32) -> Next {
        let next = counted::raise(self, port);
        self.finish(next, counted::reply)
    }

    /// unmask, from its start to its answer.
    pub fn unmask(&mut self, port: u32) -> Next {
        let next = counted::unmask(self, port);
        self.finish(next, counted::reply)
    }

    /// service, from its start to its answer.
    pub fn service(&mut self) -> Next {
        let next = counted::service(self);
        self.finish(next, counted::service_reply)
    }

    /// clear_mask, from its start to its answer.
    pub fn clear_mask(&mut self, port: u32) -> Next {
        let next = counted::clear_mask(self, port);
        self.finish(next, counted::service_reply)
    }

    fn finish(&mut self, mut next: Next, reply: impl Fn(&mut Host, u32) -> Next) -> Next {
        while let Next::Access(access) = next {
            let Some(seen) = self.shared.perform(access) else {
                break;
            };
            next = reply(self, seen);
        }
        next
    }
}
