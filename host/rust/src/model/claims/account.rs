//! The account of PENDING, folded from a history: for each port, the times it went from clear
//! to set are its hand-overs, the closes that found it set, and one if it is set now.

use crate::model::access::Place;
use crate::model::answer::Answer;
use crate::model::domain::{Owner, Stage};
use crate::model::kinds::Port;
use crate::model::machine::{Accessed, Event, Maker, Side};
use crate::model::word::EventWord;
use std::collections::BTreeMap;

/// One port's numbers.
#[derive(Clone, Copy, Debug, Default, PartialEq, Eq)]
pub struct PortAccount {
    /// Times that the hypervisor's or set PENDING where it was clear.
    pub sets: u64,
    /// Answers 19.
    pub hand_overs: u64,
    /// Closes that found PENDING set.
    pub closes: u64,
    /// Whether PENDING is set after the latest access.
    pub set_now: bool,
}

/// The numbers of all ports met.
#[derive(Clone, Debug, Default)]
pub struct Account(BTreeMap<Port, PortAccount>);

impl Account {
    /// Adds an event.
    pub fn note(&mut self, event: &Event) {
        match event {
            Event::Accessed(accessed) if accessed.performed => self.note_access(accessed),
            Event::Answered(Side::Guest, Answer::HandedOver(port), _) => {
                self.0.entry(*port).or_default().hand_overs += 1;
            }
            _ => {}
        }
    }

    fn note_access(&mut self, accessed: &Accessed) {
        let Place::Word(port) = accessed.access.place else {
            return;
        };
        let before = EventWord::from_bits(accessed.seen).pending;
        let after = EventWord::from_bits(accessed.access.op.effect(accessed.seen)).pending;
        let account = self.0.entry(port).or_default();
        account.set_now = after;
        if accessed.maker.side() == Side::Hypervisor && !before && after {
            account.sets += 1;
        }
        if is_close(&accessed.maker) && before {
            account.closes += 1;
        }
    }

    /// The first port whose numbers do not agree.
    pub fn wrong(&self) -> Option<(Port, PortAccount)> {
        let agrees = |a: &PortAccount| a.sets == a.hand_overs + a.closes + u64::from(a.set_now);
        let wrong = self.0.iter().find(|(_, account)| !agrees(account));
        wrong.map(|(port, account)| (*port, *account))
    }

    /// A port's numbers.
    pub fn of(&self, port: Port) -> PortAccount {
        self.0.get(&port).copied().unwrap_or_default()
    }
}

fn is_close(maker: &Maker) -> bool {
    matches!(maker, Maker::Call(call) if call.owner == Owner::Close && call.stage == Stage::CloseAnd)
}
