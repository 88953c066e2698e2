//! Operands, limits and small rules of R4 and of BUSY.

use super::Faults;
use crate::model::decisions::{self, link_of, FIRST_TRY, TRY_LIMIT};
use crate::model::kinds::Port;
use crate::model::word::EventWord;
use crate::model::Model;

impl Model {
    /// The or's operand: BUSY.
    pub(in crate::model) fn busy_operand(&self) -> u32 {
        self.choose(Faults::BusyOperand, 0x0800_0000, 0x1000_0000)
    }

    /// The and's operand: all but BUSY.
    pub(in crate::model) fn clear_busy_operand(&self) -> u32 {
        self.choose(Faults::ClearBusyOperand, 0xDFFF_FFFF, 0xEFFF_FFFF)
    }

    /// Whether the cas just made was the last one allowed.
    pub(in crate::model) fn tries_spent(&self, tries: u32) -> bool {
        let limit = match self.fault {
            Faults::TryLimit => TRY_LIMIT + 1,
            Faults::FewerTries => TRY_LIMIT - 1,
            _ => TRY_LIMIT,
        };
        decisions::last_try(tries, limit)
    }

    /// Whether BUSY follows a first cas that was not taken, given whether it kept LINKED.
    pub(in crate::model) fn sets_busy(&self, linked: bool) -> bool {
        match self.fault {
            Faults::BusyNever => false,
            Faults::BusyWhereLost => true,
            _ => linked,
        }
    }

    /// Whether BUSY is cleared by an and of its own, before answer 2 or else before HEAD.
    pub(in crate::model) fn clears_busy(&self, abandoned: bool) -> bool {
        match self.fault {
            Faults::BusyNever => false,
            Faults::BusyLeftAtHead => abandoned,
            Faults::BusyLeftAtEnd => !abandoned,
            _ => true,
        }
    }

    /// Whether the tail of an abandoned link moves before BUSY is cleared.
    pub(in crate::model) fn moves_tail_early(&self) -> bool {
        self.has(Faults::EarlyTail)
    }

    /// Whether HEAD is stored before BUSY is cleared.
    pub(in crate::model) fn clears_after_head(&self) -> bool {
        self.has(Faults::BusyAfterHead)
    }

    /// The word that decides what follows the and: the one kept, not the one that the and sees.
    pub(in crate::model) fn deciding(&self, kept: u32, seen: u32) -> u32 {
        self.choose(Faults::ClearedWordJudged, seen, kept)
    }

    /// The word that stands after the or.
    pub(in crate::model) fn standing(&self, seen: u32) -> u32 {
        let word = EventWord::from_bits(seen);
        let busy = word.busy || !self.has(Faults::BusyUncompared);
        word.with_busy(busy).bits()
    }

    /// R4's new word: the old one with LINK p, BUSY clear.
    pub(in crate::model) fn linking_word(&self, old: u32, tries: u32, port: Port) -> u32 {
        let word = EventWord::from_bits(old);
        let link = self.choose(Faults::CasLink, word.link, link_of(port));
        let keeps_busy = match self.fault {
            Faults::CasKeepsBusy => true,
            Faults::FirstCasKeepsBusy => tries <= FIRST_TRY,
            Faults::LastCasKeepsBusy => tries >= TRY_LIMIT,
            _ => false,
        };
        let busy = word.busy && keeps_busy;
        word.with_link(link).with_busy(busy).bits()
    }
}
