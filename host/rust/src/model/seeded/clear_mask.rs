//! Small rules of clear_mask, and of what comes between it and a service.

use super::Faults;
use crate::model::access::Op;
use crate::model::answer::Answer;
use crate::model::guest::Guest;
use crate::model::kinds::Port;
use crate::model::word::EventWord;
use crate::model::Model;

impl Model {
    /// Whether a clear_mask is refused with 15.
    pub(in crate::model) fn keeps_clear_mask_out(&self, guest: &Guest) -> bool {
        match self.fault {
            Faults::ClearTwice => false,
            Faults::ClearNotInService => guest.is_under_way(),
            _ => guest.clearing.is_some(),
        }
    }

    /// Whether a service is refused with 15.
    pub(in crate::model) fn keeps_service_out(&self, guest: &Guest) -> bool {
        self.choose(
            Faults::ServiceInClear,
            guest.call.is_some(),
            guest.is_under_way(),
        )
    }

    /// Whether clear_mask's 6 comes before its 3.
    pub(in crate::model) fn outside_first(&self) -> bool {
        self.has(Faults::ClearOutsideFirst)
    }

    /// Whether the port of a clear_mask is outside the guest's number of words.
    pub(in crate::model) fn is_outside(&self, port: u64, words: u32) -> bool {
        port >= u64::from(words) && !self.has(Faults::ClearAnyWord)
    }

    /// Whether a clear_mask answers 0 by the word that its read saw.
    pub(in crate::model) fn is_clear(&self, word: EventWord) -> bool {
        !word.masked && !self.has(Faults::ClearIgnoresMasked)
    }

    /// Whether a clear_mask answers 35 by the word that its read saw.
    pub(in crate::model) fn needs_unmask(&self, word: EventWord) -> bool {
        let pending = word.pending && !self.has(Faults::ClearIgnoresPending);
        let busy = word.busy && !self.has(Faults::ClearIgnoresBusy);
        pending || busy
    }

    /// The access that clears MASKED in the word that the read saw.
    pub(in crate::model) fn clearing_op(&self, old: u32) -> Op {
        let word = EventWord::from_bits(old).unmasked();
        let link = self.choose(Faults::ClearDropsLink, Port(0), word.link);
        let new = word.with_link(link).bits();
        self.choose(Faults::ClearStores, Op::Store(new), Op::Cas { old, new })
    }

    /// The answer to a clear_mask's cas.
    pub(in crate::model) fn cleared(&self, taken: bool) -> Answer {
        let done = match self.fault {
            Faults::ClearLostDone | Faults::ClearStores => true,
            Faults::ClearTakenRefused => false,
            _ => taken,
        };
        match done {
            true => Answer::Done,
            false => Answer::CallUnmask,
        }
    }

    /// The count of a clear_mask that names its cas.
    pub(in crate::model) fn cas_counted(&self, before: u32, after: u32) -> u32 {
        self.choose(Faults::ClearCount, before, after)
    }

    /// Whether a reply of the guest's is the clear_mask's.
    pub(in crate::model) fn answers_clear_mask(&self, guest: &Guest) -> bool {
        let service = guest.call.is_some() && self.has(Faults::ReplyToService);
        guest.clearing.is_some() && !service
    }

    /// Whether the access due on the guest's side is the clear_mask's.
    pub(in crate::model) fn names_clear_mask(&self, guest: &Guest) -> bool {
        let service = guest.call.is_some() && self.has(Faults::DueOfService);
        guest.clearing.is_some() && !service
    }

    /// Whether the service stands where it was once a clear_mask has ended.
    pub(in crate::model) fn keeps_service(&self) -> bool {
        !self.has(Faults::ClearEndsService)
    }
}
