//! clear_mask (document 02, T-05), and the guest's reply, which is its own until its answer.

use super::access::{Access, Op};
use super::answer::{Answer, Next};
use super::decisions::one_more;
use super::guest::{ClearMask, ClearStage, Guest};
use super::kinds::Port;
use super::seeded::Faults;
use super::starts::unless;
use super::word::EventWord;
use super::Model;

impl Model {
    /// clear_mask: 15, 3, then 6 by the guest's number of words; then its read.
    pub fn clear_mask(&self, guest: &mut Guest, port: u64) -> Next {
        Next::from_start(self.start_clear_mask(guest, port))
    }

    fn start_clear_mask(&self, guest: &mut Guest, port: u64) -> Result<Next, Answer> {
        unless(self.keeps_clear_mask_out(guest), Answer::UnderWay)?;
        let port = self.whole(Faults::ClearPortCut, port);
        let outside = unless(self.is_outside(port, guest.words), Answer::OutsideArray);
        if self.outside_first() {
            outside?;
        }
        let port = self.valid_port(port)?;
        outside?;
        let count = self.first_count();
        let stage = ClearStage::Read;
        Ok(self.name_clear_mask(guest, ClearMask { port, stage, count }))
    }

    /// The access that the guest waits for: its clear_mask's, else its service's.
    pub fn guest_due(&self, guest: &Guest) -> Option<Access> {
        match guest.clearing {
            Some(clearing) if self.names_clear_mask(guest) => {
                Some(self.clear_access(clearing.port, clearing.stage))
            }
            _ => self.service_due(guest),
        }
    }

    fn clear_access(&self, port: Port, stage: ClearStage) -> Access {
        match stage {
            ClearStage::Read => Access::word(port, Op::Read),
            ClearStage::Cas { old } => Access::word(port, self.clearing_op(old)),
        }
    }

    fn name_clear_mask(&self, guest: &mut Guest, clearing: ClearMask) -> Next {
        guest.clearing = Some(clearing);
        Next::Access(self.clear_access(clearing.port, clearing.stage))
    }

    /// The guest's reply: its clear_mask's, else its service's, else 16.
    pub fn guest_reply(&self, guest: &mut Guest, seen: u32) -> Next {
        match guest.clearing {
            Some(clearing) if self.answers_clear_mask(guest) => {
                self.clear_mask_reply(guest, clearing, seen)
            }
            _ => self.service_reply(guest, seen),
        }
    }

    fn clear_mask_reply(&self, guest: &mut Guest, clearing: ClearMask, seen: u32) -> Next {
        let answer = match clearing.stage {
            ClearStage::Read => self.judged(EventWord::from_bits(seen)),
            ClearStage::Cas { old } => Some(self.cleared(seen == old)),
        };
        if let Some(answer) = answer {
            guest.clearing = None;
            guest.call = guest.call.filter(|_| self.keeps_service());
            return Next::Answer(answer, clearing.count);
        }
        let stage = ClearStage::Cas { old: seen };
        let count = self.cas_counted(clearing.count, one_more(clearing.count));
        let port = clearing.port;
        self.name_clear_mask(guest, ClearMask { port, stage, count })
    }

    /// The answer by the word read: 0 unless MASKED, 35 if PENDING or BUSY; else none, the cas
    /// follows.
    fn judged(&self, word: EventWord) -> Option<Answer> {
        if self.is_clear(word) {
            return Some(Answer::Done);
        }
        self.needs_unmask(word).then_some(Answer::CallUnmask)
    }
}
