//! The guest's calls: service and its replies G0 to G4, mask, tell; clear_mask is in `clear_mask`.

use super::access::{Access, Op};
use super::answer::{Answer, Masking, Next};
use super::decisions::{
    head_place, local_bits, one_more, queue_value, ready_bit, saturated, set_queue_value,
};
use super::guest::{Guest, Service, ServiceStage};
use super::kinds::{Port, Queue};
use super::seeded::Faults;
use super::word::EventWord;
use super::Model;

/// MASKED, mask's operand.
const MASKED: u32 = 0x4000_0000;

/// What a stage's reply leads to.
enum Outcome {
    /// The next access is that of this stage.
    Go(ServiceStage),
    /// The service ends.
    End(Answer),
}

use Outcome::{End, Go};

impl Model {
    /// service: 15, also during a clear_mask; then G0.
    pub fn service(&self, guest: &mut Guest) -> Next {
        if self.keeps_service_out(guest) {
            return Next::at_once(Answer::UnderWay);
        }
        let count = self.first_count();
        let stage = ServiceStage::G0;
        self.name_service(guest, Service { stage, count })
    }

    /// The access that the service under way waits for.
    pub(super) fn service_due(&self, guest: &Guest) -> Option<Access> {
        guest.call.map(|call| self.service_access(call.stage))
    }

    fn service_access(&self, stage: ServiceStage) -> Access {
        match stage {
            ServiceStage::G0 => Access::ready(Op::Swap(0)),
            ServiceStage::G1 { queue } => Access::at(head_place(queue), Op::Read),
            ServiceStage::G2 { port, .. } => Access::word(port, Op::And(self.g2_operand())),
            ServiceStage::G3 { port } => Access::word(port, Op::Read),
            ServiceStage::G4 { port } => Access::word(port, Op::And(self.g4_operand())),
        }
    }

    fn name_service(&self, guest: &mut Guest, service: Service) -> Next {
        guest.call = Some(service);
        Next::Access(self.service_access(service.stage))
    }

    /// The reply to a service: 16, then its stage, which may give 18.
    pub(super) fn service_reply(&self, guest: &mut Guest, seen: u32) -> Next {
        let Some(service) = guest.call else {
            return Next::at_once(Answer::NoCall);
        };
        match self.service_stage_reply(guest, service.stage, seen) {
            Go(stage) => {
                let count = one_more(service.count);
                self.name_service(guest, Service { stage, count })
            }
            End(answer) => {
                guest.call = None;
                Next::Answer(answer, service.count)
            }
        }
    }

    fn service_stage_reply(&self, guest: &mut Guest, stage: ServiceStage, seen: u32) -> Outcome {
        let word = EventWord::from_bits(seen);
        match stage {
            ServiceStage::G0 => self.g0(guest, seen),
            ServiceStage::G1 { queue } => self.take(guest, queue, Port(seen)),
            ServiceStage::G2 { queue, port } => self.g2(guest, queue, port, word),
            ServiceStage::G3 { port } if word.pending && !word.masked => {
                Go(ServiceStage::G4 { port })
            }
            ServiceStage::G4 { port } if word.pending => End(Answer::HandedOver(port)),
            ServiceStage::G3 { port } | ServiceStage::G4 { port } => {
                End(Answer::NotHandedOver(port))
            }
        }
    }

    /// G0: READY's low sixteen bits join the local ones; the lowest set one is served.
    fn g0(&self, guest: &mut Guest, seen: u32) -> Outcome {
        guest.local = local_bits(guest.local | seen);
        let Some(queue) = self.served_queue(guest.local, seen) else {
            return End(Answer::Idle);
        };
        match queue_value(&guest.heads, queue) {
            0 => Go(ServiceStage::G1 { queue }),
            head => self.take(guest, queue, Port(head)),
        }
    }

    /// A port 0 or outside gives 18 and leaves H and the local bit of the queue 0; else G2.
    fn take(&self, guest: &mut Guest, queue: Queue, port: Port) -> Outcome {
        if port.0 != 0 && port.0 < guest.words {
            return Go(ServiceStage::G2 { queue, port });
        }
        let head = self.refused_head(queue_value(&guest.heads, queue));
        set_queue_value(&mut guest.heads, queue, head);
        guest.local &= !ready_bit(queue);
        End(Answer::BadIndex)
    }

    /// G2: H becomes the LINK seen; if that is 0, the local bit clears.
    fn g2(&self, guest: &mut Guest, queue: Queue, port: Port, word: EventWord) -> Outcome {
        set_queue_value(&mut guest.heads, queue, word.link.0);
        if self.clears_local(word.link) {
            guest.local &= !ready_bit(queue);
        }
        Go(ServiceStage::G3 { port })
    }

    /// mask: 3, then 6 by the guest's number of words; its access is named with answer 0.
    pub fn mask(&self, port: u64, words: u64) -> Masking {
        let words = self.whole(Faults::MaskWordsCut, words);
        match self.valid_port(port) {
            Err(refusal) => Masking::Refused(refusal),
            Ok(_) if port >= words => Masking::Refused(Answer::OutsideArray),
            Ok(port) => Masking::Named(Access::word(port, Op::Or(MASKED))),
        }
    }

    /// tell: the number of words becomes the larger of old and told.
    pub fn tell(&self, guest: &mut Guest, words: u64) -> Next {
        let words = saturated(self.whole(Faults::ToldWordsCut, words));
        guest.words = self.told_words(guest.words, words);
        Next::at_once(Answer::Done)
    }
}
