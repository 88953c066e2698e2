//! What each call met, told from what stood before it.

use super::asked::EndAt;
use super::cabled::Cabled;
use super::met::{is_close_of, Point, Standing};
use crate::boundary::cables;
use crate::model::cables::{End, Found, Refusal, Slot};
use crate::model::{Answer, Call, Next, Step};

impl Cabled {
    pub(super) fn note_lay(&mut self, near: EndAt, far: EndAt, outcome: &Result<usize, Refusal>) {
        self.met.note_lay(outcome);
        match outcome {
            Ok(slot) => self.note_laid(near, far, *slot),
            Err(refusal) => self.note_unlaid(near, far, *refusal),
        }
    }

    fn note_laid(&mut self, near: EndAt, far: EndAt, slot: usize) {
        let closing = self.is_closing(near) || self.is_closing(far);
        let over = cables::slot(&self.kept, slot) != Slot::FRESH;
        self.met.meet_if(near.at == far.at, Point::LaySameLent);
        self.met.meet_if(over, Point::LayOverJunk);
        self.met.meet_if(slot > 0, Point::LayAfterOthers);
        self.met.meet_if(closing, Point::LayClosing);
    }

    fn note_unlaid(&mut self, near: EndAt, far: EndAt, refusal: Refusal) {
        let bad = matches!(refusal, Refusal::BadDomain(_));
        let taken = matches!(refusal, Refusal::Taken(_));
        let same = near.domain == far.domain;
        let table = self.table.as_ref();
        let short = table.is_none() || !self.is_whole(near.at) || !self.is_whole(far.at);
        let full = table.is_some_and(|table| table.lowest_free().is_none());
        self.met.meet_if(bad && same, Point::LayBadSame);
        self.met.meet_if(bad && short, Point::LayBadShort);
        self.met.meet_if(taken && full, Point::LayTakenFull);
    }

    pub(super) fn note_cut(&mut self, near: EndAt, outcome: &Result<(), Refusal>) {
        self.met.note_cut(outcome);
        let (table, end) = (cables::table(&self.kept), End::of(near.domain, near.port));
        let (Ok(()), Some(table), Some(end)) = (outcome, table, end) else {
            return;
        };
        let freed: Vec<&Slot> = table.slots().iter().filter(|slot| slot.has(end)).collect();
        let has = |at: usize| freed.iter().any(|slot| slot.0[at] == end.number());
        let closing = self.is_closing(near);
        self.met.meet_if(has(0), Point::CutFirst);
        self.met.meet_if(has(1), Point::CutSecond);
        self.met.meet_if(freed.len() > 1, Point::CutSeveral);
        self.met.meet_if(closing, Point::CutClosing);
    }

    pub(super) fn note_send(&mut self, near: EndAt, hint: u32, outcome: &Result<Found, Refusal>) {
        self.met.note_send(outcome);
        let end = End::of(near.domain, near.port);
        let (Ok(found), Some(table), Some(end)) = (outcome, &self.table, end) else {
            return;
        };
        let first = table.slots()[found.slot].0[0] == end.number();
        let busy = self.pairs[near.at].world.domain.call.is_some();
        let closing = self.is_closing(near);
        let same = u64::from(found.far.domain()) == near.domain;
        self.met.note_hint(table, end, found, hint);
        self.met.meet_if(first, Point::SendFirst);
        self.met.meet_if(!first, Point::SendSecond);
        self.met.meet_if(busy, Point::SendBusy);
        self.met.meet_if(closing, Point::SendClosing);
        self.met.meet_if(same, Point::SendSame);
    }

    pub(super) fn note_step(
        &mut self,
        at: usize,
        step: Step,
        call: Option<Call>,
        standing: Standing,
        next: Next,
    ) {
        match (step, call) {
            (Step::Close(_), _) => self.met.note_close(standing, next),
            (_, Some(call)) => {
                let again = self.refused[at] == Some(call);
                let refused = matches!(next, Next::Answer(Answer::NoEntry, _));
                self.refused[at] = refused.then_some(call);
                self.met.note_reply(&call, standing, next, again);
            }
            (_, None) => self.note_either(step, [Point::ReplyNoCall; 2]),
        }
    }

    /// Counts a call of which no more is told: a close, or a reply.
    pub(super) fn note_either(&mut self, step: Step, [close, reply]: [Point; 2]) {
        self.met.calls += 1;
        match step {
            Step::Close(_) => self.met.meet(close),
            _ => self.met.meet(reply),
        }
    }

    /// What stands at the end that a close or a reply is about.
    pub(super) fn standing(&self, number: u64, step: Step, call: Option<Call>) -> Standing {
        let port = match step {
            Step::Close(port) => port,
            _ => call.map_or(0, |call| call.port.0.into()),
        };
        let table = self.table.as_ref();
        let has = |end| table.is_some_and(|table| table.lowest(end).is_some());
        let wrapped = number.wrapping_mul(1 << 20).wrapping_add(port) as u32;
        Standing {
            cable: End::of(number, port).is_some_and(has),
            wrapped: End::from_number(wrapped).is_some_and(has),
        }
    }

    /// Whether a close of the very port is under way.
    fn is_closing(&self, end: EndAt) -> bool {
        let call = self.pairs[end.at].world.domain.call;
        call.is_some_and(|call| is_close_of(&call, end.port as u32))
    }
}
