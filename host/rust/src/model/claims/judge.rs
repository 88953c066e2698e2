//! A judge of honest histories: after every step demand 3's four parts, where BUSY stands, the
//! account of PENDING, the number of accesses of every call, and the count of every answer.

use super::{all_parts, misplaced_busy, Account, Flows, Lengths};
use crate::model::machine::{Maker, Stepped};
use crate::model::{Event, EventWord, Next, Place, Port, World};

/// Ports whose word is compared with the account after every step.
const WATCHED: [u32; 8] = [1, 2, 3, 5, 9, 1023, 1025, 2047];

/// The folds that the claims need.
#[derive(Clone, Debug, Default)]
pub struct Judge {
    flows: Flows,
    account: Account,
    lengths: Lengths,
}

impl Judge {
    /// Judges the world after a step.
    pub fn after(&mut self, world: &World, stepped: &Stepped) -> Result<(), String> {
        for event in stepped.events.iter() {
            self.flows.note(event);
            self.account.note(event);
        }
        all_parts(world, &self.flows).map_err(|broken| format!("{broken:?}"))?;
        if let Some(port) = misplaced_busy(world) {
            return Err(format!("BUSY of {port:?}"));
        }
        self.check_account(world)?;
        check_named(world, stepped.next)?;
        self.check_count(&stepped.events)
    }

    /// No call makes too many accesses; an answer's count is the number made; R6 never sees its bit
    /// set.
    fn check_count(&mut self, events: &[Event]) -> Result<(), String> {
        let Some(Event::Accessed(accessed)) = events.first() else {
            return Ok(());
        };
        let Some(made) = self.lengths.note(&events[0])? else {
            return Ok(());
        };
        if let Some(Event::Answered(_, answer, count)) = events.get(1) {
            if *count != made {
                return Err(format!("{answer:?} counts {count}, made {made}"));
            }
        }
        let call = matches!(accessed.maker, Maker::Call(_));
        let r6 = accessed.access.place == Place::Ready && call;
        let bit = accessed.access.op.operand().unwrap_or(0);
        if r6 && accessed.seen & bit != 0 {
            return Err("R6 sees its bit set".to_string());
        }
        Ok(())
    }

    fn check_account(&self, world: &World) -> Result<(), String> {
        if let Some(wrong) = self.account.wrong() {
            return Err(format!("account {wrong:?}"));
        }
        for port in WATCHED {
            let in_array = world.domain.in_array(Port(port));
            let word = EventWord::from_bits(world.memory.words[port as usize]);
            if in_array && self.account.of(Port(port)).set_now != word.pending {
                return Err(format!("set now of {port}"));
            }
        }
        Ok(())
    }
}

/// An access that was named is the one that is due.
fn check_named(world: &World, next: Next) -> Result<(), String> {
    match next {
        Next::Answer(..) => Ok(()),
        Next::Access(access) => {
            let model = world.model;
            let due = [model.due(&world.domain), model.guest_due(&world.guest)];
            let named = due.contains(&Some(access));
            named.then_some(()).ok_or(format!("{access:?} is not due"))
        }
    }
}
