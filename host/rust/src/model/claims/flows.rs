//! What each queue took in and gave out, folded from the accesses of a history.

use super::queues::Queues;
use crate::model::access::Op;
use crate::model::domain::{Call, Stage};
use crate::model::guest::ServiceStage;
use crate::model::kinds::{Port, Queue, QUEUES};
use crate::model::machine::{Accessed, Event, Maker};

/// Ports taken in and given out by each queue, in order.
#[derive(Clone, Debug, Default)]
pub struct Flows {
    took_in: [Vec<Port>; QUEUES as usize],
    gave_out: [Vec<Port>; QUEUES as usize],
}

impl Flows {
    /// A history that has taken in what stands on the queues and given out nothing.
    pub fn standing(queues: &Queues) -> Self {
        Flows {
            took_in: queues.0.clone(),
            ..Flows::default()
        }
    }

    /// Adds an event.
    pub fn note(&mut self, event: &Event) {
        let Event::Accessed(accessed) = event else {
            return;
        };
        if !accessed.performed {
            return;
        }
        if let Some((queue, port)) = taking_in(accessed) {
            self.took_in[queue.0 as usize].push(port);
        }
        if let Some((queue, port)) = giving_out(accessed) {
            self.gave_out[queue.0 as usize].push(port);
        }
    }

    /// The ports that a queue took in.
    pub fn took_in(&self, queue: Queue) -> &[Port] {
        &self.took_in[queue.0 as usize]
    }

    /// The ports that a queue gave out.
    pub fn gave_out(&self, queue: Queue) -> &[Port] {
        &self.gave_out[queue.0 as usize]
    }
}

/// A raise or unmask on a queue has its R4 cas taken or makes R6.
fn taking_in(accessed: &Accessed) -> Option<(Queue, Port)> {
    let Maker::Call(call) = accessed.maker else {
        return None;
    };
    let queue = match call {
        Call {
            stage: Stage::R6 { queue },
            ..
        } => queue,
        Call {
            stage: Stage::R4 { queue, .. },
            ..
        } if taken(accessed) => queue,
        _ => return None,
    };
    call.holds().then_some((queue, call.port))
}

fn taken(accessed: &Accessed) -> bool {
    matches!(accessed.access.op, Op::Cas { old, .. } if old == accessed.seen)
}

/// The G2 of a service whose lowest set bit was the queue.
fn giving_out(accessed: &Accessed) -> Option<(Queue, Port)> {
    match accessed.maker {
        Maker::Service(service) => match service.stage {
            ServiceStage::G2 { queue, port } => Some((queue, port)),
            _ => None,
        },
        Maker::Call(_) | Maker::ClearMask(_) | Maker::Mask(_) => None,
    }
}
