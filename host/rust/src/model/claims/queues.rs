//! The ports that stand on each queue, by a walk along LINK.

use crate::model::kinds::{Port, Queue, QUEUES};
use crate::model::machine::World;
use crate::model::word::EventWord;

/// Why a walk found no queue.
#[derive(Clone, Copy, Debug, PartialEq, Eq)]
pub enum WalkError {
    /// The walk came back to a port it had met.
    Ring(Queue),
    /// The walk left the array.
    Outside(Queue, Port),
}

/// The ports that stand on each queue, in order.
pub struct Queues(pub [Vec<Port>; QUEUES as usize]);

impl Queues {
    /// Walks all sixteen queues.
    pub fn of(world: &World) -> Result<Self, WalkError> {
        let mut queues: [Vec<Port>; QUEUES as usize] = Default::default();
        for (number, ports) in (0..QUEUES).zip(queues.iter_mut()) {
            *ports = walk(world, Queue(number))?;
        }
        Ok(Queues(queues))
    }

    /// The ports that stand on a queue.
    pub fn on(&self, queue: Queue) -> &[Port] {
        &self.0[queue.0 as usize]
    }

    /// How often a port stands on queues.
    pub fn times(&self, port: Port) -> usize {
        self.0.iter().flatten().filter(|p| **p == port).count()
    }
}

/// Where a queue starts: H, else HEAD if its local or READY bit is set, else nowhere.
fn start(world: &World, queue: Queue) -> u32 {
    let index = queue.0 as usize;
    let head = world.guest.heads[index];
    if head != 0 {
        return head;
    }
    let ready = (world.guest.local | world.memory.control.ready) >> queue.0 & 1 == 1;
    if ready {
        world.memory.control.head[index]
    } else {
        0
    }
}

fn walk(world: &World, queue: Queue) -> Result<Vec<Port>, WalkError> {
    let mut ports = Vec::new();
    let mut at = start(world, queue);
    while at != 0 {
        let port = Port(at);
        if ports.contains(&port) {
            return Err(WalkError::Ring(queue));
        }
        if !world.domain.in_array(port) {
            return Err(WalkError::Outside(queue, port));
        }
        let Some(word) = world.memory.words.get(port.index()) else {
            return Err(WalkError::Outside(queue, port));
        };
        ports.push(port);
        at = EventWord::from_bits(*word).link.0;
    }
    Ok(ports)
}
