//! Where BUSY stands, on demand 3's terms: on the tail's word of the raise or unmask that set it,
//! from the or to its clearing, and on no other word.

use crate::model::decisions::tail_place;
use crate::model::kinds::Port;
use crate::model::machine::World;
use crate::model::{EventWord, Place};

/// The first port in the array whose word has BUSY and should not, or should and has not.
pub fn misplaced_busy(world: &World) -> Option<Port> {
    let wanted = busy_port(world);
    let array = world.domain.words().min(world.memory.words.len() as u64);
    let words = (0_u32..).zip(&world.memory.words[..array as usize]);
    let mut words = words.map(|(port, bits)| (Port(port), EventWord::from_bits(*bits).busy));
    let wrong = words.find(|(port, busy)| *busy != (wanted == Some(*port)));
    wrong.map(|(port, _)| port)
}

/// The port whose word has BUSY by the call under way.
fn busy_port(world: &World) -> Option<Port> {
    let queue = world.domain.call?.busy_queue()?;
    match tail_place(&world.domain, queue) {
        Place::Word(port) => Some(port),
        Place::Ready | Place::Head(_) => None,
    }
}
