//! Demand 3's four parts, one function each.

use super::flows::Flows;
use super::queues::{Queues, WalkError};
use crate::model::decisions::local_bits;
use crate::model::kinds::{Port, Queue, QUEUES};
use crate::model::machine::World;
use crate::model::word::EventWord;

/// What is broken, and where.
#[derive(Clone, Copy, Debug, PartialEq, Eq)]
pub enum Broken {
    /// A walk found no queue.
    Walk(WalkError),
    /// Part 1: a pending unmasked port is on no queue and not held.
    Lost(Port),
    /// Part 2: a linked port does not stand exactly once.
    Linked(Port, usize),
    /// Part 3: a queue's order is not that of taking in.
    Order(Queue),
    /// Part 4: at rest a port is linked, or pending and not masked.
    AtRest(Port),
}

/// All four parts.
pub fn all_parts(world: &World, flows: &Flows) -> Result<(), Broken> {
    let queues = Queues::of(world).map_err(Broken::Walk)?;
    part1(world, &queues)?;
    part2(world, &queues)?;
    part3(&queues, flows)?;
    part4(world)
}

/// The ports in the array whose words are not 0, with their words.
fn ports(world: &World) -> impl Iterator<Item = (Port, EventWord)> + '_ {
    let array = world.domain.words().min(world.memory.words.len() as u64);
    let words = (0_u32..).zip(&world.memory.words[..array as usize]);
    words
        .skip(1)
        .filter(|(_, bits)| **bits != 0)
        .map(|(port, bits)| (Port(port), EventWord::from_bits(*bits)))
}

/// Each pending unmasked port in the array is on a queue or held by a call under way.
pub fn part1(world: &World, queues: &Queues) -> Result<(), Broken> {
    let lost = ports(world)
        .filter(|(_, word)| word.pending && !word.masked)
        .find(|(port, _)| queues.times(*port) == 0 && !held(world, *port));
    lost.map_or(Ok(()), |(port, _)| Err(Broken::Lost(port)))
}

/// Each linked port stands exactly once, or on none while the call that linked it holds it.
pub fn part2(world: &World, queues: &Queues) -> Result<(), Broken> {
    for (port, _) in ports(world).filter(|(_, word)| word.linked) {
        let times = queues.times(port);
        if times != 1 && !(times == 0 && held_by_linker(world, port)) {
            return Err(Broken::Linked(port, times));
        }
    }
    Ok(())
}

/// For each queue, the ports taken in are those given out and then those standing on it.
pub fn part3(queues: &Queues, flows: &Flows) -> Result<(), Broken> {
    for queue in (0..QUEUES).map(Queue) {
        let given_then_standing = flows.gave_out(queue).iter().chain(queues.on(queue));
        if !flows.took_in(queue).iter().eq(given_then_standing) {
            return Err(Broken::Order(queue));
        }
    }
    Ok(())
}

/// At rest no port is linked and all that is pending is masked.
pub fn part4(world: &World) -> Result<(), Broken> {
    if !at_rest(world) {
        return Ok(());
    }
    let wrong = ports(world).find(|(_, word)| word.linked || word.pending && !word.masked);
    wrong.map_or(Ok(()), |(port, _)| Err(Broken::AtRest(port)))
}

/// No call under way on either side, local bits 0, READY's low sixteen bits 0.
pub fn at_rest(world: &World) -> bool {
    let calls = world.domain.call.is_some() || world.guest.is_under_way();
    !calls && local_bits(world.guest.local | world.memory.control.ready) == 0
}

/// Whether a raise, an unmask or a service holds the port.
fn held(world: &World, port: Port) -> bool {
    let by_call = world
        .domain
        .call
        .is_some_and(|c| c.holds() && c.port == port);
    by_call || world.guest.held() == Some(port)
}

/// Whether the call that linked the port holds it.
fn held_by_linker(world: &World, port: Port) -> bool {
    let call = world.domain.call;
    call.is_some_and(|c| c.holds_linked() && c.port == port)
}
