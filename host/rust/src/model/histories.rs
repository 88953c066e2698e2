//! Random steps of a list in which the guest keeps the rules.

use super::decisions::queue_value;
use super::domain::{Stage, PAGE_WORDS};
use super::machine::{Side, Step, World};
use super::Model;
use crate::random::Random;

/// Ports that a history chooses from.
const PORTS: [u64; 6] = [1, 2, 3, 5, 9, 1023];
/// Ports at edges: never valid, outside one page, outside two, the last one, wide numbers.
const EDGE_PORTS: [u64; 9] = [
    0,
    1024,
    1025,
    2047,
    2048,
    131_071,
    131_072,
    131_073,
    (1 << 32) + 5,
];
/// Priorities that a history chooses from; the fresh one is among them twice.
const PRIORITIES: [u64; 6] = [0, 1, 7, 7, 8, 15];
/// Priorities that are refused.
const EDGE_PRIORITIES: [u64; 3] = [16, 255, 1 << 32];

/// What a history uses: few ports and priorities, so that they meet.
#[derive(Clone, Debug)]
pub struct Honest {
    ports: Vec<u64>,
    priorities: Vec<u64>,
    /// One in how many chances the guest takes to start a service.
    idle_guest: u64,
    /// One in how many accesses to a tail's word the guest comes before, on that word.
    meets: u64,
}

impl Honest {
    /// Two to six ports, one to three priorities.
    pub fn new(random: &mut Random) -> Self {
        let ports = 2 + random.below(5);
        let priorities = 1 + random.below(3);
        Honest {
            ports: (0..ports).map(|_| random.pick(&PORTS)).collect(),
            priorities: (0..priorities).map(|_| random.pick(&PRIORITIES)).collect(),
            idle_guest: 1 + random.below(6),
            meets: 2 + random.below(3),
        }
    }

    /// Fresh records; a ledger that is long enough or not; event words of anything before they
    /// are added.
    pub fn world(model: Model, random: &mut Random) -> World {
        let entries = random.pick(&[4, 600, 1100, 3000, 3000]);
        let mut world = World::fresh(model, 4096, entries);
        for word in &mut world.memory.words {
            *word = random.word();
        }
        world
    }

    /// Steps that give the block and one page, told; then binds of the ports.
    pub fn prologue(&self) -> Vec<Step> {
        let init = Step::InitControl {
            vcpu: 0,
            frame: 1,
            frames: 8,
            offset: 0,
        };
        let expand = Step::ExpandArray {
            frame: 2,
            frames: 8,
        };
        let mut steps = vec![init, expand, Step::Tell(u64::from(PAGE_WORDS))];
        for port in &self.ports {
            steps.extend([Step::Bind(*port), Step::Access(Side::Hypervisor)]);
        }
        steps
    }

    /// The world's next step. Most starts wait until the hypervisor's call has ended.
    pub fn step(&self, random: &mut Random, world: &World) -> Step {
        let words = world.domain.words();
        if u64::from(world.guest.words) < words {
            let smaller = random.below(words);
            return Step::Tell(random.pick(&[words, words, smaller]));
        }
        if let Some(tail) = linking_at(world).filter(|_| random.once_in(self.meets)) {
            return self.meet(random, world, tail);
        }
        let busy = world.due(Side::Hypervisor).is_some() && !random.once_in(4);
        match random.below(102) {
            65..=71 | 75..=79 | 82..=96 if busy => Step::Access(Side::Hypervisor),
            0..=34 => self.next_access(random, world, Side::Hypervisor),
            35..=64 => self.next_access(random, world, Side::Guest),
            65..=71 => Step::Raise(self.port(random)),
            72..=74 => Step::Service,
            75..=79 => Step::Unmask(self.port(random)),
            80..=81 => Step::Mask(self.port(random)),
            82..=83 => Step::Bind(self.port(random)),
            84..=89 => Step::Close(self.port(random)),
            90..=95 => self.set_priority(random),
            96 => expand(random, world),
            97 => Step::Tell(random.below(words + 1)),
            98 => init(random),
            99..=100 => Step::ClearMask(self.port(random)),
            _ => idle_reply(random, world),
        }
    }

    /// The guest on the word of the hypervisor's tail: it changes MASKED, or goes on.
    fn meet(&self, random: &mut Random, world: &World, tail: u64) -> Step {
        match random.below(6) {
            0 | 1 => Step::Mask(tail),
            2 | 3 if world.guest.clearing.is_none() => Step::ClearMask(tail),
            _ => self.next_access(random, world, Side::Guest),
        }
    }

    /// The access that is due, or the start of a call that has accesses.
    fn next_access(&self, random: &mut Random, world: &World, side: Side) -> Step {
        match world.due(side) {
            Some(_) => Step::Access(side),
            None if side == Side::Guest && random.once_in(self.idle_guest) => Step::Service,
            None => self.raise_or_bind(random, world),
        }
    }

    /// A raise, or mostly a bind where the port is not bound.
    fn raise_or_bind(&self, random: &mut Random, world: &World) -> Step {
        let port = self.port(random);
        let entry = world.ledger.get(port as usize);
        let unbound = entry.is_some_and(|entry| !entry.bound);
        if unbound && !random.once_in(8) {
            Step::Bind(port)
        } else {
            Step::Raise(port)
        }
    }

    fn port(&self, random: &mut Random) -> u64 {
        if random.once_in(16) {
            random.pick(&EDGE_PORTS)
        } else {
            random.pick(&self.ports)
        }
    }

    fn set_priority(&self, random: &mut Random) -> Step {
        let port = self.port(random);
        let priority = if random.once_in(16) {
            random.pick(&EDGE_PRIORITIES)
        } else {
            random.pick(&self.priorities)
        };
        Step::SetPriority { port, priority }
    }
}

/// The port of the tail whose word the hypervisor's call is about to change.
fn linking_at(world: &World) -> Option<u64> {
    let queue = match world.domain.call?.stage {
        Stage::R4 { queue, .. } | Stage::SetBusy { queue } | Stage::ClearBusy { queue, .. } => {
            queue
        }
        _ => return None,
    };
    Some(queue_value(&world.domain.tails, queue).into())
}

/// Few expands succeed, so that the array stays small.
fn expand(random: &mut Random, world: &World) -> Step {
    let frames = if world.domain.pages < 3 && random.once_in(4) {
        9
    } else {
        random.below(3)
    };
    Step::ExpandArray { frame: 4, frames }
}

fn init(random: &mut Random) -> Step {
    Step::InitControl {
        vcpu: random.pick(&[0, 0, 0, 1]),
        frame: random.below(4),
        frames: random.pick(&[3, 4, 1 << 40]),
        offset: random.pick(&[0, 8, 4_020, 4_024, 4_032]),
    }
}

/// A reply with no call under way, or else an access.
fn idle_reply(random: &mut Random, world: &World) -> Step {
    let side = random.pick(&[Side::Hypervisor, Side::Guest]);
    match world.due(side) {
        Some(_) => Step::Access(side),
        None => Step::HandBack(side, random.word()),
    }
}
