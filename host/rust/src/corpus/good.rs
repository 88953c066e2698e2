//! Good logs: random histories of a domain and its guest, recorded. Both sides' steps interleave,
//! and no expand adds a page past those lent.

use super::meeting::{self, masking, meets};
use super::recorder::{Recorder, Shape};
use crate::model::domain::PAGE_WORDS;
use crate::model::log::LoggedCall;
use crate::model::{Side, World};
use crate::random::Random;

const WORDS: [usize; 10] = [0, 500, 1024, 1024, 1024, 2047, 2048, 2048, 4096, 4096];
const ENTRIES: [usize; 12] = [0, 1, 8, 8, 8, 8, 8, 8, 1024, 1024, 1024, 4096];
/// Event words of 128 pages, and of one more than a domain can have.
const LARGE: [usize; 2] = [128 * PAGE_WORDS as usize, 129 * PAGE_WORDS as usize];
/// One log in so many has 128 pages.
const SELDOM: u64 = 300;
/// One log in so many is of both sides on few words.
const MEETING: u64 = 3;
/// Ports at edges: never valid, outside an array, the last one, one that no domain has.
const EDGE_PORTS: [u32; 9] = [0, 1, 1024, 2048, 4095, 4096, 131_071, 131_072, u32::MAX];
const PORTS: [u32; 8] = [1, 2, 3, 5, 7, 1023, 1025, 4095];

/// Any shape.
pub fn shape(random: &mut Random) -> Shape {
    Shape {
        words: random.pick(&WORDS),
        entries: random.pick(&ENTRIES),
    }
}

/// A good log with what is lent to it.
pub fn record(random: &mut Random) -> (Shape, Recorder) {
    match random.once_in(MEETING) {
        true => (meeting::SHAPE, meeting::record(random)),
        false => record_any(random),
    }
}

/// A good log over anything that is lent.
pub fn record_any(random: &mut Random) -> (Shape, Recorder) {
    if random.once_in(SELDOM) {
        let shape = Shape {
            words: random.pick(&LARGE),
            entries: random.pick(&[8, 131_072]),
        };
        return (shape, record_large(random, shape));
    }
    let shape = shape(random);
    (shape, record_over(random, shape, 60))
}

/// A good log over what is lent, of fewer lines than `most` or a few more.
pub fn record_over(random: &mut Random, shape: Shape, most: u64) -> Recorder {
    let lines = random.below(most).max(random.below(most)) as usize;
    let mut recorder = Recorder::fresh(shape);
    let calls = Calls::new(random, shape);
    if random.once_in(2) {
        calls.begin(&mut recorder);
    }
    while recorder.lines.len() <= lines {
        calls.step(random, &mut recorder);
    }
    recorder
}

/// A log of a domain with 128 pages, all of them lent.
pub fn record_large(random: &mut Random, shape: Shape) -> Recorder {
    let mut recorder = Recorder::fresh(shape);
    recorder.whole(init(0, 0));
    for frame in 0..128 {
        recorder.whole(LoggedCall::ExpandArray { frame });
    }
    let calls = Calls::new(random, shape);
    let lines = recorder.lines.len() + 120;
    while recorder.lines.len() < lines {
        calls.step(random, &mut recorder);
    }
    recorder
}

fn init(frame: u32, offset: u32) -> LoggedCall {
    LoggedCall::InitControl {
        vcpu: 0,
        frame,
        offset,
    }
}

/// An init_control, at times one that is refused.
fn init_any(random: &mut Random) -> LoggedCall {
    LoggedCall::InitControl {
        vcpu: random.pick(&[0, 0, 0, 0, 0, 0, 0, 1, 7, u32::MAX]),
        frame: random.pick(&[0, 1, 5, 20, 700, 1023, 1024, u32::MAX]),
        offset: random.pick(&[0, 8, 16, 72, 80, 1024, 4020, 4024, 4032]),
    }
}

/// What a history uses: few ports and priorities, so that they meet.
struct Calls {
    ports: Vec<u32>,
    priorities: Vec<u32>,
    /// One in how many calls is any, often refused.
    refused: u64,
}

impl Calls {
    /// Ports mostly with an entry and a word, where what is lent has such.
    fn new(random: &mut Random, shape: Shape) -> Self {
        let within = |port: &u32| (*port as usize) < shape.entries.min(shape.words);
        let lent: Vec<u32> = PORTS.into_iter().filter(within).collect();
        let ports = match lent.is_empty() || random.once_in(8) {
            true => &PORTS[..],
            false => &lent[..],
        };
        let (count, priorities) = (random.pick(&[1, 2, 3, 3, 4]), 1 + random.below(3));
        Calls {
            ports: (0..count).map(|_| random.pick(ports)).collect(),
            priorities: (0..priorities).map(|_| random.below(16) as u32).collect(),
            refused: random.pick(&[3, 12, 40]),
        }
    }

    /// The block given, a page added where one is lent, and every port bound; the first is raised,
    /// and a raise of the last begun.
    fn begin(&self, recorder: &mut Recorder) {
        recorder.whole(init(1, 0));
        if more_pages(&recorder.world) {
            recorder.whole(LoggedCall::ExpandArray { frame: 2 });
        }
        let ports = self.ports.iter().copied();
        ports.for_each(|port| recorder.whole(LoggedCall::Bind(port)));
        recorder.whole(LoggedCall::Raise(self.ports[0]));
        recorder.call(LoggedCall::Raise(self.ports[self.ports.len() - 1]));
    }

    /// An access of a call under way, mostly, or a call; both sides often meet.
    fn step(&self, random: &mut Random, recorder: &mut Recorder) {
        if meets(random, recorder) {
            return;
        }
        let world = &recorder.world;
        let under_way = |side| world.due(side).is_some();
        let (hypervisor, guest) = (under_way(Side::Hypervisor), under_way(Side::Guest));
        let ready = (world.memory.control.ready | world.guest.local) != 0;
        match random.below(16) {
            0..=5 if hypervisor => recorder.access(Side::Hypervisor),
            6..=10 if guest => recorder.access(Side::Guest),
            11..=13 if (ready && !guest) || random.once_in(8) => {
                recorder.call(LoggedCall::Service);
            }
            14 => {
                let port = self.port(random);
                recorder.call(masking(random, &recorder.world, port));
            }
            _ if hypervisor && !random.once_in(2 * self.refused) => {
                recorder.access(Side::Hypervisor);
            }
            _ => recorder.call(self.call(random, &recorder.world)),
        }
    }

    /// A call of the hypervisor: what a domain needs first, then any.
    fn call(&self, random: &mut Random, world: &World) -> LoggedCall {
        if random.once_in(self.refused) {
            return self.any(random, world);
        }
        let port = self.port(random);
        if !world.domain.given {
            return init_any(random);
        }
        let full = world.domain.pages >= 128 && random.once_in(4);
        if full || (more_pages(world) && !random.once_in(3)) {
            let frame = random.below(1024) as u32;
            return LoggedCall::ExpandArray { frame };
        }
        match world.ledger.get(port as usize) {
            Some(entry) if !entry.bound => LoggedCall::Bind(port),
            _ if random.once_in(3) => self.any(random, world),
            _ => LoggedCall::Raise(port),
        }
    }

    /// Any call, often one that is refused.
    fn any(&self, random: &mut Random, world: &World) -> LoggedCall {
        let port = self.port(random);
        match random.below(10) {
            0 => init_any(random),
            1 => self.expand(random, world),
            2 => LoggedCall::Bind(port),
            3 | 4 => LoggedCall::Close(port),
            5 | 6 => LoggedCall::SetPriority {
                port,
                priority: self.priority(random),
            },
            7 => LoggedCall::Raise(port),
            _ => LoggedCall::Unmask(port),
        }
    }

    /// An expand that is refused where no further page is lent.
    fn expand(&self, random: &mut Random, world: &World) -> LoggedCall {
        let domain = &world.domain;
        let refused = !domain.given || domain.pages >= 128 || domain.call.is_some();
        let frame = match more_pages(world) || refused {
            true => random.pick(&[0, 1023, 1024]),
            false => random.pick(&[1024, 5000, u32::MAX]),
        };
        LoggedCall::ExpandArray { frame }
    }

    fn port(&self, random: &mut Random) -> u32 {
        match random.once_in(8) {
            true => random.pick(&EDGE_PORTS),
            false => random.pick(&self.ports),
        }
    }

    fn priority(&self, random: &mut Random) -> u32 {
        match random.once_in(8) {
            true => random.pick(&[15, 16, 255, u32::MAX]),
            false => random.pick(&self.priorities),
        }
    }
}

/// Whether a page is lent that is not yet added.
fn more_pages(world: &World) -> bool {
    let page = u64::from(PAGE_WORDS);
    world.domain.words() + page <= world.memory.words.len() as u64
}
