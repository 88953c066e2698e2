//! Both sides on the same words: raises behind a tail whose mask the guest changes, and
//! clear_masks of ports that the hypervisor raises and unmasks. What good logs have of it, and
//! good logs of nothing else.

use super::recorder::{Recorder, Shape};
use crate::model::log::LoggedCall;
use crate::model::machine::Maker;
use crate::model::{ClearMask, ClearStage, EventWord, Place, Side, Stage, World};
use crate::random::Random;

/// What is lent to a log of its own.
pub const SHAPE: Shape = Shape {
    words: 1024,
    entries: 8,
};
/// Few ports, so that they meet.
const PORTS: [u32; 3] = [1, 2, 5];

/// A log of 20 to 100 lines.
pub fn record(random: &mut Random) -> Recorder {
    let mut recorder = Recorder::fresh(SHAPE);
    bind_all(&mut recorder);
    begin(random, &mut recorder);
    let lines = recorder.lines.len() + random.below(70) as usize;
    while recorder.lines.len() < lines {
        step(random, &mut recorder);
    }
    recorder
}

/// The block given, a page, and every port bound.
fn bind_all(recorder: &mut Recorder) {
    recorder.whole(LoggedCall::InitControl {
        vcpu: 0,
        frame: 0,
        offset: 0,
    });
    recorder.whole(LoggedCall::ExpandArray { frame: 1 });
    for port in PORTS {
        recorder.whole(LoggedCall::Bind(port));
    }
}

/// A port linked, at times one that a service is about to take; then a raise of another begun.
fn begin(random: &mut Random, recorder: &mut Recorder) {
    let first = random.below(PORTS.len() as u64) as usize;
    recorder.whole(LoggedCall::Raise(PORTS[first]));
    if random.once_in(2) {
        recorder.call(LoggedCall::Service);
        recorder.access(Side::Guest);
        recorder.access(Side::Guest);
    }
    recorder.call(LoggedCall::Raise(PORTS[(first + 1) % PORTS.len()]));
}

/// An access of either side, or a call.
fn step(random: &mut Random, recorder: &mut Recorder) {
    if meets(random, recorder) {
        return;
    }
    let under_way = |side| recorder.world.due(side).is_some();
    let (hypervisor, guest) = (under_way(Side::Hypervisor), under_way(Side::Guest));
    let port = random.pick(&PORTS);
    match random.below(16) {
        0..=3 if hypervisor => recorder.access(Side::Hypervisor),
        4..=7 if guest => recorder.access(Side::Guest),
        8 | 9 => recorder.call(LoggedCall::Service),
        10..=12 => {
            let port = quiet(random, &recorder.world);
            recorder.call(masking(random, &recorder.world, port));
        }
        _ if hypervisor => recorder.access(Side::Hypervisor),
        _ => recorder.call(call(random, &recorder.world, port)),
    }
}

/// A port, mostly one that is not pending; seldom port 0.
fn quiet(random: &mut Random, world: &World) -> u32 {
    if random.once_in(24) {
        return 0;
    }
    let ports = [(); 4].map(|()| random.pick(&PORTS));
    let pending = |port: u32| EventWord::from_bits(world.memory.words[port as usize]).pending;
    let quiet = ports.into_iter().find(|port| !pending(*port));
    quiet.unwrap_or(ports[0])
}

/// Mostly a raise; a closed port is bound again.
fn call(random: &mut Random, world: &World, port: u32) -> LoggedCall {
    if !world.ledger[port as usize].bound {
        return LoggedCall::Bind(port);
    }
    match random.below(16) {
        0 | 1 => LoggedCall::Close(port),
        2 | 3 => LoggedCall::Unmask(port),
        4 => LoggedCall::SetPriority {
            port,
            priority: random.pick(&[0, 7, 7, 16]),
        },
        _ => LoggedCall::Raise(port),
    }
}

/// Often, where a call is about to change a tail's word, something of the guest's on that word; and
/// while a clear_mask is under way, something else. Whether anything was done.
pub fn meets(random: &mut Random, recorder: &mut Recorder) -> bool {
    let tail = tail_place(&recorder.world).filter(|_| !random.once_in(3));
    if let Some(tail) = tail {
        meet(random, recorder, tail);
        return true;
    }
    let clearing = recorder.world.guest.clearing;
    let comes = |clearing: &ClearMask| clearing.stage != ClearStage::Read || random.once_in(2);
    let clearing = clearing.filter(comes);
    if let Some(clearing) = clearing {
        during_clear(random, recorder, clearing);
    }
    clearing.is_some()
}

/// A mask or a clear_mask, mostly what changes the port's word.
pub fn masking(random: &mut Random, world: &World, port: u32) -> LoggedCall {
    let changes = !random.once_in(4);
    match is_masked(world, port) == changes {
        true => LoggedCall::ClearMask(port),
        false => LoggedCall::Mask(port),
    }
}

/// The port of the tail whose word the hypervisor's call is about to change.
fn tail_place(world: &World) -> Option<u32> {
    let Some((Maker::Call(call), access)) = world.due(Side::Hypervisor) else {
        return None;
    };
    match (access.place, call.stage) {
        (Place::Word(port), Stage::R4 { .. } | Stage::SetBusy { .. } | Stage::ClearBusy { .. }) => {
            Some(port.0)
        }
        _ => None,
    }
}

fn is_masked(world: &World, port: u32) -> bool {
    let word = world.memory.words.get(port as usize);
    word.is_some_and(|word| EventWord::from_bits(*word).masked)
}

/// The guest changes a port's mask, or goes on with what it has under way.
fn meet(random: &mut Random, recorder: &mut Recorder, port: u32) {
    let under_way = recorder.world.due(Side::Guest).is_some();
    match random.below(5) {
        0 | 1 if !is_masked(&recorder.world, port) => recorder.call(LoggedCall::Mask(port)),
        0 => recorder.call(LoggedCall::ClearMask(port)),
        _ if under_way => recorder.access(Side::Guest),
        _ => recorder.call(LoggedCall::Service),
    }
}

/// A mask, a service, which is refused, or something of the hypervisor's: between read and cas
/// mostly a raise of the port, which changes its word where it is bound.
fn during_clear(random: &mut Random, recorder: &mut Recorder, clearing: ClearMask) {
    let (port, read) = (clearing.port.0, clearing.stage == ClearStage::Read);
    let idle = recorder.world.domain.call.is_none();
    match random.below(12) {
        0 | 1 => recorder.call(LoggedCall::Service),
        2 => recorder.call(LoggedCall::Mask(port)),
        3 if idle => recorder.call(LoggedCall::Unmask(port)),
        4..=10 if idle && !read => recorder.call(LoggedCall::Raise(port)),
        3..=10 if !idle => recorder.access(Side::Hypervisor),
        _ => recorder.access(Side::Guest),
    }
}
