//! Refusals in their order: for each call every set of lines that can hold together is built,
//! and the first of them in the call's row is given, with count 0 and nothing changed.

use crate::support::Outcome;
use evtchn_fifo_host::model::{Call, Entry, Model, Next, Owner, Port, Side, Stage, Step, World};

cases! { init_row, expand_row, bind_row, close_row, set_priority_row, raise_row, unmask_row,
reply_row, service_rows, mask_row, clear_mask_row }

const BUSY: Call = Call {
    owner: Owner::Raise,
    port: Port(3),
    stage: Stage::R2,
    count: 5,
};

/// A world and a step for which exactly the lines in `holds` hold.
type Setup = fn(World, Step, &[u32]) -> (World, Step);

fn try_row(model: Model, step: Step, order: &[u32], setup: Setup) -> Outcome {
    for subset in 0..1_u32 << order.len() {
        let chosen = |(at, _): &(usize, &u32)| subset >> at & 1 == 1;
        let holds: Vec<u32> = order
            .iter()
            .enumerate()
            .filter(chosen)
            .map(|(_, n)| *n)
            .collect();
        let fresh = World::fresh(model, 2048, 0);
        let (mut world, step) = setup(fresh, step, &holds);
        let before = world.clone();
        let next = world.step(step).next;
        match holds.first() {
            Some(first) => {
                same!((&holds, number(next)), (&holds, Some((*first, 0))));
                same!((&holds, world == before), (&holds, true));
            }
            None => {
                let refused = number(next).is_some_and(|(n, _)| n != 0);
                same!(refused, false);
            }
        }
    }
    Ok(())
}

fn number(next: Next) -> Option<(u32, u32)> {
    match next {
        Next::Answer(answer, count) => Some((answer.number(), count)),
        Next::Access(_) => None,
    }
}

fn init_row(model: Model) -> Outcome {
    try_row(
        model,
        Step::Service,
        &[15, 17, 9, 11, 12],
        |mut world, _, holds| {
            world.domain.call = holds.contains(&15).then_some(BUSY);
            world.domain.given = holds.contains(&9);
            let step = Step::InitControl {
                vcpu: u64::from(holds.contains(&17)),
                frame: 4,
                frames: if holds.contains(&11) { 4 } else { 5 },
                offset: if holds.contains(&12) { 4_020 } else { 4_024 },
            };
            (world, step)
        },
    )
}

fn expand_row(model: Model) -> Outcome {
    try_row(
        model,
        Step::Service,
        &[15, 10, 13, 11],
        |mut world, _, holds| {
            world.domain.call = holds.contains(&15).then_some(BUSY);
            world.domain.given = !holds.contains(&10);
            world.domain.pages = if holds.contains(&13) { 128 } else { 127 };
            let step = Step::ExpandArray {
                frame: 4,
                frames: if holds.contains(&11) { 4 } else { 5 },
            };
            (world, step)
        },
    )
}

/// 15, 10, 3, 14, 6 for a call on a port; `bound` for its entry where it has one.
fn port_world(mut world: World, holds: &[u32], bound: bool) -> (World, u64) {
    let port = if holds.contains(&3) { 131_072 } else { 5 };
    let entries = if holds.contains(&14) { 5 } else { 131_073 };
    world.domain.call = holds.contains(&15).then_some(BUSY);
    world.domain.given = !holds.contains(&10);
    world.domain.pages = u32::from(!holds.contains(&6));
    world.ledger = Entry::ledger(entries);
    if let Some(entry) = world.ledger.get_mut(port) {
        entry.bound = bound;
    }
    (world, port as u64)
}

fn on_port(step: Step, port: u64) -> Step {
    match step {
        Step::Bind(_) => Step::Bind(port),
        Step::Close(_) => Step::Close(port),
        Step::Raise(_) => Step::Raise(port),
        Step::Unmask(_) => Step::Unmask(port),
        other => other,
    }
}

fn bind_row(model: Model) -> Outcome {
    try_row(
        model,
        Step::Bind(0),
        &[15, 10, 3, 14, 5],
        |world, step, holds| {
            let (world, port) = port_world(world, holds, holds.contains(&5));
            (world, on_port(step, port))
        },
    )
}

fn bound_setup(world: World, step: Step, holds: &[u32]) -> (World, Step) {
    let (world, port) = port_world(world, holds, !holds.contains(&4));
    (world, on_port(step, port))
}

fn close_row(model: Model) -> Outcome {
    try_row(model, Step::Close(0), &[15, 10, 3, 14, 4], bound_setup)
}

fn raise_row(model: Model) -> Outcome {
    try_row(model, Step::Raise(0), &[15, 10, 3, 14, 4, 6], bound_setup)
}

fn unmask_row(model: Model) -> Outcome {
    try_row(model, Step::Unmask(0), &[15, 10, 3, 14, 4, 6], bound_setup)
}

fn set_priority_row(model: Model) -> Outcome {
    try_row(
        model,
        Step::Service,
        &[15, 10, 3, 14, 8],
        |world, _, holds| {
            let (world, port) = port_world(world, holds, false);
            let priority = if holds.contains(&8) { 16 } else { 15 };
            (world, Step::SetPriority { port, priority })
        },
    )
}

fn reply_row(model: Model) -> Outcome {
    try_row(model, Step::Service, &[16, 14], |mut world, _, holds| {
        world.domain.call = (!holds.contains(&16)).then_some(BUSY);
        world.ledger = Entry::ledger(if holds.contains(&14) { 3 } else { 4 });
        (world, Step::HandBack(Side::Hypervisor, 0))
    })
}

/// A clear_mask of port 5 under way.
fn clearing(world: &mut World) {
    world.guest.words = 1024;
    world.step(Step::ClearMask(5));
}

fn service_rows(model: Model) -> Outcome {
    try_row(model, Step::Service, &[15], |mut world, step, holds| {
        if holds.contains(&15) {
            world.step(Step::Service);
        }
        (world, step)
    })?;
    try_row(model, Step::Service, &[15], |mut world, step, holds| {
        if holds.contains(&15) {
            clearing(&mut world);
        }
        (world, step)
    })?;
    try_row(
        model,
        Step::HandBack(Side::Guest, 1),
        &[16],
        |mut world, step, holds| {
            if !holds.contains(&16) {
                clearing(&mut world);
            }
            (world, step)
        },
    )?;
    try_row(
        model,
        Step::HandBack(Side::Guest, 1),
        &[16],
        |mut world, step, holds| {
            if !holds.contains(&16) {
                world.step(Step::Service);
            }
            (world, step)
        },
    )
}

fn mask_row(model: Model) -> Outcome {
    try_row(model, Step::Service, &[3, 6], |mut world, _, holds| {
        let port = if holds.contains(&3) { 131_072 } else { 5 };
        world.guest.words = if holds.contains(&6) { 5 } else { 200_000 };
        (world, Step::Mask(port))
    })
}

/// 15 is a clear_mask's alone: a service under way plays no part.
fn clear_mask_row(model: Model) -> Outcome {
    let setup: Setup = |mut world, _, holds| {
        let port = if holds.contains(&3) { 131_072 } else { 5 };
        if holds.contains(&15) {
            clearing(&mut world);
        }
        world.guest.words = if holds.contains(&6) { 5 } else { 200_000 };
        (world, Step::ClearMask(port))
    };
    try_row(model, Step::Service, &[15, 3, 6], setup)?;
    try_row(model, Step::Service, &[15, 3, 6], |mut world, _, holds| {
        world.step(Step::Service);
        let port = if holds.contains(&3) { 0 } else { 131_071 };
        if holds.contains(&15) {
            clearing(&mut world);
        }
        let outside = holds.contains(&6);
        world.guest.words = match holds.contains(&3) {
            true => u32::from(!outside),
            false => 131_072 - u32::from(outside),
        };
        (world, Step::ClearMask(port))
    })
}
