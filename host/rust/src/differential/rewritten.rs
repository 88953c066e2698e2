//! A history from fresh records whose guest keeps rewriting the word of the tail that a raise or
//! unmask links behind, so that every length of a call is met.

use super::coverage::Coverage;
use super::hostile::{check_abandoned, check_reach, prologue};
use super::pair::Pair;
use crate::model::arbitrary::word;
use crate::model::{Model, Side, Stage, Step, World};
use crate::random::Random;

const LENGTH: usize = 130;
const PORTS: [u64; 4] = [1, 2, 5, 9];
const LINKED: u32 = 1 << 29;
const MASKED: u32 = 1 << 30;
const PENDING: u32 = 1 << 31;

/// One history from a seed.
pub fn history(
    pair: &mut Pair,
    random: &mut Random,
    model: Model,
    coverage: &mut Coverage,
) -> Result<(), String> {
    pair.begin_fresh(World::fresh(model, 16, 10), random, coverage)?;
    let binds = PORTS.map(|port| [Step::Bind(port), Step::HandBack(Side::Hypervisor, 0)]);
    for step in prologue().into_iter().chain(binds.into_iter().flatten()) {
        pair.step(step, coverage)?;
    }
    while pair.length() < LENGTH {
        let step = step(random, &pair.world);
        let clearing = pair.world.guest.clearing.is_some();
        let stepped = pair.step(step, coverage)?;
        check_reach(&pair.world)?;
        check_abandoned(stepped.next)?;
        coverage.note_longest(step, clearing, stepped.next);
    }
    pair.finish()
}

/// Mostly the hypervisor's reply, or a raise or unmask.
fn step(random: &mut Random, world: &World) -> Step {
    let port = random.pick(&PORTS);
    match (world.domain.call, random.below(16)) {
        (_, 0) => Step::ClearMask(port),
        (_, 1) => Step::HandBack(Side::Guest, word(random)),
        (Some(call), _) => Step::HandBack(Side::Hypervisor, rewritten(random, call.stage)),
        (None, 2..=8) => Step::Unmask(port),
        (None, _) => Step::Raise(port),
    }
}

/// A word that leads the call on; a cas is mostly not taken and keeps LINKED.
fn rewritten(random: &mut Random, stage: Stage) -> u32 {
    let any = word(random);
    match (stage, random.below(8)) {
        (Stage::R1 | Stage::R2, _) => any & !(LINKED | MASKED),
        (Stage::U1, _) => any & !LINKED | PENDING,
        (Stage::R4 { old, .. }, 0) => old,
        (Stage::R4 { .. } | Stage::SetBusy { .. }, 1) => any & !LINKED,
        (Stage::R3 { .. } | Stage::R4 { .. } | Stage::SetBusy { .. }, _) => any | LINKED,
        _ => any,
    }
}
