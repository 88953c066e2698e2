//! A hostile history: from fresh records, with words that need not be those in memory, and
//! ledgers that change at any time.

use super::arbitrary::random_ledger;
use super::coverage::Coverage;
use super::lent::edge;
use super::pair::Pair;
use crate::model::arbitrary::hostile_step;
use crate::model::{Answer, Model, Next, Place, Port, Step, World};
use crate::random::Random;

const LENGTH: usize = 150;

/// One history from a seed.
pub fn history(
    pair: &mut Pair,
    random: &mut Random,
    model: Model,
    coverage: &mut Coverage,
) -> Result<(), String> {
    pair.begin_fresh(World::fresh(model, 16, 2), random, coverage)?;
    if !random.once_in(8) {
        for step in prologue() {
            pair.step(step, coverage)?;
        }
    }
    while pair.length() < LENGTH {
        if random.once_in(4) {
            let bytes = random_ledger(random);
            pair.lend_bytes(&bytes, edge(random));
        }
        let step = hostile_step(random, &pair.world);
        let clearing = pair.world.guest.clearing.is_some();
        let stepped = pair.step(step, coverage)?;
        check_reach(&pair.world)?;
        check_abandoned(stepped.next)?;
        coverage.note_longest(step, clearing, stepped.next);
    }
    pair.finish()
}

/// The block given, a page, and the guest told.
pub(super) fn prologue() -> [Step; 3] {
    let init = Step::InitControl {
        vcpu: 0,
        frame: 1,
        frames: 8,
        offset: 0,
    };
    let expand = Step::ExpandArray {
        frame: 2,
        frames: 8,
    };
    [init, expand, Step::Tell(1024)]
}

/// Whatever the words, no access reaches outside, and no call has named more than twelve, no
/// service more than five, no clear_mask more than two.
pub(super) fn check_reach(world: &World) -> Result<(), String> {
    let in_array = |port: Port| port.0 != 0 && world.domain.in_array(port);
    let in_words = |port: Port| port.0 != 0 && port.0 < world.guest.words;
    let due = world.model.due(&world.domain).map(|access| access.place);
    let served = world.model.guest_due(&world.guest);
    let served = served.map(|access| access.place);
    let inside = due.is_none_or(|place| is_inside(place, in_array))
        && served.is_none_or(|place| is_inside(place, in_words));
    let call = world.domain.call.map_or(0, |call| call.count);
    let service = world.guest.call.map_or(0, |call| call.count);
    let clearing = world.guest.clearing.map_or(0, |clearing| clearing.count);
    if inside && call <= 12 && service <= 5 && clearing <= 2 {
        return Ok(());
    }
    Err(format!(
        "reach: {due:?}, {served:?}; counts {call}, {service}, {clearing}"
    ))
}

/// Answer 2 comes after ten accesses, no more and no less.
pub(super) fn check_abandoned(next: Next) -> Result<(), String> {
    match next {
        Next::Answer(Answer::LinkAbandoned, count) if count != 10 => {
            Err(format!("2 after {count} accesses"))
        }
        _ => Ok(()),
    }
}

fn is_inside(place: Place, word: impl Fn(Port) -> bool) -> bool {
    match place {
        Place::Word(port) => word(port),
        Place::Ready => true,
        Place::Head(queue) => queue.0 < 16,
    }
}
