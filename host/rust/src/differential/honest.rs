//! An honest history: both sides' steps in a random order over shared memory, the guest keeping
//! the rules; demand 3's four parts and the account after every step.

use super::coverage::Coverage;
use super::pair::Pair;
use crate::model::claims::Judge;
use crate::model::histories::Honest;
use crate::model::Model;
use crate::random::Random;

const LENGTH: usize = 400;

/// One history from a seed.
pub fn history(
    pair: &mut Pair,
    random: &mut Random,
    model: Model,
    coverage: &mut Coverage,
) -> Result<(), String> {
    let world = Honest::world(model, random);
    pair.begin_fresh(world, random, coverage)?;
    let honest = Honest::new(random);
    let begun = match random.once_in(8) {
        true => Vec::new(),
        false => honest.prologue(),
    };
    let mut judge = Judge::default();
    let mut begun = begun.into_iter();
    while pair.length() < LENGTH {
        let next = begun.next();
        let step = next.unwrap_or_else(|| honest.step(random, &pair.world));
        let stepped = pair.step(step, coverage)?;
        judge.after(&pair.world, &stepped)?;
    }
    pair.finish()
}
