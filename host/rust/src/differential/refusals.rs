//! Refusal storms: for each adjacent pair of each row of readings A1 an input for which both lines
//! hold and none before, which gives the first; then one without the first, which gives the second.
//! Then one of each row for which none holds.

use super::coverage::{refusals, Coverage};
use super::inputs::{Input, Lines};
use super::lent::edge;
use super::pair::Pair;
use super::rows::{given, Row, ROWS};
use crate::boundary::records::{put_number, CLEAR_STAGE, GIVEN, GUEST_STAGE, OWNER, STAGE};
use crate::model::{Model, World};
use crate::random::Random;

/// One storm: every pair of every row.
pub fn history(
    pair: &mut Pair,
    random: &mut Random,
    model: Model,
    coverage: &mut Coverage,
) -> Result<(), String> {
    for (row, _, gives) in ROWS {
        let lines = refusals(gives);
        for at in 0..lines.len() {
            let mut holds = lines[at..].to_vec();
            holds.retain(|line| {
                *line == lines[at] || lines.get(at + 1) == Some(line) || random.once_in(2)
            });
            if at + 1 < lines.len() {
                coverage.note_pair(row, at);
            }
            try_lines(pair, random, model, coverage, row, &holds)?;
            try_lines(pair, random, model, coverage, row, &holds[1..])?;
        }
        try_lines(pair, random, model, coverage, row, &[])?;
    }
    Ok(())
}

/// An input for which exactly the lines in `holds` hold gives the first of them.
fn try_lines(
    pair: &mut Pair,
    random: &mut Random,
    model: Model,
    coverage: &mut Coverage,
    row: Row,
    holds: &[u32],
) -> Result<(), String> {
    let input = Input::new(random, row, Lines(holds));
    let mut world = World::fresh(model, 0, 0);
    world.domain = input.domain;
    world.guest = input.guest;
    pair.begin(world, random);
    pair.lend_bytes(&input.ledger, edge(random));
    unlisted_codes(random, pair);
    let stepped = pair.step(input.step, coverage)?;
    let number = given(stepped.next);
    match holds.first() {
        Some(first) if number != *first => Err(format!("{row:?}: {number} where {holds:?} hold")),
        None if matches!(number, 3..=18) => Err(format!("{row:?}: {number} where none holds")),
        _ => pair.finish(),
    }
}

/// Codes that are none of the list's where no call is under way, and any `given` but 0.
fn unlisted_codes(random: &mut Random, pair: &mut Pair) {
    let domain = pair.lent.domain.bytes_mut();
    if pair.world.domain.given {
        put_number(domain, GIVEN, random.pick(&[1, 2, 256, 1 << 31]));
    }
    if pair.world.domain.call.is_none() {
        let (owner, stage) =
            random.pick(&[(0, 0), (0, 3), (5, 1), (1 << 8, 0), (3, 8), (1, u32::MAX)]);
        put_number(domain, OWNER, owner);
        put_number(domain, STAGE, stage);
    }
    if pair.world.guest.call.is_none() {
        let stage = random.pick(&[0, 6, 256, u32::MAX]);
        put_number(pair.lent.guest.bytes_mut(), GUEST_STAGE, stage);
    }
    if pair.world.guest.clearing.is_none() {
        let stage = random.pick(&[0, 3, 256, u32::MAX]);
        put_number(pair.lent.guest.bytes_mut(), CLEAR_STAGE, stage);
    }
}
