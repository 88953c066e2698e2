//! Refusal storms: for each line of lay, cut and send an input for which it and the next hold and
//! none before, which gives the first; then one without the first, which gives the second. Then one
//! for which none holds, at times with the near end's record and ledger lent for both ends.

use super::asked::EndAt;
use super::cabled::Cabled;
use super::ends::hint;
use super::inputs::{Input, LentEnd, Lines};
use crate::differential::lent::edge;
use crate::model::cables::Refusal;
use crate::model::{Model, World};
use crate::random::Random;

/// A call whose refusals are tried.
#[derive(Clone, Copy, Debug)]
enum Call {
    Lay,
    Cut,
    Send,
}

/// Every call with its lines.
const CALLS: [(Call, &[Refusal]); 3] = [
    (Call::Lay, &Refusal::LAY),
    (Call::Cut, &Refusal::NEAR),
    (Call::Send, &Refusal::NEAR),
];

/// One storm: every line of every call.
pub fn history(cabled: &mut Cabled, random: &mut Random) -> Result<(), String> {
    for (call, lines) in CALLS {
        for at in 0..lines.len() {
            let mut holds = lines[at..].to_vec();
            holds.retain(|line| {
                *line == lines[at] || lines.get(at + 1) == Some(line) || random.once_in(2)
            });
            try_lines(cabled, random, call, &holds)?;
            try_lines(cabled, random, call, &holds[1..])?;
        }
        try_lines(cabled, random, call, &[])?;
    }
    Ok(())
}

/// An input for which the lines in `holds` hold gives the first of them.
fn try_lines(
    cabled: &mut Cabled,
    random: &mut Random,
    call: Call,
    holds: &[Refusal],
) -> Result<(), String> {
    let input = match call {
        Call::Lay => Input::lay(random, Lines(holds)),
        Call::Cut | Call::Send => Input::near(random, Lines(holds)),
    };
    cabled.begin(2, &input.table, edge(random));
    let near = lend(cabled, random, 0, &input.near);
    let mut far = lend(cabled, random, 1, &input.far);
    if holds.is_empty() && random.once_in(2) {
        (far.at, far.port) = (near.at, near.port);
    }
    let hint = hint(random, cabled, near);
    let refusal = match call {
        Call::Lay => cabled.lay(near, far)?.err(),
        Call::Cut => cabled.cut(near)?.err(),
        Call::Send => cabled.send(near, hint)?.err(),
    };
    match refusal == holds.first().copied() {
        true => Ok(()),
        false => Err(format!("{call:?}: {refusal:?} where {holds:?} hold")),
    }
}

/// Lends an end's record and ledger at a place.
fn lend(cabled: &mut Cabled, random: &mut Random, at: usize, end: &LentEnd) -> EndAt {
    let pair = &mut cabled.pairs[at];
    pair.lent.domain.set(end.record.len(), edge(random));
    pair.lent.domain.bytes_mut().copy_from_slice(&end.record);
    pair.begin_lent(World::fresh(Model::default(), 0, 0));
    cabled.lend_ledger(at, &end.ledger, edge(random));
    EndAt {
        at,
        domain: end.domain,
        port: end.port,
    }
}
