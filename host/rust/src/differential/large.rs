//! Slices of more than 2^32 bytes, whose length has a low half that is too short: a call gives and
//! leaves the same as on slices of the right size.

use super::inputs::{Input, Lines};
use super::lent::{handed_back, Lent};
use super::rows::ROWS;
use crate::boundary::calls;
use crate::boundary::records::{put_domain, put_guest, DOMAIN_SIZE, GUEST_SIZE};
use crate::guarded::{Edge, Guarded};
use crate::model::Step;
use crate::random::Random;

/// Inputs of each row.
const INPUTS: usize = 200;
/// Bytes of every slice at least.
const LARGE: usize = 1 << 32;

/// Every row's calls that no line refuses, and the fresh records.
pub fn check(seed: u64) -> Result<String, String> {
    let mut random = Random::new(seed);
    let mut usual = Lent::default();
    let mut large = Lent::more_by(LARGE);
    for _ in 0..INPUTS {
        for (row, name, _) in ROWS {
            let input = Input::new(&mut random, row, Lines(&[]));
            lend(&mut usual, &input, |needed| needed);
            lend(&mut large, &input, |needed| {
                LARGE + random.below(needed as u64) as usize
            });
            same(&mut usual, &mut large, input.step).map_err(|text| format!("{name}: {text}"))?;
        }
        fresh(&mut large)?;
    }
    Ok(format!("{INPUTS} inputs of each call"))
}

/// Lends an input's records and ledger, each with the length that the number of its bytes gives.
fn lend(lent: &mut Lent, input: &Input, mut length: impl FnMut(usize) -> usize) {
    lent.domain.set(length(DOMAIN_SIZE), Edge::First);
    put_domain(lent.domain.bytes_mut(), &input.domain);
    lent.guest.set(length(GUEST_SIZE), Edge::First);
    put_guest(lent.guest.bytes_mut(), &input.guest);
    let entries = input.ledger.len();
    lent.ledger.set(length(entries.max(1)), Edge::First);
    lent.ledger.bytes_mut()[..entries].copy_from_slice(&input.ledger);
}

fn same(usual: &mut Lent, large: &mut Lent, step: Step) -> Result<(), String> {
    let seen = handed_back(step);
    let gives = large.step(step, seen, 0) == usual.step(step, seen, 0);
    let due = calls::due(large.domain.bytes()) == calls::due(usual.domain.bytes());
    let served = calls::service_due(large.guest.bytes()) == calls::service_due(usual.guest.bytes());
    let records = starts_with(&large.domain, &usual.domain)
        && starts_with(&large.guest, &usual.guest)
        && starts_with(&large.ledger, &usual.ledger);
    match gives && due && served && records {
        true => Ok(()),
        false => Err(format!(
            "{step:?}: gives the same {gives}, names the same access due {due} and {served}, \
             leaves the same {records}"
        )),
    }
}

fn starts_with(large: &Guarded, usual: &Guarded) -> bool {
    large.bytes().starts_with(usual.bytes())
}

fn fresh(large: &mut Lent) -> Result<(), String> {
    let codes = [
        calls::fresh_domain(large.domain.bytes_mut()),
        calls::fresh_guest(large.guest.bytes_mut()),
    ];
    let zeros = large.domain.bytes().starts_with(&[0; DOMAIN_SIZE])
        && large.guest.bytes().starts_with(&[0; GUEST_SIZE]);
    match codes == [0; 2] && zeros {
        true => Ok(()),
        false => Err(format!("fresh records: {codes:?}, zeros {zeros}")),
    }
}
