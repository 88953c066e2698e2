//! Junk: a table of any bytes and length, any records and ledgers, any numbers and hints.

use super::asked::EndAt;
use super::cabled::{has_cables, Cabled};
use super::ends::{bad_domain, bad_port, hint, number};
use crate::boundary::cables::{put_slot, TABLE_SIZE};
use crate::boundary::records::{put_number, OWNER, STAGE};
use crate::differential::arbitrary::{random_domain, random_ledger};
use crate::differential::lent::{edge, length_from};
use crate::model::arbitrary::{hostile_step, word};
use crate::model::cables::{Slot, SLOTS};
use crate::model::{Model, Side, Step, World};
use crate::random::Random;

/// Calls of a history.
const LENGTH: usize = 24;
/// Records that are lent.
const PLACES: usize = 4;
/// Domains and ports of most ends, few so that they meet.
const DOMAINS: [u64; 4] = [0, 1, 2, 39];
const PORTS: [u64; 5] = [1, 2, 5, 9, 1023];
/// Ports that few ledgers have.
const FAR_PORTS: [u64; 4] = [131_071, 131_072, (1 << 20) - 1, 1024];

/// One history from a seed.
pub fn history(cabled: &mut Cabled, random: &mut Random) -> Result<(), String> {
    let table = table(random);
    cabled.begin(PLACES, &table, edge(random));
    for at in 0..PLACES {
        lend_record(cabled, random, at);
        cabled.pairs[at].begin_lent(World::fresh(Model::default(), 0, 0));
        lend_ledger(cabled, random, at);
    }
    while cabled.length() < LENGTH {
        next(cabled, random)?;
        change(cabled, random);
    }
    let mut pairs = cabled.pairs[..PLACES].iter();
    pairs.try_for_each(|pair| pair.finish())
}

/// Any record; often no call is under way, or one of a close's codes.
fn lend_record(cabled: &mut Cabled, random: &mut Random, at: usize) {
    let domain = &mut cabled.pairs[at].lent.domain;
    random_domain(random, domain);
    if domain.bytes().len() < STAGE + 4 {
        return;
    }
    let close_stage = random.pick(&[0, 0, 0, 1, 3, 5, 7, 8]);
    match random.below(4) {
        0 => {
            put_number(domain.bytes_mut(), OWNER, 2);
            put_number(domain.bytes_mut(), STAGE, close_stage);
        }
        1 | 2 => put_number(domain.bytes_mut(), OWNER, 0),
        _ => {}
    }
}

fn lend_ledger(cabled: &mut Cabled, random: &mut Random, at: usize) {
    let bytes = random_ledger(random);
    cabled.lend_ledger(at, &bytes, edge(random));
}

/// Between two calls a ledger, a record or the table is another at times.
fn change(cabled: &mut Cabled, random: &mut Random) {
    let at = random.below(PLACES as u64) as usize;
    match random.below(16) {
        0 | 1 => lend_ledger(cabled, random, at),
        2 | 3 => {
            lend_record(cabled, random, at);
            cabled.pairs[at].read_lent();
        }
        4 => {
            let table = table(random);
            cabled.lend_table(&table, edge(random));
        }
        _ => {}
    }
}

fn next(cabled: &mut Cabled, random: &mut Random) -> Result<(), String> {
    let near = end(random);
    match random.below(16) {
        0..=3 => {
            let mut far = end(random);
            if random.once_in(3) {
                far.at = near.at;
            }
            cabled.lay(near, far).map(drop)
        }
        4 => cabled.cut(near).map(drop),
        5..=9 => {
            let hint = hint(random, cabled, near);
            cabled.send(near, hint).map(drop)
        }
        10..=11 => {
            let step = Step::Close(near.port);
            cabled.step(near.at, near.domain, step).map(drop)
        }
        12..=14 => {
            let step = Step::HandBack(Side::Hypervisor, word(random));
            cabled.step(near.at, near.domain, step).map(drop)
        }
        _ => {
            let step = hostile_step(random, &cabled.pairs[near.at].world);
            match has_cables(step) {
                true => cabled.step(near.at, near.domain, step).map(drop),
                false => cabled.plain(near.at, step).map(drop),
            }
        }
    }
}

/// An end with any record, at times with a number or port that is none.
fn end(random: &mut Random) -> EndAt {
    let (mut domain, mut port) = (random.pick(&DOMAINS), random.pick(&PORTS));
    match random.below(16) {
        0 => domain = bad_domain(random, domain),
        1 => port = bad_port(random, port),
        2 => port = random.pick(&FAR_PORTS),
        _ => {}
    }
    let at = random.below(PLACES as u64) as usize;
    EndAt { at, domain, port }
}

/// A table of any length, mostly enough. Beside its cables it is full of others, or has free slots
/// of every kind.
fn table(random: &mut Random) -> Vec<u8> {
    let length = match random.below(16) {
        0 => random.pick(&[0, 1, 8, 4096, TABLE_SIZE - 8, TABLE_SIZE - 1]),
        _ => length_from(random, TABLE_SIZE),
    };
    let mut bytes = random_bytes(random, length);
    let full = random.once_in(4);
    let cables = random.pick(&[0, 4, 64, SLOTS as u64]);
    for at in 0..length / 8 {
        let slot = match random.below(SLOTS as u64) {
            some if some < cables || at < 2 => cable(random),
            _ if full => Slot([number(5, 7), number(6, 8)]),
            some if some % 4 == 0 => continue,
            _ => half(random),
        };
        put_slot(&mut bytes, at, slot);
    }
    bytes
}

fn random_bytes(random: &mut Random, length: usize) -> Vec<u8> {
    let mut bytes = vec![0; length];
    for part in bytes.chunks_mut(8) {
        part.copy_from_slice(&random.bits().to_le_bytes()[..part.len()]);
    }
    bytes
}

/// A cable of two of the ends, which may be in one domain, or the same.
fn cable(random: &mut Random) -> Slot {
    Slot([table_end(random), table_end(random)])
}

fn table_end(random: &mut Random) -> u32 {
    let port = match random.once_in(6) {
        true => random.pick(&FAR_PORTS),
        false => random.pick(&PORTS),
    };
    number(random.pick(&DOMAINS), port)
}

/// A slot that holds no cable: at most one of its numbers is an end.
fn half(random: &mut Random) -> Slot {
    let none = random.pick(&[0, 1 << 20, 39 << 20, 40 << 20, (40 << 20) + 5, u32::MAX]);
    let end = table_end(random);
    let other = random.pick(&[0, end]);
    match random.once_in(2) {
        true => Slot([none, other]),
        false => Slot([other, none]),
    }
}
