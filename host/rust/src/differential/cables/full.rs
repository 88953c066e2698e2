//! Full tables: 1,024 cables between four domains, laid or lent so, then lays at free and taken
//! ends while cuts and closes make slots free again.

use super::asked::EndAt;
use super::cabled::Cabled;
use super::ends::{hint, number};
use crate::boundary::cables::{put_slot, TABLE_SIZE};
use crate::differential::lent::{edge, length_from};
use crate::model::cables::{Slot, DOMAINS, SLOTS};
use crate::model::{Domain, Entry, Model, Side, Step, World};
use crate::random::Random;

/// Calls of a history once the table is full.
const LENGTH: usize = 100;
/// Ports of a domain that have a cable.
const CABLED: u64 = SLOTS as u64 / 2;
/// Ports of a domain that are bound.
const BOUND: u64 = 700;
/// One history in so many lays its cables.
const LAID: u64 = 32;

/// One history from a seed.
pub fn history(cabled: &mut Cabled, random: &mut Random) -> Result<(), String> {
    let domains = domains(random);
    let lays = random.once_in(LAID);
    let table = match lays {
        true => vec![0; TABLE_SIZE],
        false => table(random, &domains),
    };
    cabled.begin(DOMAINS as usize, &table, edge(random));
    for domain in domains {
        let world = world(random);
        cabled.pairs[domain as usize].begin(world, random);
    }
    if lays {
        lay_all(cabled, &domains)?;
    }
    let begun = cabled.length();
    while cabled.length() < begun + LENGTH {
        next(cabled, random, &domains)?;
    }
    let mut pairs = domains.iter().map(|at| &cabled.pairs[*at as usize]);
    pairs.try_for_each(|pair| pair.finish())
}

/// Four domains; the first is joined to the second, the third to the fourth.
fn domains(random: &mut Random) -> [u64; 4] {
    let first = random.below(DOMAINS);
    let step = random.pick(&[1, 3, 7, 9]);
    std::array::from_fn(|at| (first + step * at as u64) % DOMAINS)
}

/// The ends of one of the cables.
fn cable(domains: &[u64; 4], which: u64) -> [(u64, u64); 2] {
    let (two, port) = ((which % 2) as usize, 1 + which / 2);
    [(domains[2 * two], port), (domains[2 * two + 1], port)]
}

/// A table with every cable in any order, but for one or two slots at times.
fn table(random: &mut Random, domains: &[u64; 4]) -> Vec<u8> {
    let mut bytes = vec![0; length_from(random, TABLE_SIZE)];
    let (factor, from) = (2 * random.below(512) + 1, random.below(SLOTS as u64));
    for which in 0..SLOTS as u64 {
        let mut ends = cable(domains, which).map(|(domain, port)| number(domain, port));
        if random.once_in(2) {
            ends.swap(0, 1);
        }
        let at = (which * factor + from) % SLOTS as u64;
        put_slot(&mut bytes, at as usize, Slot(ends));
    }
    for _ in 0..random.pick(&[0, 0, 1, 2]) {
        let at = random.below(SLOTS as u64) as usize;
        put_slot(&mut bytes, at, free(random));
    }
    bytes
}

/// A free slot: zeros, or numbers of which one is no end.
fn free(random: &mut Random) -> Slot {
    let other = number(0, 1 + random.below(BOUND));
    random.pick(&[Slot::FRESH, Slot([other, 0]), Slot([40 << 20, other])])
}

/// A given block and bound ports, all in the array or all outside.
fn world(random: &mut Random) -> World {
    let mut world = World::fresh(Model::default(), 1024, BOUND as usize + 1);
    let bound = Entry {
        bound: true,
        ..Entry::FRESH
    };
    world.ledger.fill(bound);
    world.domain = Domain {
        given: true,
        pages: random.pick(&[0, 0, 1]),
        ..Domain::FRESH
    };
    world
}

/// Every cable by a lay.
fn lay_all(cabled: &mut Cabled, domains: &[u64; 4]) -> Result<(), String> {
    for which in 0..SLOTS as u64 {
        let [near, far] = cable(domains, which).map(|(domain, port)| EndAt::own(domain, port));
        let laid = cabled.lay(near, far)?;
        if laid != Ok(which as usize) {
            return Err(format!("cable {which}: {laid:?}"));
        }
    }
    Ok(())
}

fn next(cabled: &mut Cabled, random: &mut Random, domains: &[u64; 4]) -> Result<(), String> {
    let end = end(random, domains);
    let at = random.pick(domains) as usize;
    match random.below(16) {
        0..=7 => {
            let (near, far) = (lay_end(random, domains), lay_end(random, domains));
            cabled.lay(near, far).map(drop)
        }
        8 | 9 => cabled.cut(end).map(drop),
        10 => {
            let step = Step::Close(end.port);
            cabled.step(end.at, end.domain, step).map(drop)
        }
        11 | 12 => {
            let step = Step::Access(Side::Hypervisor);
            cabled.step(at, at as u64, step).map(drop)
        }
        13 => cabled.plain(at, Step::Bind(end.port)).map(drop),
        _ => {
            let hint = hint(random, cabled, end);
            cabled.send(end, hint).map(drop)
        }
    }
}

/// Mostly a free end.
fn lay_end(random: &mut Random, domains: &[u64; 4]) -> EndAt {
    let free = CABLED + 1 + random.below(BOUND - CABLED);
    match random.once_in(4) {
        true => end(random, domains),
        false => EndAt::own(random.pick(domains), free),
    }
}

fn end(random: &mut Random, domains: &[u64; 4]) -> EndAt {
    EndAt::own(random.pick(domains), 1 + random.below(BOUND))
}
