//! Closes and replies on records made for them: at once, begun, refused and of other calls, with a
//! cable at their port and without.

use super::cabled::Cabled;
use super::ends::number;
use crate::boundary::cables::{put_slot, TABLE_SIZE};
use crate::boundary::records::{put_number, OWNER, STAGE};
use crate::differential::inputs::{ledger, small_port};
use crate::differential::lent::{edge, length_from};
use crate::model::arbitrary::{self, flat_call, word};
use crate::model::cables::{Slot, DOMAINS, SLOTS};
use crate::model::{
    Call, Domain, FlatCall, Model, Owner, Port, Side, Stage, StageTag, Step, World,
};
use crate::random::Random;

/// LINKED, at which a call that goes on from R2 ends.
const LINKED: u32 = 1 << 29;
/// Ports that are refused with 3 but have an end.
const BAD_PORTS: [u64; 3] = [131_072, 200_000, (1 << 20) - 1];

/// One close and one reply.
pub fn history(cabled: &mut Cabled, random: &mut Random) -> Result<(), String> {
    close(cabled, random)?;
    reply(cabled, random)
}

fn close(cabled: &mut Cabled, random: &mut Random) -> Result<(), String> {
    let mut port = small_port(random);
    let mut domain = arbitrary::domain(random);
    domain.given = !random.once_in(8);
    domain.call = domain.call.filter(|_| random.once_in(8));
    domain.pages = random.pick(&[0, 0, 1, 129]);
    let (missing, bound) = (random.once_in(8), !random.once_in(8));
    let ledger = ledger(random, port, missing, bound);
    if random.once_in(8) {
        port = random.pick(&BAD_PORTS);
    }
    let number = begin(cabled, random, domain, &ledger, port);
    cabled.step(0, number, Step::Close(port))?;
    cabled.pairs[0].finish()
}

fn reply(cabled: &mut Cabled, random: &mut Random) -> Result<(), String> {
    let port = small_port(random);
    let mut domain = arbitrary::domain(random);
    domain.call = call(random, port as u32);
    let missing = random.once_in(4);
    let [less, whole] = [missing, false].map(|missing| ledger(random, port, missing, true));
    let number = begin(cabled, random, domain, &less, port);
    unlisted(cabled, random);
    let seen = word(random) | random.pick(&[0, LINKED]);
    let step = Step::HandBack(Side::Hypervisor, seen);
    cabled.step(0, number, step)?;
    if missing {
        cabled.lend_ledger(0, &whole, edge(random));
        cabled.step(0, number, step)?;
    }
    cabled.pairs[0].finish()
}

/// Mostly a close; else a close at another stage, another call, or none.
fn call(random: &mut Random, port: u32) -> Option<Call> {
    let later = [StageTag::R2, StageTag::R2, StageTag::R4, StageTag::R6];
    let flat = FlatCall {
        owner: Some(Owner::Close),
        stage: StageTag::CloseAnd,
        port,
        ..flat_call(random)
    };
    match random.below(8) {
        0 => FlatCall {
            stage: random.pick(&later),
            ..flat
        }
        .call(),
        1 => Some(Call {
            owner: random.pick(&[Owner::Raise, Owner::Unmask]),
            port: Port(port),
            stage: Stage::R2,
            count: 1,
        }),
        2 => Some(Call {
            owner: Owner::Bind,
            port: Port(port),
            stage: Stage::BindRead,
            count: 1,
        }),
        3 => None,
        _ => flat.call(),
    }
}

/// Codes that are none of the list's where no call is under way.
fn unlisted(cabled: &mut Cabled, random: &mut Random) {
    let pair = &mut cabled.pairs[0];
    let bytes = pair.lent.domain.bytes_mut();
    if pair.world.domain.call.is_none() && bytes.len() >= STAGE + 4 {
        let (owner, stage) = random.pick(&[(0, 0), (2, 8), (2, 1 << 8), (258, 0), (5, 0)]);
        put_number(bytes, OWNER, owner);
        put_number(bytes, STAGE, stage);
    }
}

/// Lends a record, a ledger and a table, mostly with a cable at the port; gives the domain's
/// number, or one that leaves it in 32 bits beside a port.
fn begin(
    cabled: &mut Cabled,
    random: &mut Random,
    domain: Domain,
    ledger: &[u8],
    port: u64,
) -> u64 {
    let number = random.below(DOMAINS);
    let table = table(random, number, port);
    cabled.begin(1, &table, edge(random));
    let mut world = World::fresh(Model::default(), 0, 0);
    world.domain = domain;
    cabled.pairs[0].begin(world, random);
    cabled.lend_ledger(0, ledger, edge(random));
    if random.once_in(16) {
        let domain = &mut cabled.pairs[0].lent.domain;
        domain.set(random.below(100) as usize, edge(random));
    }
    match random.once_in(4) {
        true => number + (random.pick(&[1, 3, 1 << 20, 1 << 32, (1 << 51) - 1]) << 12),
        false => number,
    }
}

/// A table of few cables; the port's is in one slot or in two, and its end in one that holds none.
fn table(random: &mut Random, domain: u64, port: u64) -> Vec<u8> {
    let mut bytes = vec![0; length_from(random, TABLE_SIZE)];
    let (end, other) = (number(domain, port), number((domain + 1) % DOMAINS, port));
    let cables = random.pick(&[0, 1, 1, 2]);
    for at in 0..=cables {
        let slot = match at == cables {
            true => Slot([end, 0]),
            false => random.pick(&[Slot([end, other]), Slot([other, end])]),
        };
        put_slot(&mut bytes, random.below(SLOTS as u64) as usize, slot);
    }
    if random.once_in(16) {
        bytes.truncate(random.pick(&[0, 8, TABLE_SIZE - 1]));
    }
    bytes
}
