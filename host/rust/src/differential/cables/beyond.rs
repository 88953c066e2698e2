//! Closes under way of ports from 2^20 on, which only a record of any bytes has: the ledger lent
//! has their entries, and a cable stands where the port's number would lead.

use super::cabled::Cabled;
use super::ends::number;
use crate::boundary::cables::{put_slot, TABLE_SIZE};
use crate::boundary::records::put_domain;
use crate::differential::lent::edge;
use crate::model::arbitrary::word;
use crate::model::cables::{Slot, DOMAINS};
use crate::model::{Call, Domain, Model, Owner, Port, Side, Stage, Step, World};
use crate::random::Random;

/// Replies of a history.
const REPLIES: usize = 160;
/// Ports with an entry from 2^20 on.
const PORTS: u64 = 8;

/// One history from a seed.
pub fn history(cabled: &mut Cabled, random: &mut Random) -> Result<(), String> {
    let domain = random.below(DOMAINS - 1);
    cabled.begin(1, &table(domain), edge(random));
    cabled.pairs[0].begin(World::fresh(Model::default(), 0, 0), random);
    let ledger = vec![0x11; 2 * ((1 << 20) + PORTS as usize)];
    cabled.lend_ledger(0, &ledger, edge(random));
    for _ in 0..REPLIES {
        let port = (1 << 20) + random.below(PORTS + 1) as u32;
        put_domain(cabled.pairs[0].lent.domain.bytes_mut(), &closing(port));
        cabled.pairs[0].read_lent();
        let step = Step::HandBack(Side::Hypervisor, word(random));
        cabled.step(0, domain, step)?;
    }
    cabled.pairs[0].finish()
}

/// Cables at each port of the domain and of the next.
fn table(domain: u64) -> Vec<u8> {
    let mut bytes = vec![0; TABLE_SIZE];
    for port in 0..=PORTS {
        let slot = Slot([number(domain, port), number(domain + 1, port)]);
        put_slot(&mut bytes, port as usize, slot);
    }
    bytes
}

fn closing(port: u32) -> Domain {
    let call = Call {
        owner: Owner::Close,
        port: Port(port),
        stage: Stage::CloseAnd,
        count: 1,
    };
    Domain {
        given: true,
        call: Some(call),
        ..Domain::FRESH
    }
}
