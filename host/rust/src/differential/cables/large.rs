//! A table, records and ledgers of more than 2^32 bytes, whose length has a low half that is too
//! short: a call gives and leaves the same as on slices of the right size.

use super::inputs::{Input, LentEnd, Lines};
use crate::boundary::cables::{self, End, TABLE_SIZE};
use crate::boundary::records::{put_number, DOMAIN_SIZE, OWNER};
use crate::boundary::Encoded;
use crate::guarded::{Edge, Guarded};
use crate::random::Random;

/// Inputs of each call.
const INPUTS: usize = 200;
/// Bytes of every slice at least.
const LARGE: usize = 1 << 32;

/// What is lent to a call: the far end lends the same record and ledger as the near one.
struct Lent {
    table: Guarded,
    record: Guarded,
    ledger: Guarded,
}

/// What the five calls gave.
type Given = (cables::Laid, u32, cables::Far, [Encoded; 2]);

/// Every call that no line refuses.
pub fn check(seed: u64) -> Result<String, String> {
    let mut random = Random::new(seed);
    let (mut usual, mut large) = (Lent::more_by(0), Lent::more_by(LARGE));
    for at in 0..INPUTS {
        let input = Input::lay(&mut random, Lines(&[]));
        usual.lend(&input, |needed| needed);
        large.lend(&input, |needed| {
            LARGE + random.below(needed as u64) as usize
        });
        let (near, far) = (&input.near, &input.far);
        let given = (large.calls(near, far.domain), usual.calls(near, far.domain));
        if given.0 != given.1 || !large.starts_with(&usual) {
            return Err(format!(
                "input {at}: large {:?}, usual {:?}",
                given.0, given.1
            ));
        }
    }
    Ok(format!("{INPUTS} inputs of each call"))
}

impl Lent {
    fn more_by(bytes: usize) -> Self {
        Lent {
            table: Guarded::new(TABLE_SIZE + bytes),
            record: Guarded::new(DOMAIN_SIZE + bytes),
            ledger: Guarded::new((1 << 19) + bytes),
        }
    }

    /// Lends an input, each part with the length that the number of its bytes gives. No call is
    /// under way.
    fn lend(&mut self, input: &Input, mut length: impl FnMut(usize) -> usize) {
        let parts = [
            (&mut self.table, &input.table[..TABLE_SIZE]),
            (&mut self.record, &input.near.record[..DOMAIN_SIZE]),
            (&mut self.ledger, &input.near.ledger[..]),
        ];
        for (bytes, given) in parts {
            bytes.set(length(given.len()), Edge::First);
            bytes.bytes_mut()[..given.len()].copy_from_slice(given);
        }
        put_number(self.record.bytes_mut(), OWNER, 0);
    }

    /// A lay, a send along its cable, a cut and a lay again, a close and a reply.
    fn calls(&mut self, near: &LentEnd, far: u64) -> Given {
        let LentEnd { domain, port, .. } = *near;
        let Lent {
            table,
            record,
            ledger,
        } = self;
        let end = |domain| End {
            record: record.bytes(),
            ledger: ledger.bytes(),
            domain,
            port,
        };
        let table = table.bytes_mut();
        let laid = cables::lay(table, end(domain), end(far));
        let sent = cables::send(table, end(domain), laid.slot);
        let cut = cables::cut(table, end(far));
        cables::lay(table, end(domain), end(far));
        let (record, ledger) = (record.bytes_mut(), ledger.bytes_mut());
        let closed = cables::close(table, record, ledger, domain, port);
        let replied = cables::reply(table, record, ledger, domain, 0);
        (laid, cut, sent, [closed, replied])
    }

    fn starts_with(&self, usual: &Lent) -> bool {
        let parts = [
            (&self.table, &usual.table),
            (&self.record, &usual.record),
            (&self.ledger, &usual.ledger),
        ];
        let mut parts = parts.iter();
        parts.all(|(large, usual)| large.bytes().starts_with(usual.bytes()))
    }
}
