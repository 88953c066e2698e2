//! Ends as calls name them: what is lent with them to the model and to the library, and what the
//! library must give where the model gives so.

use crate::boundary::cables::{End, Far, Laid};
use crate::boundary::records::DOMAIN_SIZE;
use crate::differential::pair::Pair;
use crate::model::cables::{Found, Lent, Named, Refusal};

/// An end by any numbers, and which record and ledger are lent with it.
#[derive(Clone, Copy, Debug)]
pub struct EndAt {
    /// The place of record and ledger.
    pub at: usize,
    /// Number of the domain.
    pub domain: u64,
    /// The port.
    pub port: u64,
}

impl EndAt {
    /// An end with the record and ledger of its own domain.
    pub fn own(domain: u64, port: u64) -> Self {
        let at = domain as usize;
        EndAt { at, domain, port }
    }

    /// What the model is lent.
    pub fn named(self, pairs: &[Pair]) -> Named<'_> {
        let Pair { world, lent, .. } = &pairs[self.at];
        let whole = lent.domain.bytes().len() >= DOMAIN_SIZE;
        let lent = Lent {
            record: &world.domain,
            ledger: &world.ledger,
        };
        Named {
            domain: self.domain,
            port: self.port,
            lent: whole.then_some(lent),
        }
    }

    /// What the library is lent.
    pub fn lent(self, pairs: &[Pair]) -> End<'_> {
        let lent = &pairs[self.at].lent;
        End {
            record: lent.domain.bytes(),
            ledger: lent.ledger.bytes(),
            domain: self.domain,
            port: self.port,
        }
    }
}

/// A lay's outcome as the library gives it.
pub fn laid(outcome: &Result<usize, Refusal>) -> Laid {
    match outcome {
        Ok(slot) => Laid {
            code: 0,
            slot: *slot as u32,
        },
        Err(refusal) => Laid {
            code: refusal.number(),
            slot: 0,
        },
    }
}

/// A send's outcome as the library gives it.
pub fn far(outcome: &Result<Found, Refusal>) -> Far {
    match outcome {
        Ok(Found { far, slot }) => Far {
            code: 0,
            domain: far.domain(),
            port: far.port(),
            slot: *slot as u32,
        },
        Err(refusal) => Far {
            code: refusal.number(),
            domain: 0,
            port: 0,
            slot: 0,
        },
    }
}
