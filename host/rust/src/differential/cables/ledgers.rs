//! Ledgers of which less is lent at times.

use super::cabled::Cabled;
use crate::boundary::ledger;
use crate::differential::lent::edge;
use crate::model::cables::{End, DOMAINS};
use crate::random::Random;

/// Bytes that are lent of a ledger.
const LESS: [usize; 9] = [0, 1, 2, 3, 4, 9, 1000, 2048, 2060];

/// The whole ledger of each domain to which less is lent.
pub struct Ledgers {
    whole: Vec<Option<Vec<u8>>>,
}

impl Default for Ledgers {
    fn default() -> Self {
        let whole = vec![None; DOMAINS as usize];
        Ledgers { whole }
    }
}

impl Ledgers {
    /// A domain to which less is lent.
    pub fn short(&self) -> Option<usize> {
        self.whole.iter().position(Option::is_some)
    }

    /// Lends less of a domain's ledger, or the whole of it again with what changed meanwhile.
    pub fn lend(&mut self, cabled: &mut Cabled, random: &mut Random, at: usize) {
        let lent = cabled.pairs[at].lent.ledger.bytes().to_vec();
        let bytes = match self.whole[at].take() {
            Some(whole) => [&lent, &whole[lent.len()..]].concat(),
            None => {
                let less = random.pick(&LESS).min(lent.len());
                let less = lent[..less].to_vec();
                self.whole[at] = Some(lent);
                less
            }
        };
        cabled.lend_ledger(at, &bytes, edge(random));
    }

    /// Whether an end is a bound port, by the whole ledger.
    pub fn is_bound(&self, cabled: &Cabled, end: End) -> bool {
        let (at, port) = (end.domain() as usize, end.port() as usize);
        let lent = cabled.pairs[at].world.ledger.get(port).copied();
        let whole = || ledger::entry_at(self.whole[at].as_deref()?, port);
        lent.or_else(whole).is_some_and(|entry| entry.bound)
    }
}
