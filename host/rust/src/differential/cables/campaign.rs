//! Many histories of one kind from consecutive seeds.

use super::cabled::Cabled;
use super::{beyond, closes, full, honest, junk, refusals};
use crate::crash;
use crate::differential::campaign::Difference;
use crate::random::Random;

/// One history: makes its calls by both and gives a text at the first difference.
pub type History = fn(&mut Cabled, &mut Random) -> Result<(), String>;

/// A kind of histories.
#[derive(Clone, Copy)]
pub struct Campaign {
    /// Its name.
    pub name: &'static str,
    /// One history.
    pub history: History,
    /// Number of histories of a test run.
    pub histories: u64,
}

/// Every kind.
pub const CAMPAIGNS: [Campaign; 6] = [
    Campaign {
        name: "honest",
        history: honest::history,
        histories: 1_800,
    },
    Campaign {
        name: "full",
        history: full::history,
        histories: 1_000,
    },
    Campaign {
        name: "junk",
        history: junk::history,
        histories: 24_000,
    },
    Campaign {
        name: "refusals",
        history: refusals::history,
        histories: 1_500,
    },
    Campaign {
        name: "closes",
        history: closes::history,
        histories: 50_000,
    },
    Campaign {
        name: "beyond",
        history: beyond::history,
        histories: 12,
    },
];

impl Campaign {
    /// The history of one seed.
    pub fn run(&self, cabled: &mut Cabled, seed: u64) -> Result<(), Difference> {
        crash::set_seed(seed);
        let mut random = Random::new(seed);
        let outcome = (self.history)(cabled, &mut random);
        outcome.map_err(|text| Difference {
            campaign: self.name,
            seed,
            steps: cabled.length(),
            text,
            history: cabled.history(),
        })
    }
}
