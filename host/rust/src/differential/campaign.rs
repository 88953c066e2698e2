//! Many histories of one kind from consecutive seeds.

use super::coverage::Coverage;
use super::pair::Pair;
use super::{arbitrary, honest, hostile, latency, refusals, rewritten, stages};
use crate::crash;
use crate::model::Model;
use crate::random::Random;
use std::fmt;

/// One history: makes its steps on the pair and gives a text at the first difference.
pub type History = fn(&mut Pair, &mut Random, Model, &mut Coverage) -> Result<(), String>;

/// A kind of histories.
#[derive(Clone, Copy)]
pub struct Campaign {
    /// Its name.
    pub name: &'static str,
    /// One history.
    pub history: History,
    /// Number of histories of a test run.
    pub histories: u64,
}

/// Every kind.
pub const CAMPAIGNS: [Campaign; 7] = [
    Campaign {
        name: "honest",
        history: honest::history,
        histories: 10_000,
    },
    Campaign {
        name: "hostile",
        history: hostile::history,
        histories: 20_000,
    },
    Campaign {
        name: "refusals",
        history: refusals::history,
        histories: 6_000,
    },
    Campaign {
        name: "arbitrary",
        history: arbitrary::history,
        histories: 350_000,
    },
    Campaign {
        name: "rewritten",
        history: rewritten::history,
        histories: 7_000,
    },
    Campaign {
        name: "stages",
        history: stages::history,
        histories: 200_000,
    },
    Campaign {
        name: "latency",
        history: latency::history,
        histories: 10_000,
    },
];

/// Where the model and the library differ, or a claim is broken.
#[derive(Clone, Debug)]
pub struct Difference {
    /// The kind of history.
    pub campaign: &'static str,
    /// The history's seed.
    pub seed: u64,
    /// The number of its steps, the last of which differs.
    pub steps: usize,
    /// What differs.
    pub text: String,
    /// The history up to it.
    pub history: String,
}

impl fmt::Display for Difference {
    fn fmt(&self, out: &mut fmt::Formatter<'_>) -> fmt::Result {
        let Difference {
            campaign,
            seed,
            steps,
            text,
            history,
        } = self;
        write!(
            out,
            "{campaign}, seed {seed}, step {steps}: {text}\n{history}"
        )
    }
}

impl Campaign {
    /// The history of one seed.
    pub fn run(
        &self,
        pair: &mut Pair,
        model: Model,
        seed: u64,
        coverage: &mut Coverage,
    ) -> Result<(), Difference> {
        crash::set_seed(seed);
        let mut random = Random::new(seed);
        let outcome = (self.history)(pair, &mut random, model, coverage);
        outcome.map_err(|text| Difference {
            campaign: self.name,
            seed,
            steps: pair.length(),
            text,
            history: pair.history(),
        })
    }
}
