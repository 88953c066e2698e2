//! The test of the tests: each fault of a rule and each cut of an argument, seeded in the model,
//! makes it differ from the library.

use super::campaign::{Campaign, Difference, CAMPAIGNS};
use super::coverage::Coverage;
use super::pair::Pair;
use crate::model::{Faults, Model};

/// Histories of each kind that are tried on a fault.
const TRIED: [u64; CAMPAIGNS.len()] = [60, 100, 100, 5_000, 100, 1_000, 60];

/// A fault with the first difference of each kind of history.
pub struct Tried {
    /// The fault in words.
    pub fault: &'static str,
    /// What each kind found.
    pub found: [Option<Difference>; CAMPAIGNS.len()],
}

impl Tried {
    /// Whether any kind found it.
    pub fn caught(&self) -> bool {
        self.found.iter().any(Option::is_some)
    }

    /// The fault, then seed and step of each kind's first difference.
    pub fn line(&self) -> String {
        let cells: Vec<String> = self.found.iter().map(cell).collect();
        format!("{:<36} | {}", self.fault, cells.join(" | "))
    }
}

/// Seed and step of a difference.
pub fn cell(found: &Option<Difference>) -> String {
    match found {
        Some(found) => format!("seed {} step {}", found.seed, found.steps),
        None => "-".to_string(),
    }
}

/// The head of the table.
pub fn head() -> String {
    let names: Vec<&str> = CAMPAIGNS.iter().map(|campaign| campaign.name).collect();
    format!("{:<36} | {}", "fault", names.join(" | "))
}

/// Tries one fault with every kind of history.
pub fn try_fault(pair: &mut Pair, fault: Faults, words: &'static str) -> Tried {
    let model = Model::new(fault);
    let mut kinds = CAMPAIGNS.iter().zip(TRIED);
    let found = std::array::from_fn(|_| {
        let (campaign, tried) = kinds.next()?;
        first_difference(pair, campaign, model, tried)
    });
    let fault = words;
    Tried { fault, found }
}

/// The first difference from the library; what the claims say of the model does not count.
fn first_difference(
    pair: &mut Pair,
    campaign: &Campaign,
    model: Model,
    tried: u64,
) -> Option<Difference> {
    let mut coverage = Coverage::default();
    (1..=tried).find_map(|seed| {
        let found = campaign.run(pair, model, seed, &mut coverage).err();
        found.filter(|difference| difference.text.contains(" differs"))
    })
}
