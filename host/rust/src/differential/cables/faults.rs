//! The test of the tests: each fault seeded in the model's rules of cables makes it differ from the
//! library.

use super::cabled::Cabled;
use super::campaign::{Campaign, CAMPAIGNS};
use crate::differential::campaign::Difference;
use crate::model::cables::{CableFault, Cables};

/// Histories of each kind that are tried on a fault.
const TRIED: [u64; CAMPAIGNS.len()] = [20, 20, 200, 5, 1_000, 1];

/// The first difference of each kind of history.
pub type Found = [Option<Difference>; CAMPAIGNS.len()];

/// Tries one fault with every kind of history.
pub fn try_fault(cabled: &mut Cabled, fault: CableFault) -> Found {
    cabled.rules = Cables::new(fault);
    let mut kinds = CAMPAIGNS.iter().zip(TRIED);
    std::array::from_fn(|_| {
        let (campaign, tried) = kinds.next()?;
        first_difference(cabled, campaign, tried)
    })
}

/// The first difference from the library; what the claims say of the model does not count.
fn first_difference(cabled: &mut Cabled, campaign: &Campaign, tried: u64) -> Option<Difference> {
    (1..=tried).find_map(|seed| {
        let found = campaign.run(cabled, seed).err();
        found.filter(|difference| difference.text.contains(" differs"))
    })
}
