//! Cables between domains (document 02, T-01). A cable joins a bound port of one domain to a bound
//! port of another, a send on one end is a raise of the other, and a close cuts as its ledger
//! change falls.
//!
//! - `table`: ends and slots, with any contents; `refusal`: what lay, cut and send refuse
//! - `rules`: lay, cut, send, and the close that falls; `seeded`: what a fault changes of them
//! - `system`: up to forty domains and their table

pub mod refusal;
pub mod rules;
mod seeded;
pub mod system;
pub mod table;

pub use refusal::{Part, Refusal, Which};
pub use rules::{Found, Lent, Named};
pub use seeded::CableFault;
pub use system::System;
pub use table::{End, Slot, Table, DOMAINS, SLOTS};

use super::Model;

/// The rules of cables, with at most one fault seeded, over the rules of document 01.
#[derive(Clone, Copy, Debug, Default, PartialEq, Eq)]
pub struct Cables {
    model: Model,
    fault: CableFault,
}

impl Cables {
    /// The rules with `fault` seeded; `CableFault::None` gives the rules as written.
    pub fn new(fault: CableFault) -> Self {
        let model = Model::default();
        Cables { model, fault }
    }
}
