//! The independent model: documents 01 and 02 in plain Rust, with its own data structures.
//!
//! - words and records: `kinds`, `word`, `entry`, `access`, `answer`, `domain`, `guest`, `flat`
//! - rules: `starts`, `replies` and `linking` (hypervisor), `service` and `clear_mask` (guest),
//!   `decisions`, `seeded`
//! - `machine`: both sides' steps over lent memory; `log`: lines of the access log, both ways;
//!   `replay`: a log played back; `cables`: forty domains and the cables between them
//! - `claims`: demand 3's four parts, where BUSY stands, the account of PENDING, how long calls and
//!   how soon services are
//! - `histories`, `arbitrary`: random rule-keeping steps, random records

pub mod access;
pub mod answer;
pub mod arbitrary;
pub mod cables;
pub mod claims;
mod clear_mask;
pub mod decisions;
pub mod domain;
pub mod entry;
pub mod flat;
pub mod guest;
pub mod histories;
pub mod kinds;
mod linking;
pub mod log;
pub mod machine;
pub mod replay;
mod replies;
mod seeded;
mod service;
mod starts;
pub mod word;

pub use access::{Access, Op, Place};
pub use answer::{Answer, Masking, Next};
pub use domain::{Call, Domain, Owner, Stage};
pub use entry::Entry;
pub use flat::{ClearTag, FlatCall, FlatClear, FlatService, ServiceTag, StageTag};
pub use guest::{ClearMask, ClearStage, Guest, Service, ServiceStage};
pub use kinds::{Port, Priority, Queue};
pub use machine::{Event, Memory, Side, Step, World};
pub use seeded::Faults;
pub use word::EventWord;

/// The rules of both documents for one domain, with at most one fault seeded.
#[derive(Clone, Copy, Debug, Default, PartialEq, Eq)]
pub struct Model {
    fault: Faults,
}

impl Model {
    /// The rules with `fault` seeded; `Faults::None` gives the rules as written.
    pub fn new(fault: Faults) -> Self {
        Model { fault }
    }
}
