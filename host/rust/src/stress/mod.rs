//! Thread stress: hypervisor threads and guest threads on several domains, with the library's calls
//! through the C boundary and real atomic accesses.
//!
//! - `shared`: the shared memory of a domain in atomics
//! - `hypervisor`, `guest`: each side's calls
//! - `account`: what PENDING's changes and hand-overs were
//! - `domain`: one domain's threads and what is checked at the end; `run`: all domains at once

pub mod account;
pub mod domain;
pub mod guest;
pub mod hypervisor;
pub mod run;
pub mod shared;

pub use run::{run, Outcome};
