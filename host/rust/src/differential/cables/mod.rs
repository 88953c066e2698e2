//! Differential tests of cables: several domains and one table, and everything that the model and
//! the library give and hold compared after each call.
//!
//! - `cabled`, `asked`: the model's domains and table beside the library's bytes; `met`, `notes`:
//!   what a run met
//! - `honest`, `full`, `junk`, `refusals`, `closes`, `beyond`: one history each, from a seed;
//!   `inputs`: what `refusals` tries; `ends`: numbers and hints; `ledgers`, `claims`: ledgers that
//!   `honest` lends short, and what it keeps
//! - `campaign`: many histories; `faults`: the test of the tests
//! - `large`: slices of more than 2^32 bytes

mod asked;
pub mod beyond;
pub mod cabled;
pub mod campaign;
mod claims;
pub mod closes;
mod ends;
pub mod faults;
pub mod full;
pub mod honest;
mod inputs;
pub mod junk;
pub mod large;
mod ledgers;
pub mod met;
mod notes;
pub mod refusals;

pub use cabled::Cabled;
pub use met::Met;
