//! Differential tests: the model and the library make the same steps, and everything that either
//! gives or holds is compared after each.
//!
//! - `pair`, `lent`, `compare`: one world of the model beside the library's bytes
//! - `rows`, `branches`, `coverage`: what a run met; `linking`, `clearing`: the branches of BUSY
//!   and of clear_mask
//! - `honest`, `hostile`, `refusals`, `arbitrary`, `rewritten`, `stages`, `latency`: one history
//!   each, from a seed; `inputs`: what `refusals` tries
//! - `campaign`: many histories; `faults`: the test of the tests
//! - `large`: slices of more than 2^32 bytes
//! - `cables`: several domains and their cables, with histories and faults of their own

/// Things that a run must meet, each with its name.
macro_rules! points {
    ($($name:ident = $text:literal),* $(,)?) => {
        /// One of them.
        #[derive(Clone, Copy, Debug, PartialEq, Eq)]
        #[allow(missing_docs)]
        pub enum Point { $($name),* }

        /// Every one with its name.
        pub const POINTS: &[(Point, &str)] = &[$((Point::$name, $text)),*];
    };
}

pub mod arbitrary;
pub mod branches;
pub mod cables;
pub mod campaign;
mod clearing;
mod compare;
pub mod coverage;
pub mod faults;
pub mod honest;
pub mod hostile;
pub mod inputs;
pub mod large;
pub mod latency;
pub mod lent;
mod linking;
pub mod pair;
pub mod refusals;
pub mod rewritten;
pub mod rows;
pub mod stages;
