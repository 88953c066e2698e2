//! The C boundary as a Rust host has it: safe calls over byte slices, what they give, an
//! independent decoder of records, ledgers and tables of cables, and the replay of a log.

pub mod cables;
pub mod calls;
pub mod encoded;
pub mod ledger;
mod raw;
pub mod records;
pub mod replay;

pub use encoded::Encoded;
