//! The access log with its call lines: a line as a value, its writer, its reader.
//!
//! A log is the header and then lines of six fields parted by tabs, a newline after each.

mod line;
mod read;
mod write;

pub use line::{Line, LoggedCall};
pub use read::read;
pub use write::{log, place};
