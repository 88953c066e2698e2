//! Demand 3's four parts, where BUSY stands, the account of PENDING, and how long calls and how soon
//! services are, judged on memory, records and history.

pub mod account;
pub mod busy;
pub mod flows;
pub mod judge;
pub mod lengths;
pub mod parts;
pub mod progress;
pub mod queues;

pub use account::Account;
pub use busy::misplaced_busy;
pub use flows::Flows;
pub use judge::Judge;
pub use lengths::Lengths;
pub use parts::{all_parts, part1, part2, part3, part4, Broken};
pub use progress::{served_in_turn, Turns};
pub use queues::{Queues, WalkError};
