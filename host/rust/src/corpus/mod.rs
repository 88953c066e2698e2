//! Logs to be played back: good ones that the model records, and damaged ones.
//!
//! - `log`: a log's text and where its lines end; `lines`: any line of the form
//! - `recorder`: a world whose steps are written down; `good`: random histories recorded;
//!   `meeting`: both sides on the same words; `sample`: one log with a line of every kind; `busy`:
//!   a long one
//! - `damage`: what can be wrong with a log; `cases`: a good log with every damage
//! - `kinds`, `moments`, `reasons`: what logs have, and why reports are what they are; `coverage`:
//!   how often each is met

pub mod busy;
pub mod cases;
pub mod coverage;
pub mod damage;
pub mod good;
pub mod kinds;
pub mod lines;
pub mod log;
pub mod meeting;
pub mod moments;
pub mod reasons;
pub mod recorder;
pub mod sample;

pub use cases::Case;
pub use log::Log;
pub use recorder::{Recorder, Shape};
