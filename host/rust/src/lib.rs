//! Host side of the library in Rust: an independent model of the FIFO event channel ABI, written
//! from documents 01 and 02; the C boundary as Rust calls it; and the tests that compare the two.
//!
//! - `model`: document 01 in plain Rust, and document 02's replay of a log and cables between
//!   domains; `cases`: the scripts of crate `cases` run by it
//! - `corpus`: good and damaged logs
//! - `boundary`: the archive's functions over byte slices, with a decoder of its own
//! - `differential`: the same steps by both, everything compared after each; `guarded`: buffers
//!   against guard pages; `crash`: the seed is printed when one of them is met
//! - `stress`: threads on several domains with real atomic accesses
//! - `report`: what passed and what failed; `random`: the generator of everything random;
//!   `settings`: what the environment asks for
//!
//! `./run-tests` runs everything but `replay_corpus` and ends with a line `N passed, M failed`;
//! `MINUTES=n ./run-tests` runs the differential tests for n minutes from fresh seeds, `SEED=n`
//! from a given one. Program `replay_corpus`, which `tools/test-replay` runs, compares the archive's
//! replay functions and the proved program `evtchn_replay` with the model's replay on the corpus.
//! Program `model_bench` measures the model, and both replays, for `make bench`.
//!
//! Only these two programs use the replay functions: `differential` links with an archive that has
//! none. It does use those of cables.
//!
//! `EVTCHN_FIFO_ARCHIVE` names another archive to link than the repository's, `EVTCHN_FIFO_CASES`
//! another stored output of crate `cases`, `EVTCHN_REPLAY` another program `evtchn_replay`.

#![warn(rust_2018_idioms)]

pub mod boundary;
pub mod cases;
pub mod corpus;
pub mod crash;
pub mod differential;
pub mod guarded;
pub mod model;
pub mod random;
pub mod report;
pub mod settings;
pub mod stress;
