//! Tests of the model: cases, readings, edges, BUSY, clear_mask, how long and how soon, random
//! histories, seeded faults, logs played back, cables.

#[macro_use]
mod support;

mod arbitrary_records;
mod busy;
mod cables_calls;
mod cables_refusals;
mod cables_table;
mod cases;
mod claims;
mod clear_mask;
mod edges;
mod exhaustive;
mod faults;
mod histories;
mod hostile;
mod latency;
mod log_lines;
mod readings_counts;
mod readings_guest;
mod readings_records;
mod readings_refusals;
mod readings_steps;
mod refusal_order;
mod replay;
mod replay_corpus;
