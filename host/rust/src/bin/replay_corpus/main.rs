//! Compares the library's replay with the model's on good and damaged logs, and ends with a line
//! `N passed, M failed`.
//!
//! - `linked`: a million logs by the functions that a C host links
//! - `printed`: some thousand logs by the proved program `evtchn_replay`, by what it prints
//! - `edges`: logs at edges, for both
//! - `cases`: the stored logs of crate `cases` with call lines, by both
//!
//! `EVTCHN_REPLAY` names another program than the repository's, `EVTCHN_FIFO_CASES` another stored
//! output of crate `cases`. The program lends 128 pages and an entry for every port; the model
//! plays over the same. `SEED=n` starts the logs of `linked` from another seed; `MINUTES=n` plays
//! them alone for n minutes from a seed that the clock gives.

mod cases;
mod edges;
mod linked;
mod printed;

use evtchn_fifo_host::cases::stored;
use evtchn_fifo_host::corpus::Shape;
use evtchn_fifo_host::crash;
use evtchn_fifo_host::report::Report;
use evtchn_fifo_host::settings::Settings;
use printed::Program;
use std::process::ExitCode;

/// What the program lends.
const LENT: Shape = Shape {
    words: 131_072,
    entries: 131_072,
};

fn main() -> ExitCode {
    match run() {
        Ok(report) => report.finish(),
        Err(text) => {
            eprintln!("replay_corpus: {text}");
            ExitCode::FAILURE
        }
    }
}

fn run() -> Result<Report, String> {
    let settings = Settings::from_environment()?;
    crash::install();
    let mut report = Report::default();
    match settings.minutes {
        Some(minutes) => linked::run_for(settings.seed, minutes, &mut report),
        None => {
            let program = Program::from_environment()?;
            let stored = stored()?;
            linked::run(settings.seed, &mut report);
            printed::run(&program, &mut report);
            cases::run(&program, &stored, settings.seed, &mut report);
        }
    }
    Ok(report)
}
