//! Runs every differential test of the library against the model, and ends with a line
//! `N passed, M failed`.
//!
//! `SEED=n` starts the histories from another seed; `MINUTES=n` runs them for n minutes from a seed
//! that the clock gives.

mod cables;
mod cases;
mod guards;
mod histories;
mod rows;
mod threads;

use evtchn_fifo_host::boundary::{calls, records};
use evtchn_fifo_host::crash;
use evtchn_fifo_host::differential::large;
use evtchn_fifo_host::report::Report;
use evtchn_fifo_host::settings::Settings;
use std::process::ExitCode;
use std::time::Duration;

fn main() -> ExitCode {
    if guards::is_child() {
        return guards::child();
    }
    let settings = match Settings::from_environment() {
        Ok(settings) => settings,
        Err(text) => {
            eprintln!("differential: {text}");
            return ExitCode::FAILURE;
        }
    };
    crash::install();
    let mut report = Report::default();
    report.check("layout", layout);
    report.check("slices above 2^32 bytes", || large::check(settings.seed));
    match settings.minutes {
        Some(minutes) => fuzz(&settings, minutes, &mut report),
        None => test(&settings, &mut report),
    }
    report.finish()
}

/// The decoder's layout is the archive's.
fn layout() -> Result<String, String> {
    match calls::layout() {
        records::LAYOUT => Ok(format!("number {}", records::LAYOUT)),
        other => Err(format!(
            "the archive's is {other}, the decoder's {}",
            records::LAYOUT
        )),
    }
}

fn test(settings: &Settings, report: &mut Report) {
    guards::run(report);
    histories::run(settings.seed, report);
    histories::try_faults(report);
    cables::run(settings.seed, report);
    cables::try_faults(report);
    threads::run(settings.seed, report);
    cases::run(report);
}

/// Half of the time for the histories of one domain, half for those with cables.
fn fuzz(settings: &Settings, minutes: u64, report: &mut Report) {
    println!("seed {}, {minutes} minutes", settings.seed);
    let half = Duration::from_secs(30 * minutes);
    histories::run_for(settings.seed, half, report);
    cables::run_for(settings.seed, half, report);
    threads::run(settings.seed, report);
}
