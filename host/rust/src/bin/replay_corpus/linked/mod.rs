//! The functions that a C host links, beside the model's replay: each log cut into pieces, over
//! lent memory full of junk and against guard pages.

mod any;
mod buffers;
mod campaign;
mod cuts;
mod faults;
mod logs;
mod rows;
mod shown;
mod world;

pub use campaign::Campaign;
use evtchn_fifo_host::report::Report;
use std::time::{Duration, Instant};

/// Logs that a test run plays at least.
const LOGS: u64 = 1_000_000;
/// How often everything must be met.
const WANTED: u64 = 1_000;
/// Good logs, each with every damage.
const GOOD: u64 = 45_000;
/// Good logs of a turn of a longer run.
const TURN: u64 = 500;

/// Logs played from a seed on.
type Play = fn(&mut Campaign, u64) -> Result<(), String>;

/// The test run.
pub fn run(seed: u64, report: &mut Report) {
    println!("by the linked functions, seed {seed}");
    let begun = Instant::now();
    let mut campaign = Campaign::default();
    let mut part = |name, play: Play| check(report, &mut campaign, name, |logs| play(logs, seed));
    part("good logs damaged", |logs, seed| {
        logs::damaged(logs, seed, GOOD)
    });
    part("every byte of a sample", logs::bytes);
    part("logs at edges", logs::at_edges);
    report.check("any position over any bytes", || any::run(seed));
    judge(&campaign, report);
    let (logs, seconds) = (campaign.logs(), begun.elapsed().as_secs_f64());
    report.check("logs played by the linked functions", || match logs {
        LOGS.. => Ok(format!("{logs} in {seconds:.1} s")),
        _ => Err(format!("{logs}, wanted {LOGS}")),
    });
    faults::run(seed, report);
}

/// The longer run: damaged logs from fresh seeds, until the time is over.
pub fn run_for(seed: u64, minutes: u64, report: &mut Report) {
    println!("by the linked functions, seed {seed}, {minutes} minutes");
    let end = Instant::now() + Duration::from_secs(60 * minutes);
    let mut campaign = Campaign::default();
    check(report, &mut campaign, "good logs damaged", |campaign| {
        let mut from = seed;
        while Instant::now() < end {
            logs::damaged(campaign, from, TURN)?;
            from = from.wrapping_add(TURN);
        }
        Ok(())
    });
}

/// A check of some logs, which ends at the first on which both differ.
fn check(
    report: &mut Report,
    campaign: &mut Campaign,
    name: &str,
    play: impl FnOnce(&mut Campaign) -> Result<(), String>,
) {
    let before = campaign.logs();
    report.check(name, || {
        play(campaign).map(|()| format!("{} logs", campaign.logs() - before))
    });
}

/// Everything that must be met.
fn judge(campaign: &Campaign, report: &mut Report) {
    for (name, times) in campaign.counts() {
        let passed = times >= WANTED;
        report.count(passed);
        let mark = if passed { "" } else { "TOO FEW" };
        println!("{}", format!("{name:<58} {times:>9} {mark}").trim_end());
    }
}
