//! The histories with cables, what they met, and the table of their faults.

use crate::rows;
use evtchn_fifo_host::differential::cables::campaign::{Campaign, CAMPAIGNS};
use evtchn_fifo_host::differential::cables::faults::try_fault;
use evtchn_fifo_host::differential::cables::{large, Cabled, Met};
use evtchn_fifo_host::differential::faults::cell;
use evtchn_fifo_host::model::cables::{CableFault, Cables};
use evtchn_fifo_host::report::Report;
use std::time::{Duration, Instant};

/// Calls with cables that a test run makes at least.
const CALLS: u64 = 1_000_000;
/// Histories of a kind in a turn of a longer run, as a part of the test run's.
const TURN: u64 = 10;

/// The test run: every kind of history, then what they met.
pub fn run(seed: u64, report: &mut Report) {
    println!("cables, seed {seed}");
    let name = "cables in slices above 2^32 bytes";
    report.check(name, || large::check(seed));
    let mut cabled = Cabled::new(Cables::default());
    let met = CAMPAIGNS.map(|campaign| {
        report.check(&name_of(&campaign), || {
            histories(&campaign, &mut cabled, seed, campaign.histories)?;
            Ok(format!(
                "{} histories, {}",
                campaign.histories,
                told(&cabled)
            ))
        });
        cabled.steps = Default::default();
        std::mem::take(&mut cabled.met)
    });
    judge(&met, report);
}

fn name_of(campaign: &Campaign) -> String {
    format!("{} histories with cables", campaign.name)
}

fn told(cabled: &Cabled) -> String {
    let (calls, steps) = (cabled.met.calls, cabled.steps.steps);
    format!("{calls} calls with cables, {steps} steps of domains")
}

fn histories(
    campaign: &Campaign,
    cabled: &mut Cabled,
    seed: u64,
    number: u64,
) -> Result<(), String> {
    for at in 0..number {
        let outcome = campaign.run(cabled, seed.wrapping_add(at));
        outcome.map_err(|difference| difference.to_string())?;
    }
    Ok(())
}

/// Calls and everything that must be met, with a column for each kind.
fn judge(met: &[Met; CAMPAIGNS.len()], report: &mut Report) {
    let mut total = Met::default();
    met.iter().for_each(|part| total.add(part));
    report.check("calls with cables", || match total.calls {
        calls if calls >= CALLS => Ok(format!("{calls}")),
        calls => Err(format!("{calls}, wanted {CALLS}")),
    });
    let kinds = CAMPAIGNS.map(|campaign| campaign.name);
    let parts = std::array::from_fn(|kind| met[kind].counts());
    rows::judge(kinds, parts, total.counts(), report);
}

/// The longer run: every kind in turn from fresh seeds, until the time is over.
pub fn run_for(seed: u64, time: Duration, report: &mut Report) {
    let end = Instant::now() + time;
    let mut cabled = Cabled::new(Cables::default());
    let (mut from, mut turns) = (seed, 0);
    let mut failed = None;
    while Instant::now() < end && failed.is_none() {
        let turn = |campaign: &Campaign| {
            let number = campaign.histories.div_ceil(TURN);
            histories(campaign, &mut cabled, from, number).err()
        };
        failed = CAMPAIGNS.iter().find_map(turn);
        let most = CAMPAIGNS.iter().map(|campaign| campaign.histories).max();
        from = from.wrapping_add(most.unwrap_or(1).div_ceil(TURN));
        turns += 1;
    }
    report.check("histories with cables", || match failed {
        Some(difference) => Err(difference),
        None => Ok(format!("{turns} turns, {}", told(&cabled))),
    });
}

/// The test of the tests: the table of faults seeded in the model.
pub fn try_faults(report: &mut Report) {
    let mut cabled = Cabled::new(Cables::default());
    let names = CAMPAIGNS.map(|campaign| campaign.name).join(" | ");
    println!("{:<36} | {names}", "fault of cables");
    for (fault, words) in CableFault::ALL {
        let found = try_fault(&mut cabled, fault);
        let caught = found.iter().any(Option::is_some);
        report.count(caught);
        let mark = if caught { "" } else { " NOT CAUGHT" };
        println!(
            "{words:<36} | {}{mark}",
            found.each_ref().map(cell).join(" | ")
        );
    }
    let found = try_fault(&mut cabled, CableFault::None);
    report.check("no fault of cables", || {
        match found.iter().flatten().next() {
            None => Ok("no difference without a fault".to_string()),
            Some(difference) => Err(difference.to_string()),
        }
    });
}
