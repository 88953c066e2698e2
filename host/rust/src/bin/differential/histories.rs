//! The histories of every kind, what they met, and the table of faults.

use crate::rows;
use evtchn_fifo_host::differential::campaign::{Campaign, CAMPAIGNS};
use evtchn_fifo_host::differential::coverage::Coverage;
use evtchn_fifo_host::differential::faults::{head, try_fault};
use evtchn_fifo_host::differential::pair::Pair;
use evtchn_fifo_host::model::{Faults, Model};
use evtchn_fifo_host::report::Report;
use std::time::{Duration, Instant};

/// Steps that a test run makes at least.
const STEPS: u64 = 10_000_000;
/// Histories of a kind in a turn of a longer run, as a part of the test run's.
const TURN: u64 = 50;

/// The test run: every kind of history, then what they met.
pub fn run(seed: u64, report: &mut Report) {
    println!("seed {seed}");
    let mut pair = Pair::default();
    let mut met = CAMPAIGNS.map(|_| Coverage::default());
    for (campaign, met) in CAMPAIGNS.iter().zip(&mut met) {
        let name = format!("{} histories", campaign.name);
        report.check(&name, || {
            histories(campaign, &mut pair, seed, campaign.histories, met)
        });
    }
    judge(&met, report);
}

fn histories(
    campaign: &Campaign,
    pair: &mut Pair,
    seed: u64,
    number: u64,
    met: &mut Coverage,
) -> Result<String, String> {
    for at in 0..number {
        let seed = seed.wrapping_add(at);
        let outcome = campaign.run(pair, Model::default(), seed, met);
        outcome.map_err(|difference| difference.to_string())?;
    }
    Ok(format!("{number} histories, {} steps", met.steps))
}

/// Steps and everything that must be met, with a column for each kind.
fn judge(met: &[Coverage], report: &mut Report) {
    let mut total = Coverage::default();
    met.iter().for_each(|part| total.add(part));
    report.check("steps", || match total.steps {
        steps if steps >= STEPS => Ok(format!("{steps}")),
        steps => Err(format!("{steps}, wanted {STEPS}")),
    });
    let kinds = CAMPAIGNS.map(|campaign| campaign.name);
    let parts = std::array::from_fn(|kind| met[kind].counts());
    rows::judge(kinds, parts, total.counts(), report);
}

/// The longer run: every kind in turn from fresh seeds, until the time is over.
pub fn run_for(seed: u64, time: Duration, report: &mut Report) {
    let end = Instant::now() + time;
    let mut pair = Pair::default();
    let mut met = CAMPAIGNS.map(|_| Coverage::default());
    let mut failed = [const { None }; CAMPAIGNS.len()];
    let mut from = seed;
    while Instant::now() < end && failed.iter().all(Option::is_none) {
        for (at, campaign) in CAMPAIGNS.iter().enumerate() {
            let number = campaign.histories / TURN;
            let outcome = histories(campaign, &mut pair, from, number, &mut met[at]);
            failed[at] = outcome.err();
        }
        from = from.wrapping_add(
            CAMPAIGNS
                .iter()
                .map(|c| c.histories / TURN)
                .max()
                .unwrap_or(1),
        );
    }
    for (at, campaign) in CAMPAIGNS.iter().enumerate() {
        let name = format!("{} histories", campaign.name);
        let outcome = failed[at].take().map_or(Ok(()), Err);
        report.check(&name, || {
            outcome.map(|()| format!("{} steps", met[at].steps))
        });
    }
}

/// The test of the tests: the table of faults seeded in the model.
pub fn try_faults(report: &mut Report) {
    let mut pair = Pair::default();
    println!("{}", head());
    for (fault, words) in Faults::ALL.into_iter().chain(Faults::CUTS) {
        let tried = try_fault(&mut pair, fault, words);
        report.count(tried.caught());
        let mark = if tried.caught() { "" } else { " NOT CAUGHT" };
        println!("{}{mark}", tried.line());
    }
    let unfaulted = try_fault(&mut pair, Faults::None, "none");
    report.check("no fault", || match unfaulted.caught() {
        false => Ok("no difference without a fault".to_string()),
        true => Err("a difference without a fault".to_string()),
    });
}
