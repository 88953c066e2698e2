//! Thread stress: every domain's outcome.

use evtchn_fifo_host::report::Report;
use evtchn_fifo_host::stress;
use evtchn_fifo_host::stress::account::{Account, Numbers};
use evtchn_fifo_host::stress::domain::Conduct;
use std::time::Instant;

/// Times that each hypervisor thread sets PENDING where it was clear.
const EVENTS: u64 = 20_000;

/// All domains at once, then one check each.
pub fn run(seed: u64, report: &mut Report) {
    let begun = Instant::now();
    let outcomes = stress::run(seed, EVENTS);
    let seconds = begun.elapsed().as_secs_f64();
    println!("thread stress, seed {seed}, {EVENTS} events a thread ({seconds:.1} s)");
    for (at, (conduct, outcome)) in outcomes.into_iter().enumerate() {
        let name = format!("threads of domain {at}, {conduct:?}");
        report.check(&name, || Ok(told(conduct, &outcome?)));
    }
}

/// A domain's numbers; only an honest one's account must agree, and it did.
fn told(conduct: Conduct, account: &Account) -> String {
    let mut sum = Numbers::default();
    for (_, numbers) in account.ports() {
        sum.sets += numbers.sets;
        sum.hand_overs += numbers.hand_overs;
        sum.closes += numbers.closes;
    }
    let Numbers {
        sets,
        hand_overs,
        closes,
    } = sum;
    let (calls, accesses, busy) = (account.calls, account.accesses, account.busy);
    let [cleared, unmasked] = account.clears;
    match conduct {
        Conduct::Honest => format!(
            "{calls} calls, {accesses} accesses; PENDING set {sets} = handed over {hand_overs} + \
             closed {closes}; clear_masks without a call {cleared}, with an unmask {unmasked}; \
             BUSY set {busy} times"
        ),
        Conduct::Hostile => {
            format!("{calls} calls, {accesses} accesses, none outside; {sets} events")
        }
    }
}
