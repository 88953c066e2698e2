//! All domains at once.

use super::account::Account;
use super::domain::{Conduct, Domain};
use std::thread;

const CONDUCTS: [Conduct; 5] = [
    Conduct::Honest,
    Conduct::Hostile,
    Conduct::Honest,
    Conduct::Hostile,
    Conduct::Honest,
];

/// A domain's conduct with its account, or what went wrong.
pub type Outcome = (Conduct, Result<Account, String>);

/// Runs three honest and two hostile domains, `events` of each of their two hypervisor threads.
pub fn run(seed: u64, events: u64) -> Vec<Outcome> {
    thread::scope(|scope| {
        let number = |at: usize| seed.wrapping_add(10 * at as u64);
        let spawned = CONDUCTS.iter().enumerate().map(|(at, conduct)| {
            let thread = scope.spawn(move || one(*conduct, number(at), events));
            (*conduct, thread)
        });
        let threads: Vec<_> = spawned.collect();
        let joined = threads.into_iter().map(|(conduct, thread)| {
            let outcome = thread.join();
            let outcome = outcome.unwrap_or_else(|_| Err("the domain's thread panicked".into()));
            (conduct, outcome)
        });
        joined.collect()
    })
}

fn one(conduct: Conduct, seed: u64, events: u64) -> Result<Account, String> {
    let mut account = Account::default();
    let domain = Domain::begun(conduct, &mut account)?;
    account.add(&domain.run(seed, events)?);
    Ok(account)
}
