//! The scripts of crate `cases` run by the model: whole access logs, each after a title and before
//! a line with the counts of its answers.

mod busy;
mod clear_masks;
mod edges;
mod links;
mod refusals;
mod run;
mod services;
mod small_set;
mod stored;

use run::Run;
pub use stored::{split, stored};

/// A title and the steps of a log.
type Script = (&'static str, fn(&mut Run));

/// The log of a script.
pub struct Logged {
    /// The script's title.
    pub title: &'static str,
    /// Number of event words, and of ledger entries, that it lends.
    pub lent: usize,
    /// The log that crate `cases` prints: accesses and answers.
    pub log: String,
    /// The same with call lines.
    pub log_with_calls: String,
}

/// All logs, in the order in which crate `cases` prints them.
pub fn print_all() -> String {
    let print = |((title, script), lent)| ran(script, lent).print(title);
    scripts().map(print).collect()
}

/// The log of every script, in the same order.
pub fn logs() -> Vec<Logged> {
    let log = |((title, script), lent)| {
        let run = ran(script, lent);
        Logged {
            title,
            lent,
            log: run.log(),
            log_with_calls: run.log_with_calls(),
        }
    };
    scripts().map(log).collect()
}

/// Every script with the number of event words, and of ledger entries, that it lends.
fn scripts() -> impl Iterator<Item = (Script, usize)> {
    let small = [
        small_set::SCRIPTS,
        links::SCRIPTS,
        busy::SCRIPTS,
        services::SCRIPTS,
        clear_masks::SCRIPTS,
        refusals::SCRIPTS,
        edges::SCRIPTS,
    ]
    .concat();
    let small = small.into_iter().map(|script| (script, 2048));
    let large = edges::LARGE.iter().map(|script| (*script, 131_072));
    small.chain(large)
}

/// A script run from fresh records.
fn ran(script: fn(&mut Run), lent: usize) -> Run {
    let mut run = Run::fresh(lent);
    script(&mut run);
    run
}
