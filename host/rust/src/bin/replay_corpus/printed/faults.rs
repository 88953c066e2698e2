//! The test of the tests: each fault seeded in the model's replay makes it differ from the program
//! on some log.

use super::campaign::Played;
use super::text::text;
use evtchn_fifo_host::model::replay::{faulty_replay, ReplayFault};
use evtchn_fifo_host::report::Report;

/// Faults of report 33 and of words lent that are no whole pages, which the program never meets.
const UNMET: [ReplayFault; 3] = [
    ReplayFault::LentFirst,
    ReplayFault::LentBeforeDue,
    ReplayFault::PartPage,
];

/// Every fault that can be found.
pub fn run(played: &[Played], report: &mut Report) {
    for (fault, words) in ReplayFault::ALL {
        if !UNMET.contains(&fault) {
            let found = played.iter().find(|played| differs(fault, played));
            report.count(found.is_some());
            let told = found.map_or("NOT FOUND", |played| &played.name);
            println!("{words:<46} | {told}");
        }
    }
}

fn differs(fault: ReplayFault, played: &Played) -> bool {
    let case = &played.case;
    let report = faulty_replay(fault, case.shape.entries, case.shape.words, &case.text);
    played.printed != text(case, report).as_bytes()
}
