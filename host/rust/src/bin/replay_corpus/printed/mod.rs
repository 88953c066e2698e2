//! What the program prints of a log, beside the text of the model's report on it.

mod campaign;
mod faults;
mod logs;
mod program;
mod text;

use campaign::Campaign;
use evtchn_fifo_host::report::Report;
pub use program::Program;
pub use text::text;

/// A check for each log, each row of what was met and each fault seeded in the model.
pub fn run(program: &Program, report: &mut Report) {
    println!("printed by the program");
    let mut campaign = Campaign::new(program);
    logs::play(&mut campaign);
    campaign.judge(report);
    faults::run(campaign.played(), report);
}
