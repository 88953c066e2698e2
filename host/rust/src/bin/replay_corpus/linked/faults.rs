//! The test of the tests: each fault seeded in the model's replay makes it differ from the library
//! on some log.

use super::campaign::Player;
use super::cuts::CUTS;
use super::shown::Shown;
use evtchn_fifo_host::corpus::cases::Damaged;
use evtchn_fifo_host::corpus::damage::DAMAGES;
use evtchn_fifo_host::corpus::Case;
use evtchn_fifo_host::model::replay::{faulty_replay, ReplayFault};
use evtchn_fifo_host::random::Random;
use evtchn_fifo_host::report::Report;

/// Good logs of which a fault must change one, damaged or not.
const LOGS: u64 = 200;

/// Every fault.
pub fn run(seed: u64, report: &mut Report) {
    let mut player = Player::default();
    for (fault, words) in ReplayFault::ALL {
        let mut seeds = (0..LOGS).map(|at| seed.wrapping_add(at));
        let found = seeds.find_map(|seed| found(&mut player, fault, seed));
        report.count(found.is_some());
        println!("{words:<46} | {}", found.unwrap_or("NOT FOUND".to_string()));
    }
}

/// The first damage of a good log by which a fault is found.
fn found(player: &mut Player, fault: ReplayFault, seed: u64) -> Option<String> {
    let mut random = Random::new(!seed);
    let mut damaged = Damaged::new(seed);
    let finds = |at: &usize| differs(player, &mut random, fault, &damaged.case(*at));
    let at = (0..DAMAGES.len()).find(finds)?;
    Some(format!("seed {seed}, damage: {}", DAMAGES[at].name))
}

fn differs(player: &mut Player, random: &mut Random, fault: ReplayFault, case: &Case) -> bool {
    let faulty = faulty_replay(fault, case.shape.entries, case.shape.words, &case.text);
    let played = player.play(random, case, CUTS[0]);
    Shown::of_library(&played.lent, played.position) != Shown::of_model(case, faulty)
}
