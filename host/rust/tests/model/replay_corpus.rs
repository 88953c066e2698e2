//! The corpus of logs: good ones agree, and each fault seeded in the replay is found by some log.

use evtchn_fifo_host::corpus::cases::Damaged;
use evtchn_fifo_host::corpus::damage::DAMAGES;
use evtchn_fifo_host::corpus::sample::each_byte;
use evtchn_fifo_host::corpus::Case;
use evtchn_fifo_host::model::replay::{faulty_replay, replay, Replay, ReplayFault, Report};

fn report(fault: ReplayFault, case: &Case) -> Report {
    faulty_replay(fault, case.shape.entries, case.shape.words, &case.text)
}

#[test]
fn good_logs_agree() {
    for seed in 1..=3_000 {
        let mut damaged = Damaged::new(seed);
        let lines = damaged.recorder.lines.len() as u64;
        let case = damaged.case(0);
        let whole = replay(case.shape.entries, case.shape.words, &case.text);
        assert_eq!(whole, Report::Agree(lines), "seed {seed}");
    }
}

/// What a good log's replay leaves is what its recording left.
#[test]
fn good_logs_leave_what_they_left() {
    for seed in 1..=1_000 {
        let mut damaged = Damaged::new(seed);
        let case = damaged.case(0);
        let mut replay = Replay::start(case.shape.entries, case.shape.words);
        replay.feed(&case.text);
        assert_eq!(*replay.world(), damaged.recorder.world, "seed {seed}");
    }
}

/// The first log whose report a fault changes.
fn found(fault: ReplayFault) -> Option<(u64, &'static str)> {
    (1..=200).find_map(|seed| {
        let mut damaged = Damaged::new(seed);
        (0..DAMAGES.len()).find_map(|at| {
            let case = damaged.case(at);
            let differs = report(fault, &case) != report(ReplayFault::None, &case);
            differs.then_some((seed, DAMAGES[at].name))
        })
    })
}

#[test]
fn every_fault_is_found() {
    assert_eq!(found(ReplayFault::None), None);
    for (fault, words) in ReplayFault::ALL {
        let found = found(fault);
        println!("{words}: {found:?}");
        assert!(found.is_some(), "{words}: no log finds it");
    }
}

#[test]
fn bytes_of_every_form_are_damaged() {
    let (mut logs, mut kinds) = (0, [0; 34]);
    for case in each_byte() {
        logs += 1;
        kinds[report(ReplayFault::None, &case).kind() as usize] += 1;
    }
    println!("{logs} logs, by report {kinds:?}");
    assert!(logs > 150_000 && kinds[1] > 1_000 && kinds[22] > 100_000);
}
