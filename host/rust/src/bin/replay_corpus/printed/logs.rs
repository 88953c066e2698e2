//! The logs of a run: good ones of several kinds with every damage, the sample with single bytes
//! changed, and those at edges.

use super::campaign::Campaign;
use crate::edges::edges;
use crate::LENT;
use evtchn_fifo_host::corpus::cases::Damaged;
use evtchn_fifo_host::corpus::sample::each_byte;
use evtchn_fifo_host::corpus::{busy, good, meeting, Recorder, Shape};
use evtchn_fifo_host::random::Random;

/// Good logs of a kind: its name, their number, how one is recorded, and which damages they take.
type Kind = (&'static str, u64, fn(&mut Random) -> Recorder, Which);
type Which = fn(&str) -> bool;

const KINDS: [Kind; 6] = [
    ("an entry for every port", 50, every_entry, |_| true),
    ("any lent", 65, any_lent, |_| true),
    ("128 pages", 6, all_pages, |_| true),
    ("busy", 1, both_busy, |_| true),
    ("few damages", 600, every_entry, seldom_met),
    ("both sides on few words", 200, meeting::record, seldom_met),
];
/// Lines of a busy log: more bytes than are read at once.
const BUSY_LINES: usize = 20_000;
/// One change of a byte of the sample in so many is tried.
const BYTES: usize = 397;

/// Plays them all.
pub fn play(campaign: &mut Campaign<'_>) {
    for ((name, number, record, which), thousand) in KINDS.into_iter().zip(0..) {
        for seed in 1000 * thousand + 1..=1000 * thousand + number {
            let mut random = Random::new(seed);
            let recorder = record(&mut random);
            let damaged = Damaged::of(random, LENT, recorder);
            campaign.play_damaged(&format!("{name}, seed {seed}"), damaged, which);
        }
    }
    for (at, case) in each_byte().step_by(BYTES).enumerate() {
        campaign.play(format!("byte of the sample, {at}"), None, case.text);
    }
    for (name, text) in edges() {
        campaign.play(name, None, text);
    }
}

/// Damages of which some reports are seldom, and none.
fn seldom_met(damage: &str) -> bool {
    [
        "none",
        "cut after a line",
        "another decimal",
        "another word",
    ]
    .contains(&damage)
}

/// Few pages, so that most calls are on ports: such a log agrees with more pages lent, too.
fn every_entry(random: &mut Random) -> Recorder {
    let shape = Shape {
        entries: LENT.entries,
        ..good::shape(random)
    };
    let most = random.pick(&[20, 60, 200, 400]);
    good::record_over(random, shape, most)
}

/// Also short ledgers: such a log differs where a port had no entry.
fn any_lent(random: &mut Random) -> Recorder {
    good::record_any(random).1
}

fn all_pages(random: &mut Random) -> Recorder {
    good::record_large(random, LENT)
}

fn both_busy(random: &mut Random) -> Recorder {
    busy::record(random, BUSY_LINES)
}
