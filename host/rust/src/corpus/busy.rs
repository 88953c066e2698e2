//! A long good log: a domain of four pages whose sides are both busy, on many ports of every
//! priority.

use super::recorder::{Recorder, Shape};
use crate::model::log::LoggedCall;
use crate::model::Side;
use crate::random::Random;

/// What is lent to it.
pub const SHAPE: Shape = Shape {
    words: 4096,
    entries: 4096,
};
/// Number of ports in use.
const PORTS: u64 = 600;

/// A log of so many lines, or a few more.
pub fn record(random: &mut Random, lines: usize) -> Recorder {
    let mut recorder = Recorder::fresh(SHAPE);
    recorder.whole(LoggedCall::InitControl {
        vcpu: 0,
        frame: 0,
        offset: 0,
    });
    for frame in 1..=4 {
        recorder.whole(LoggedCall::ExpandArray { frame });
    }
    for at in 0..PORTS {
        let port = port(at);
        let priority = random.below(16) as u32;
        recorder.whole(LoggedCall::SetPriority { port, priority });
        recorder.whole(LoggedCall::Bind(port));
    }
    while recorder.lines.len() < lines {
        step(random, &mut recorder);
    }
    recorder
}

/// The ports in use lie apart, from 5 to 3,599.
fn port(at: u64) -> u32 {
    6 * at as u32 + 5
}

/// An access of either side's call under way, or its next call.
fn step(random: &mut Random, recorder: &mut Recorder) {
    let control = &recorder.world.memory.control;
    let ready = (control.ready | recorder.world.guest.local) != 0;
    let port = port(random.below(PORTS));
    match random.below(16) {
        0 => recorder.call(LoggedCall::Mask(port)),
        15 if random.once_in(2) => recorder.call(LoggedCall::ClearMask(port)),
        1..=5 if recorder.world.due(Side::Guest).is_some() => recorder.access(Side::Guest),
        1..=5 if ready => recorder.call(LoggedCall::Service),
        _ if recorder.world.due(Side::Hypervisor).is_some() => {
            recorder.access(Side::Hypervisor);
        }
        _ => recorder.call(call(random, recorder, port)),
    }
}

/// Mostly a raise; a closed port is bound again.
fn call(random: &mut Random, recorder: &Recorder, port: u32) -> LoggedCall {
    let bound = recorder.world.ledger[port as usize].bound;
    match random.below(16) {
        1..=15 if !bound => LoggedCall::Bind(port),
        0 => LoggedCall::Close(port),
        1 => LoggedCall::SetPriority {
            port,
            priority: random.below(16) as u32,
        },
        2..=6 => LoggedCall::Unmask(port),
        _ => LoggedCall::Raise(port),
    }
}

#[cfg(test)]
mod tests {
    use super::*;
    use crate::corpus::kinds::{kind, KINDS};
    use crate::model::replay::{replay, Report};

    /// It agrees, and has every line of a domain whose guest keeps the rules.
    #[test]
    fn a_busy_log_agrees() {
        let recorder = record(&mut Random::new(1), 100_000);
        let lines = recorder.lines.len();
        assert!((100_000..100_003).contains(&lines));
        let report = replay(SHAPE.entries, SHAPE.words, recorder.log.text());
        assert_eq!(report, Report::Agree(lines as u64));
        let mut met = [0; KINDS.len()];
        let kinds = recorder.lines.iter().filter_map(kind);
        kinds.for_each(|kind| met[kind] += 1);
        let often = KINDS.iter().zip(met).filter(|(_, times)| *times > 50);
        let often: Vec<&str> = often.map(|(kind, _)| *kind).collect();
        assert!(often.contains(&"X cas w") && often.contains(&"G answer 19"));
        assert!(often.contains(&"G answer 21") && often.contains(&"X answer 7"));
        assert!(often.contains(&"G answer 35") && often.contains(&"G cas w"));
    }
}
