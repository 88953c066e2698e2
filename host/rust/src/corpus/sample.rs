//! One good log with a line of every kind but answer 13, and its damage byte by byte.

use super::cases::Case;
use super::kinds::kind;
use super::recorder::{Recorder, Shape};
use crate::model::log::Line;
use crate::model::log::LoggedCall::{
    self, Bind, ClearMask, Close, ExpandArray, InitControl, Mask, Raise, Service, SetPriority,
    Unmask,
};
use crate::model::Side::{self, Guest, Hypervisor};
use std::ops::Range;

/// What is lent to it.
const SHAPE: Shape = Shape {
    words: 2048,
    entries: 1600,
};

/// The log.
pub fn sample() -> Recorder {
    let mut recorder = Recorder::fresh(SHAPE);
    give_and_add(&mut recorder);
    link(&mut recorder);
    refuse(&mut recorder);
    recorder
}

fn init(vcpu: u32, frame: u32, offset: u32) -> LoggedCall {
    InitControl {
        vcpu,
        frame,
        offset,
    }
}

fn finish(recorder: &mut Recorder, side: Side) {
    while recorder.world.due(side).is_some() {
        recorder.access(side);
    }
}

fn give_and_add(recorder: &mut Recorder) {
    let calls = [
        Service,
        Bind(5),
        init(0, 1, 4020),
        init(0, 1, 8),
        ExpandArray { frame: 1023 },
        Bind(5),
        Bind(1023),
    ];
    calls.into_iter().for_each(|call| recorder.whole(call));
    recorder.call(Raise(5));
    recorder.call(init(0, 1, 8));
    finish(recorder, Hypervisor);
}

/// Port 1023 is linked behind port 5, which the guest masks between the read and the cas; it can't
/// clear the mask while port 5 is pending.
fn link(recorder: &mut Recorder) {
    recorder.call(Raise(1023));
    (0..3).for_each(|_| recorder.access(Hypervisor));
    recorder.whole(Mask(5));
    recorder.call(Service);
    recorder.call(Service);
    finish(recorder, Hypervisor);
    recorder.access(Guest);
    recorder.whole(ClearMask(5));
    recorder.whole(Service);
    recorder.whole(Unmask(5));
    recorder.whole(Mask(9));
    recorder.whole(ClearMask(9));
    recorder.whole(SetPriority {
        port: 1023,
        priority: 15,
    });
    recorder.whole(Close(5));
}

/// Each refusal.
fn refuse(recorder: &mut Recorder) {
    let calls = [
        Bind(5),
        Bind(0),
        Bind(1023),
        Bind(1600),
        Close(5),
        SetPriority {
            port: 5,
            priority: 16,
        },
        ExpandArray { frame: 1024 },
        Bind(1500),
        Raise(1500),
        Mask(0),
        Mask(1024),
        ClearMask(0),
        ClearMask(1024),
    ];
    calls.into_iter().for_each(|call| recorder.whole(call));
    recorder.whole(init(1, 1, 8));
    recorder.whole(init(0, 1, 8));
}

/// The log with each byte of a line of each form changed to every other byte, cut off behind the
/// next line.
pub fn each_byte() -> impl Iterator<Item = Case> {
    beginnings().into_iter().flat_map(|(text, line)| {
        let changes = line.flat_map(|place| (0..=255).map(move |byte| (place, byte)));
        changes.filter_map(move |(place, byte)| {
            let mut text = text.clone();
            let former = std::mem::replace(&mut text[place], byte);
            let shape = SHAPE;
            (former != byte).then_some(Case { shape, text })
        })
    })
}

/// For the first line of each form, the log up to the line behind it, and where the line stands.
fn beginnings() -> Vec<(Vec<u8>, Range<usize>)> {
    let Recorder { log, lines, .. } = sample();
    let first = |at: &usize| {
        !lines[..*at]
            .iter()
            .any(|line| form(line) == form(&lines[*at]))
    };
    let beginning = |at: usize| {
        let text = log.text()[..log.range(at + 1).end].to_vec();
        (text, log.range(at))
    };
    (0..lines.len()).filter(first).map(beginning).collect()
}

/// What tells two lines' forms apart: the kind; of answers side, digits and port.
fn form(line: &Line) -> (Option<usize>, Option<(Side, bool, bool)>) {
    match *line {
        Line::Answer { side, number, port } => (None, Some((side, number < 10, port.is_some()))),
        _ => (kind(line), None),
    }
}

#[cfg(test)]
mod tests {
    use super::*;
    use crate::corpus::kinds::KINDS;
    use crate::model::replay::{replay, Report};

    #[test]
    fn every_kind_but_13() {
        let recorder = sample();
        let mut met = [false; KINDS.len()];
        let kinds = recorder.lines.iter().filter_map(kind);
        kinds.for_each(|kind| met[kind] = true);
        let missing = (0..KINDS.len()).filter(|at| !met[*at]);
        let missing: Vec<&str> = missing.map(|at| KINDS[at]).collect();
        assert_eq!(missing, ["X answer 13"]);
        let report = replay(SHAPE.entries, SHAPE.words, recorder.log.text());
        assert_eq!(report, Report::Agree(recorder.lines.len() as u64));
    }
}
