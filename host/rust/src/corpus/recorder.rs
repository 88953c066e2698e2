//! A world whose steps are written down: each call's line, then what the step brought.

use super::log::Log;
use crate::model::log::{Line, LoggedCall};
use crate::model::{Model, Side, Step, World};

/// The domain's frame count, which document 02 gives.
const FRAMES: u64 = 1024;

/// What is lent to a replay.
#[derive(Clone, Copy, Debug, PartialEq, Eq)]
pub struct Shape {
    /// Number of event words.
    pub words: usize,
    /// Number of ledger entries.
    pub entries: usize,
}

/// A fresh world, and the log of what happened in it.
#[derive(Clone, Debug)]
pub struct Recorder {
    /// The world.
    pub world: World,
    /// Its log.
    pub log: Log,
    /// The log's lines.
    pub lines: Vec<Line>,
}

impl Recorder {
    /// A fresh world, and a log that has its header.
    pub fn fresh(shape: Shape) -> Self {
        let mut recorder = Recorder {
            world: World::fresh(Model::default(), shape.words, shape.entries),
            log: Log::default(),
            lines: Vec::new(),
        };
        recorder.push(Line::Header);
        recorder
    }

    /// Starts a call. A page that it adds is told at once.
    pub fn call(&mut self, call: LoggedCall) {
        self.push(Line::Call(call));
        let words = self.world.domain.words();
        self.step(call.step(FRAMES));
        let now = self.world.domain.words();
        if now > words {
            self.step(Step::Tell(now));
        }
    }

    /// Makes the access of a side's call under way.
    pub fn access(&mut self, side: Side) {
        self.step(Step::Access(side));
    }

    /// A whole call.
    pub fn whole(&mut self, call: LoggedCall) {
        self.call(call);
        while self.world.due(call.side()).is_some() {
            self.access(call.side());
        }
    }

    fn step(&mut self, step: Step) {
        let stepped = self.world.step(step);
        for line in stepped.events.iter().filter_map(Line::of) {
            self.push(line);
        }
    }

    fn push(&mut self, line: Line) {
        self.log.push(line);
        self.lines.push(line);
    }
}
