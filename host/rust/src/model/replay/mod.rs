//! A log played back (document 02, T-02) over a fresh domain of 1,024 frames.
//!
//! Where lines are due, the next line must be the first of them. Otherwise a call line runs its
//! call, and an access line must be the access of its side's call under way. What either brings is
//! due next: an answer, or a mask's access and its answer.

mod report;
mod seeded;

use super::domain::PAGE_WORDS;
use super::log::{read, Line, LoggedCall};
use super::machine::{Events, Side, Step, World};
pub use report::Report;
pub use seeded::{faulty_replay, ReplayFault};

/// The domain's frame count.
pub const FRAMES: u64 = 1024;

/// A replay of the lines fed so far.
#[derive(Clone, Debug)]
pub struct Replay {
    fault: ReplayFault,
    world: World,
    due: [Option<Line>; 2],
    /// Number of lines that agreed.
    lines: u64,
    stopped: Option<Report>,
    /// The bytes of a line that has not ended.
    part: Vec<u8>,
}

/// Why a replay stops at a line.
enum Stop {
    Differs(Option<Line>),
    Malformed,
    NotLent,
}

/// The report on a whole log, played with so many ledger entries and event words lent.
pub fn replay(entries: usize, words: usize, text: &[u8]) -> Report {
    let mut replay = Replay::start(entries, words);
    replay.feed(text);
    replay.report()
}

impl Replay {
    /// Fresh records, ledger and words; the header is due.
    pub fn start(entries: usize, words: usize) -> Self {
        Replay::faulty(ReplayFault::None, entries, words)
    }

    fn faulty(fault: ReplayFault, entries: usize, words: usize) -> Self {
        Replay {
            fault,
            world: World::fresh(fault.model(), words, entries),
            due: [Some(Line::Header), None],
            lines: 0,
            stopped: None,
            part: Vec::new(),
        }
    }

    /// Plays a piece of the log, which may begin and end inside a line.
    pub fn feed(&mut self, text: &[u8]) {
        for part in text.split_inclusive(|byte| *byte == b'\n') {
            if self.stopped.is_some() {
                return;
            }
            match part.strip_suffix(b"\n") {
                None => self.part.extend_from_slice(part),
                Some(line) if self.part.is_empty() => self.line(line),
                Some(line) => {
                    let mut whole = std::mem::take(&mut self.part);
                    whole.extend_from_slice(line);
                    self.line(&whole);
                }
            }
        }
    }

    /// The report on what was fed, as a whole log. A call under way is not due.
    pub fn report(&self) -> Report {
        if let Some(stopped) = self.stopped {
            return stopped;
        }
        let line = self.lines + 1;
        if !self.part.is_empty() && !self.has(ReplayFault::LastNewline) {
            return Report::Malformed(line);
        }
        match self.due_at_end() {
            None => Report::Agree(self.lines),
            due => Report::Differs { line, due },
        }
    }

    /// The line that must come next.
    pub fn due(&self) -> Option<Line> {
        self.due[0]
    }

    /// The domain as the lines left it.
    pub fn world(&self) -> &World {
        &self.world
    }

    /// Plays a line, given without its newline.
    fn line(&mut self, bytes: &[u8]) {
        let line = self.lines + 1;
        let played = match read(bytes) {
            Some(line) => self.play(line),
            None => Err(self.malformed()),
        };
        match played {
            Ok(()) => self.lines = line,
            Err(stop) => {
                self.stopped = Some(match stop {
                    Stop::Differs(due) => Report::Differs { line, due },
                    Stop::Malformed => Report::Malformed(line),
                    Stop::NotLent => Report::NotLent(line),
                });
            }
        }
    }

    fn play(&mut self, line: Line) -> Result<(), Stop> {
        if self.due[0].is_some() && !self.overtakes(line) {
            let [due, next] = self.due;
            self.due = [next, None];
            return self.compare(due, line);
        }
        match line {
            Line::Call(call) => self.call(call),
            Line::Access { side, .. } => self.access(side, line),
            Line::Answer { .. } | Line::Header => self.compare(None, line),
        }
    }

    /// The line is the one that was due.
    fn compare(&self, due: Option<Line>, line: Line) -> Result<(), Stop> {
        match due == Some(line) || self.overlooks(due, line) {
            true => Ok(()),
            false => Err(Stop::Differs(due)),
        }
    }

    /// Runs a call; a page that it adds is told at once, and what it brings is due.
    fn call(&mut self, call: LoggedCall) -> Result<(), Stop> {
        if self.past_lent(call) {
            return Err(Stop::NotLent);
        }
        let pages = self.world.domain.pages;
        let mut stepped = self.world.step(call.step(FRAMES));
        if self.world.domain.pages > pages && !self.has(ReplayFault::NoTell) {
            self.world.step(Step::Tell(self.world.domain.words()));
        }
        if self.makes_access(call, stepped.next) {
            stepped = self.world.step(Step::Access(Side::Guest));
        }
        self.due = lines(&stepped.events);
        if matches!(call, LoggedCall::Mask(_)) && self.has(ReplayFault::MaskUndue) {
            self.due = [self.due[1].or(self.due[0]), None];
        }
        Ok(())
    }

    /// Whether an expand passes its refusals and adds a page past those lent.
    fn past_lent(&self, call: LoggedCall) -> bool {
        let LoggedCall::ExpandArray { frame } = call else {
            return false;
        };
        let mut after = self.world.domain;
        let model = &self.world.model;
        model.expand_array(&mut after, frame.into(), FRAMES);
        let before = &self.world.domain;
        let adds = after.pages > before.pages || self.has(ReplayFault::LentBeforeRefusals);
        adds && before.words() + u64::from(PAGE_WORDS) > self.words_lent()
    }

    /// Makes the access of the side's call under way; the line must be its line, and the answer
    /// that it brings is due.
    fn access(&mut self, side: Side, line: Line) -> Result<(), Stop> {
        if self.world.due(side).is_none() {
            return self.compare(None, line);
        }
        let stepped = self.world.step(Step::Access(side));
        let [made, answer] = lines(&stepped.events);
        self.due = [answer, None];
        self.compare(made, line)
    }
}

/// The lines of a step's events.
fn lines(events: &Events) -> [Option<Line>; 2] {
    let mut lines = events.iter().filter_map(Line::of);
    [lines.next(), lines.next()]
}
