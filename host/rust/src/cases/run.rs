//! A run of the model with what it prints.

use crate::model::log::{self, Line, LoggedCall};
use crate::model::{Entry, Event, Model, Side, Step, World};

/// Most accesses of a call.
const MOST: usize = 12;

/// A world and its history.
pub struct Run {
    /// The world.
    pub world: World,
    events: Vec<Event>,
    /// The log's lines, with those of calls.
    lines: Vec<Line>,
}

impl Run {
    /// Fresh records and memory.
    pub fn fresh(words: usize) -> Self {
        Run {
            world: World::fresh(Model::default(), words, words),
            events: Vec::new(),
            lines: vec![Line::Header],
        }
    }

    /// The log without call lines.
    pub fn log(&self) -> String {
        log::log(&self.events)
    }

    /// The log with a line before what each call's start brings.
    pub fn log_with_calls(&self) -> String {
        self.lines.iter().map(|line| format!("{line}\n")).collect()
    }

    /// The title, the log, and the counts of its answers.
    pub fn print(&self, title: &str) -> String {
        let count = |event: &Event| match event {
            Event::Answered(_, _, count) => Some(format!("\t{count}")),
            Event::Accessed(_) | Event::Told(_) => None,
        };
        let counts: String = self.events.iter().filter_map(count).collect();
        format!("{title}\n{}counts{counts}\n", self.log())
    }

    /// One step.
    pub fn step(&mut self, step: Step) -> &mut Self {
        let stepped = self.world.step(step);
        self.lines.extend(LoggedCall::of(step).map(Line::Call));
        self.lines
            .extend(stepped.events.iter().filter_map(Line::of));
        self.events.extend_from_slice(&stepped.events);
        self
    }

    /// Steps one after the other.
    pub fn steps(&mut self, steps: &[Step]) -> &mut Self {
        for step in steps {
            self.step(*step);
        }
        self
    }

    /// Accesses of a side until its answer.
    pub fn finish(&mut self, side: Side) -> &mut Self {
        for _ in 0..MOST {
            if self.world.due(side).is_some() {
                self.step(Step::Access(side));
            }
        }
        self
    }

    /// Whole calls of the hypervisor.
    pub fn calls(&mut self, starts: &[Step]) -> &mut Self {
        for start in starts {
            self.step(*start).finish(Side::Hypervisor);
        }
        self
    }

    /// A whole service.
    pub fn service(&mut self) -> &mut Self {
        self.step(Step::Service).finish(Side::Guest)
    }

    /// A whole clear_mask, with no service under way.
    pub fn clear_mask(&mut self, port: u64) -> &mut Self {
        self.step(Step::ClearMask(port)).finish(Side::Guest)
    }

    /// Accesses of a side, with their replies.
    pub fn accesses(&mut self, side: Side, times: usize) -> &mut Self {
        for _ in 0..times {
            self.step(Step::Access(side));
        }
        self
    }

    /// Replies to a side's call with any words.
    pub fn replies(&mut self, side: Side, words: &[u32]) -> &mut Self {
        for word in words {
            self.step(Step::HandBack(side, *word));
        }
        self
    }

    /// The hypervisor's access with a ledger of one entry in its reply, which 14 refuses; then the
    /// same word with the whole ledger.
    pub fn access_twice(&mut self) -> &mut Self {
        let side = Side::Hypervisor;
        let ledger = std::mem::replace(&mut self.world.ledger, Entry::ledger(1));
        self.step(Step::Access(side));
        self.world.ledger = ledger;
        let refused = self.events.iter().rev().find_map(|event| match event {
            Event::Accessed(accessed) => Some(accessed.seen),
            _ => None,
        });
        self.replies(side, &[refused.unwrap_or(0)])
    }
}

/// init_control.
pub fn init(vcpu: u64, frame: u64, frames: u64, offset: u64) -> Step {
    Step::InitControl {
        vcpu,
        frame,
        frames,
        offset,
    }
}

/// expand_array.
pub fn expand(frame: u64, frames: u64) -> Step {
    Step::ExpandArray { frame, frames }
}

/// set_priority.
pub fn set_priority(port: u64, priority: u64) -> Step {
    Step::SetPriority { port, priority }
}
