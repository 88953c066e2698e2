//! Small rules of the replay that a seeded fault can change.

use super::{Replay, Report, Stop};
use crate::model::domain::PAGE_WORDS;
use crate::model::log::{Line, LoggedCall};
use crate::model::machine::Side;
use crate::model::{Faults, Model, Next};

/// A single fault; `None` is the rules as written.
#[derive(Clone, Copy, Debug, Default, PartialEq, Eq)]
#[allow(missing_docs)]
pub enum ReplayFault {
    #[default]
    None,
    NeverDiffers,
    IgnoresEnd,
    UnderWayDue,
    LentFirst,
    LentBeforeDue,
    LentBeforeRefusals,
    PartPage,
    DifferenceFirst,
    NoTell,
    MaskUndue,
    WordSeen,
    AnswerPort,
    StrayAnswer,
    SecondHeader,
    LastNewline,
    ClearMaskDue,
    ServiceFirst,
    ClearMaskDone,
    PlainCas,
}

impl ReplayFault {
    /// Every fault in words.
    pub const ALL: [(ReplayFault, &'static str); 19] = [
        (ReplayFault::NeverDiffers, "no line differs"),
        (ReplayFault::IgnoresEnd, "what is due at the end is ignored"),
        (
            ReplayFault::UnderWayDue,
            "a call under way at the end is due",
        ),
        (ReplayFault::LentFirst, "33 wins over an earlier difference"),
        (
            ReplayFault::LentBeforeDue,
            "33 wins over what is due before it",
        ),
        (
            ReplayFault::LentBeforeRefusals,
            "33 comes before 15, 10, 13, 11",
        ),
        (ReplayFault::PartPage, "a part of a page lent is a page"),
        (
            ReplayFault::DifferenceFirst,
            "22 loses to what is due on its line",
        ),
        (ReplayFault::NoTell, "no tell after an expand"),
        (ReplayFault::MaskUndue, "a mask's access is not due"),
        (ReplayFault::WordSeen, "words seen are not compared"),
        (ReplayFault::AnswerPort, "ports of answers are not compared"),
        (ReplayFault::StrayAnswer, "an answer that is not due agrees"),
        (ReplayFault::SecondHeader, "a second header agrees"),
        (
            ReplayFault::LastNewline,
            "a last line without its newline is ignored",
        ),
        (
            ReplayFault::ClearMaskDue,
            "a clear_mask's access is due as a mask's is",
        ),
        (
            ReplayFault::ServiceFirst,
            "a service's access comes before a clear_mask's",
        ),
        (ReplayFault::ClearMaskDone, "0 where a clear_mask gives 35"),
        (
            ReplayFault::PlainCas,
            "a second cas follows the first at once",
        ),
    ];

    /// The rules that the calls are run by.
    pub(super) fn model(self) -> Model {
        Model::new(match self {
            ReplayFault::ServiceFirst => Faults::DueOfService,
            ReplayFault::ClearMaskDone => Faults::ClearLostDone,
            ReplayFault::PlainCas => Faults::BusyNever,
            _ => Faults::None,
        })
    }
}

/// The report on a whole log by rules with a fault.
pub fn faulty_replay(fault: ReplayFault, entries: usize, words: usize, text: &[u8]) -> Report {
    let report = |fault| {
        let mut replay = Replay::faulty(fault, entries, words);
        replay.feed(text);
        replay.report()
    };
    if fault != ReplayFault::LentFirst {
        return report(fault);
    }
    match (report(ReplayFault::None), report(ReplayFault::NeverDiffers)) {
        (Report::Differs { .. }, Report::NotLent(line)) => Report::NotLent(line),
        (right, _) => right,
    }
}

impl Replay {
    pub(super) fn has(&self, fault: ReplayFault) -> bool {
        self.fault == fault
    }

    /// Whether a call's first access is made with its line: only a mask's is, in its step.
    pub(super) fn makes_access(&self, call: LoggedCall, next: Next) -> bool {
        let clears = matches!((call, next), (LoggedCall::ClearMask(_), Next::Access(_)));
        clears && self.has(ReplayFault::ClearMaskDue)
    }

    /// The line still due at the end.
    pub(super) fn due_at_end(&self) -> Option<Line> {
        match self.fault {
            ReplayFault::NeverDiffers | ReplayFault::IgnoresEnd => None,
            ReplayFault::UnderWayDue => self.due[0].or_else(|| self.under_way()),
            _ => self.due[0],
        }
    }

    /// The access of a call under way, as if its word seen were 0.
    fn under_way(&self) -> Option<Line> {
        let side = [Side::Hypervisor, Side::Guest];
        side.into_iter().find_map(|side| {
            let (_, access) = self.world.due(side)?;
            let seen = Some(0);
            Some(Line::Access { side, access, seen })
        })
    }

    /// How the replay stops at a line that is not of the form: 22, whatever is due.
    pub(super) fn malformed(&self) -> Stop {
        match self.due[0] {
            Some(due) if self.has(ReplayFault::DifferenceFirst) => Stop::Differs(Some(due)),
            _ => Stop::Malformed,
        }
    }

    /// Whether a line is played before what is due: none is.
    pub(super) fn overtakes(&self, line: Line) -> bool {
        let Line::Call(call @ LoggedCall::ExpandArray { .. }) = line else {
            return false;
        };
        self.has(ReplayFault::LentBeforeDue) && self.past_lent(call)
    }

    /// Whether a line agrees that is not the one due: none does.
    pub(super) fn overlooks(&self, due: Option<Line>, line: Line) -> bool {
        match (self.fault, due, line) {
            (ReplayFault::NeverDiffers, ..) => true,
            (ReplayFault::WordSeen, Some(due), _) => unseen(due) == unseen(line),
            (ReplayFault::AnswerPort, Some(due), _) => portless(due) == portless(line),
            (ReplayFault::StrayAnswer, None, Line::Answer { .. }) => true,
            (ReplayFault::SecondHeader, None, Line::Header) => true,
            _ => false,
        }
    }

    /// The words lent to whole pages.
    pub(super) fn words_lent(&self) -> u64 {
        let words = self.world.memory.words.len() as u64;
        match self.fault {
            ReplayFault::PartPage => words.next_multiple_of(PAGE_WORDS.into()),
            _ => words,
        }
    }
}

/// The line with a word seen of 0.
fn unseen(line: Line) -> Line {
    match line {
        Line::Access { side, access, .. } => Line::Access {
            side,
            access,
            seen: None,
        },
        other => other,
    }
}

/// The line without an answer's port.
fn portless(line: Line) -> Line {
    match line {
        Line::Answer { side, number, .. } => Line::Answer {
            side,
            number,
            port: None,
        },
        other => other,
    }
}
