//! Why a report is what it is.

use super::cases::Case;
use crate::model::log::{read, Line};
use crate::model::replay::{Replay, Report};
use crate::model::{Op, Side};

macro_rules! reasons {
    ($($name:ident = $text:literal),* $(,)?) => {
        /// A reason.
        #[derive(Clone, Copy, Debug, PartialEq, Eq)]
        #[allow(missing_docs)]
        pub enum Reason { $($name),* }

        /// Every reason in words.
        pub const REASONS: &[(Reason, &str)] = &[$((Reason::$name, $text)),*];
    };
}

reasons! {
    Agrees = "agrees, no call under way",
    AgreesUnderWay = "agrees, a call under way at the end",
    NoHeader = "differs: the header is due",
    AccessDiffers = "differs: the access of a call under way",
    SeenDiffers = "differs: the word seen",
    MaskDue = "differs: a mask's access is due",
    MaskSeenDiffers = "differs: the word that a mask sees",
    NumberDiffers = "differs: an answer's number",
    PortDiffers = "differs: an answer's port",
    AnswerDue = "differs: an answer is due, another line comes",
    StrayAccess = "differs: an access of no call under way",
    StrayAnswer = "differs: an answer that is not due",
    SecondHeader = "differs: a second header",
    HeaderAtEnd = "differs at the end: the header is due",
    AnswerAtEnd = "differs at the end: an answer is due",
    MaskAtEnd = "differs at the end: a mask's access is due",
    Malformed = "22: a line, nothing due",
    MalformedDue = "22: a line, something due",
    Torn = "22: a last line without its newline, nothing due",
    TornDue = "22: a last line without its newline, something due",
    TornWhole = "22: a last line that lacks its newline alone",
    NotLent = "33",
}

/// The reason of a case's report, given the replay that made it.
pub fn reason(case: &Case, replay: &Replay) -> Reason {
    let report = replay.report();
    match report {
        Report::Agree(_) => {
            let sides = [Side::Hypervisor, Side::Guest];
            match sides
                .into_iter()
                .any(|side| replay.world().due(side).is_some())
            {
                true => Reason::AgreesUnderWay,
                false => Reason::Agrees,
            }
        }
        Report::Differs { line, due } => differs(case.line(line), due),
        Report::Malformed(line) => malformed(case.line(line), replay.due().is_some()),
        Report::NotLent(_) => Reason::NotLent,
    }
}

/// Why a line differs; an empty one stands for the end.
fn differs(bytes: &[u8], due: Option<Line>) -> Reason {
    let line = read(bytes.strip_suffix(b"\n").unwrap_or(bytes));
    match (due, line) {
        (Some(Line::Header), None) => Reason::HeaderAtEnd,
        (Some(Line::Header), Some(_)) => Reason::NoHeader,
        (Some(Line::Answer { .. }), None) => Reason::AnswerAtEnd,
        (Some(due @ Line::Answer { .. }), Some(line)) => answer_differs(due, line),
        (Some(_), None) => Reason::MaskAtEnd,
        (Some(due), Some(line)) => access_differs(due, line),
        (None, Some(Line::Access { .. })) => Reason::StrayAccess,
        (None, Some(Line::Header)) => Reason::SecondHeader,
        (None, _) => Reason::StrayAnswer,
    }
}

fn answer_differs(due: Line, line: Line) -> Reason {
    let parts = |line: Line| match line {
        Line::Answer { side, number, .. } => Some((side, number)),
        _ => None,
    };
    match (parts(due), parts(line)) {
        (_, None) => Reason::AnswerDue,
        (due, line) if due == line => Reason::PortDiffers,
        _ => Reason::NumberDiffers,
    }
}

fn access_differs(due: Line, line: Line) -> Reason {
    let parts = |line: Line| match line {
        Line::Access { side, access, .. } => Some((side, access)),
        _ => None,
    };
    let masks = parts(due)
        .is_some_and(|(side, access)| side == Side::Guest && matches!(access.op, Op::Or(_)));
    match (masks, parts(due) == parts(line)) {
        (false, true) => Reason::SeenDiffers,
        (false, false) => Reason::AccessDiffers,
        (true, true) => Reason::MaskSeenDiffers,
        (true, false) => Reason::MaskDue,
    }
}

fn malformed(bytes: &[u8], due: bool) -> Reason {
    match (bytes.ends_with(b"\n"), due) {
        (true, false) => Reason::Malformed,
        (true, true) => Reason::MalformedDue,
        _ if read(bytes).is_some() => Reason::TornWhole,
        (false, false) => Reason::Torn,
        (false, true) => Reason::TornDue,
    }
}
