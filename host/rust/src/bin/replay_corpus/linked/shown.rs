//! What a replay shows of a log: its report, where it stopped, the line there, and what was due.

use evtchn_fifo_host::boundary::replay::{Lent, Position, LINE_SIZE};
use evtchn_fifo_host::corpus::Case;
use evtchn_fifo_host::model::log::Line;
use evtchn_fifo_host::model::replay::Report;

/// The number of the report on a line that is not of the form.
const MALFORMED: u32 = 22;

/// It is compared as a whole.
#[derive(PartialEq, Eq)]
pub struct Shown {
    /// The report's kind, and the number of lines or of the line.
    report: (u32, u64),
    lines: u64,
    stop: u32,
    line: Vec<u8>,
    /// None where a line is not of the form: no line is then said to be due.
    due: Option<Due>,
}

/// What is due: a line with its newline, empty where none is, and 1 where it is a mask's access.
pub type Due = (Vec<u8>, u32);

impl Shown {
    /// What the library shows.
    pub fn of_library(lent: &Lent<'_>, position: Position) -> Self {
        let report = position.report();
        let due = || due_by_library(lent, position);
        Shown {
            report: (report.kind, report.line),
            lines: position.lines,
            stop: position.stop,
            line: lent.kept(position).to_vec(),
            due: (report.kind != MALFORMED).then(due),
        }
    }

    /// What is to be shown where the model reports so.
    pub fn of_model(case: &Case, report: Report) -> Self {
        let (number, due) = match report {
            Report::Agree(lines) => (lines, None),
            Report::Differs { line, due } => (line, due),
            Report::Malformed(line) | Report::NotLent(line) => (line, None),
        };
        let agrees = matches!(report, Report::Agree(_));
        let line = match agrees {
            true => &[],
            false => case.line(number),
        };
        let stops = line.ends_with(b"\n");
        let due = (report.kind() != MALFORMED).then(|| due_by_model(due, stops));
        Shown {
            report: (report.kind(), number),
            lines: number - u64::from(!agrees),
            stop: if stops { report.kind() } else { 0 },
            line: line[..line.len().min(LINE_SIZE)].to_vec(),
            due,
        }
    }

    /// Both in words, where they differ.
    pub fn expect(&self, model: &Shown) -> Result<(), String> {
        if self == model {
            return Ok(());
        }
        let (library, model) = (self.words(), model.words());
        Err(format!("library {library}\nmodel   {model}"))
    }

    fn words(&self) -> String {
        let (kind, number) = self.report;
        let (lines, stop, line) = (self.lines, self.stop, self.line.escape_ascii());
        let due = self.due.as_ref().map_or("not said".to_string(), due_words);
        format!("report {kind}, {number}; {lines} lines, stop {stop}; line \"{line}\"; due: {due}")
    }
}

/// What is due, in words.
pub fn due_words((line, mask): &Due) -> String {
    format!("\"{}\", mask {mask}", line.escape_ascii())
}

/// What the library says to be due.
pub fn due_by_library(lent: &Lent<'_>, position: Position) -> Due {
    (lent.due(position).to_vec(), position.mask)
}

/// The model's line that is due. An access is a mask's, but for the one at which a replay stops:
/// that one is no longer due, nor an answer after it.
pub fn due_by_model(due: Option<Line>, stops: bool) -> Due {
    let masks = !stops && matches!(due, Some(Line::Access { .. }));
    let line = due.map_or(String::new(), |due| format!("{due}\n"));
    (line.into_bytes(), u32::from(masks))
}
