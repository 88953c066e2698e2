//! The text that a report is printed as.

use evtchn_fifo_host::corpus::Case;
use evtchn_fifo_host::model::replay::Report;

/// Every line that the program is to print. A line that differs is of the form, so that it is
/// printed as it stands.
pub fn text(case: &Case, report: Report) -> String {
    match report {
        Report::Agree(lines) => format!("all agree, {lines} lines\n"),
        Report::Malformed(line) => {
            format!("line {line}: refused with 22 (not a line of the form)\n")
        }
        Report::NotLent(line) => {
            format!("line {line}: refused with 33 (an expand would add a page past those lent)\n")
        }
        Report::Differs { line, due } => {
            let has = logged(case.line(line));
            let due = due.map_or("(nothing)".to_string(), |due| due.to_string());
            format!("line {line} differs\nthe log has: {has}\nwhat was due: {due}\n")
        }
    }
}

/// A line of the log without its newline; an empty one stands for the end.
fn logged(line: &[u8]) -> String {
    match line {
        [] => "(the log ends)".to_string(),
        [line @ .., b'\n'] | line => String::from_utf8_lossy(line).into_owned(),
    }
}
