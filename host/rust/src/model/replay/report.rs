//! What a replay says of a log.

use crate::model::log::Line;

/// Lines are numbered from 1, the header included.
#[derive(Clone, Copy, Debug, PartialEq, Eq)]
pub enum Report {
    /// Every line agrees: the number of lines.
    Agree(u64),
    /// The first line that differs; at the end, the line after the last.
    Differs {
        /// Its number.
        line: u64,
        /// The line that was due; none where nothing was.
        due: Option<Line>,
    },
    /// 22: the line is not of the form.
    Malformed(u64),
    /// 33: the expand of the line would add a page past those lent.
    NotLent(u64),
}

impl Report {
    /// The report's number: 0 where every line agrees, 1 where one differs, else the refusal's.
    pub fn kind(self) -> u32 {
        match self {
            Report::Agree(_) => 0,
            Report::Differs { .. } => 1,
            Report::Malformed(_) => 22,
            Report::NotLent(_) => 33,
        }
    }
}
