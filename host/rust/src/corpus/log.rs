//! The text of a log and where its lines end.

use crate::model::log::Line;
use std::io::Write;
use std::ops::Range;

/// A log's text, split at its newlines; a last line may lack its own.
#[derive(Clone, Debug, Default)]
pub struct Log {
    text: Vec<u8>,
    ends: Vec<usize>,
}

impl Log {
    /// The log that a text is.
    pub fn of(text: Vec<u8>) -> Self {
        let mut ends = Vec::new();
        for line in text.split_inclusive(|byte| *byte == b'\n') {
            ends.push(ends.last().unwrap_or(&0) + line.len());
        }
        Log { text, ends }
    }

    /// Writes a line behind the last.
    pub fn push(&mut self, line: Line) {
        writeln!(self.text, "{line}").expect("a vector takes every line");
        self.ends.push(self.text.len());
    }

    /// The bytes.
    pub fn text(&self) -> &[u8] {
        &self.text
    }

    /// Number of lines.
    pub fn lines(&self) -> usize {
        self.ends.len()
    }

    /// Where line `at`, counted from 0, stands in the text with its newline; behind the last line
    /// is an empty one.
    pub fn range(&self, at: usize) -> Range<usize> {
        let start = |at: usize| match at {
            0 => 0,
            _ => self.ends.get(at - 1).copied().unwrap_or(self.text.len()),
        };
        start(at)..start(at + 1)
    }

    /// Line `at` with its newline.
    pub fn line(&self, at: usize) -> &[u8] {
        &self.text[self.range(at)]
    }

    /// Where the fields of line `at` stand, the last without the newline.
    pub fn fields(&self, at: usize) -> Vec<Range<usize>> {
        let Range { mut start, end } = self.range(at);
        let newline = usize::from(self.text[start..end].ends_with(b"\n"));
        let fields = self.text[start..end - newline].split(|byte| *byte == b'\t');
        let mut ranges = Vec::with_capacity(6);
        for field in fields {
            ranges.push(start..start + field.len());
            start += field.len() + 1;
        }
        ranges
    }

    /// The text with `bytes` in place of a range.
    pub fn with(&self, range: Range<usize>, bytes: &[u8]) -> Vec<u8> {
        [&self.text[..range.start], bytes, &self.text[range.end..]].concat()
    }
}
