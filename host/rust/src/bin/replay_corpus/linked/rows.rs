//! Counts of what was lent to the logs of a run, and of how they were cut.

use super::cuts::{Cut, CUTS};

/// A kind of what is lent: its name, and whether words and bytes of a ledger are of it.
type Kind = (&'static str, fn(usize, usize) -> bool);

const KINDS: [Kind; 11] = [
    ("no words", |words, _| words == 0),
    ("fewer words than a page", |words, _| {
        (1..1024).contains(&words)
    }),
    ("one page", |words, _| words == 1024),
    ("words beyond the last page", |words, _| words % 1024 != 0),
    ("two to eight pages", |words, _| {
        (2048..=8192).contains(&words)
    }),
    ("128 pages and more", |words, _| words >= 131_072),
    ("no ledger", |_, bytes| bytes == 0),
    ("a ledger of one byte", |_, bytes| bytes == 1),
    ("an odd byte behind the ledger's entries", |_, bytes| {
        bytes % 2 == 1
    }),
    ("a ledger of fewer entries than words", |words, bytes| {
        bytes > 1 && bytes / 2 < words
    }),
    ("a ledger with an entry for every word", |words, bytes| {
        words > 0 && bytes / 2 >= words
    }),
];

/// How often each was.
#[derive(Default)]
pub struct Rows {
    lent: [u64; KINDS.len()],
    cuts: [u64; CUTS.len()],
}

impl Rows {
    /// Counts a log.
    pub fn note(&mut self, words: usize, ledger_bytes: usize, cut: Cut) {
        for ((_, is), times) in KINDS.iter().zip(&mut self.lent) {
            *times += u64::from(is(words, ledger_bytes));
        }
        for (other, times) in CUTS.iter().zip(&mut self.cuts) {
            *times += u64::from(*other == cut);
        }
    }

    /// Everything, with how often it was.
    pub fn counts(&self) -> Vec<(String, u64)> {
        let lent = KINDS.iter().zip(self.lent);
        let lent = lent.map(|((name, _), times)| (format!("lent: {name}"), times));
        let cuts = CUTS.iter().zip(self.cuts);
        let cuts = cuts.map(|((name, _), times)| (format!("cut: {name}"), times));
        lent.chain(cuts).collect()
    }
}
