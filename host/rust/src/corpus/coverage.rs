//! Counts of what the logs of a run met.

use super::damage::DAMAGES;
use super::kinds::{kind, KINDS};
use super::moments::{UnderWay, MOMENTS};
use super::reasons::{Reason, REASONS};
use crate::model::log::Line;
use crate::model::replay::Report;

/// Numbers of reports, in the order of their counts.
const REPORTS: [u32; 4] = [0, 1, 22, 33];

/// What a run met.
#[derive(Clone, Debug)]
pub struct Coverage {
    /// Lines of good logs, by kind.
    kinds: [u64; KINDS.len()],
    moments: Vec<u64>,
    reasons: Vec<u64>,
    reports: [u64; REPORTS.len()],
    /// Reports on the logs of each damage.
    damages: [[u64; REPORTS.len()]; DAMAGES.len()],
}

impl Default for Coverage {
    fn default() -> Self {
        Coverage {
            kinds: [0; KINDS.len()],
            moments: vec![0; MOMENTS.len()],
            reasons: vec![0; REASONS.len()],
            reports: [0; REPORTS.len()],
            damages: [[0; REPORTS.len()]; DAMAGES.len()],
        }
    }
}

impl Coverage {
    /// Counts the lines of a good log.
    pub fn note_lines(&mut self, lines: &[Line]) {
        let mut under_way = UnderWay::default();
        for line in lines {
            if let Some(kind) = kind(line) {
                self.kinds[kind] += 1;
            }
            if let Some(moment) = under_way.note(line) {
                self.moments[moment as usize] += 1;
            }
        }
    }

    /// Counts a log with a damage of the table, or one beside it.
    pub fn note(&mut self, damage: Option<usize>, report: Report, reason: Reason) {
        self.reasons[reason as usize] += 1;
        let Some(number) = REPORTS.iter().position(|kind| *kind == report.kind()) else {
            return;
        };
        self.reports[number] += 1;
        if let Some(damage) = damage {
            self.damages[damage][number] += 1;
        }
    }

    /// Everything that logs can meet, with how often it was.
    pub fn counts(&self) -> Vec<(String, u64)> {
        let mut counts = Vec::new();
        for (kind, times) in KINDS.iter().zip(self.kinds) {
            counts.push((format!("line of a good log: {kind}"), times));
        }
        for ((_, moment), times) in MOMENTS.iter().zip(&self.moments) {
            counts.push((format!("in a good log: {moment}"), *times));
        }
        for (number, times) in REPORTS.iter().zip(self.reports) {
            counts.push((format!("report {number}"), times));
        }
        for ((_, reason), times) in REASONS.iter().zip(&self.reasons) {
            counts.push((reason.to_string(), *times));
        }
        for (damage, reports) in DAMAGES.iter().zip(&self.damages) {
            for (number, times) in REPORTS.iter().zip(reports) {
                if damage.gives.contains(number) {
                    counts.push((format!("damage: {}: report {number}", damage.name), *times));
                }
            }
        }
        counts
    }
}
