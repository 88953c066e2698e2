//! Logs played by the program and by the model, and what they met.

use super::program::Program;
use super::text::text;
use crate::LENT;
use evtchn_fifo_host::corpus::cases::Damaged;
use evtchn_fifo_host::corpus::coverage::Coverage;
use evtchn_fifo_host::corpus::damage::DAMAGES;
use evtchn_fifo_host::corpus::reasons::reason;
use evtchn_fifo_host::corpus::Case;
use evtchn_fifo_host::model::replay::{self, Replay};
use evtchn_fifo_host::report::Report;
use std::time::Instant;

/// Logs that a run plays at least.
const LOGS: u64 = 4_000;
/// How often everything must be met.
const WANTED: u64 = 20;
/// One log in so many is given as a file.
const FILES: usize = 10;
/// Most characters of a differing log that are shown.
const SHOWN: usize = 20_000;

/// A log, and what the program printed of it.
pub struct Played {
    /// Where it comes from.
    pub name: String,
    /// The log.
    pub case: Case,
    /// What the program printed.
    pub printed: Vec<u8>,
}

/// The logs played so far.
pub struct Campaign<'a> {
    program: &'a Program,
    begun: Instant,
    met: Coverage,
    played: Vec<Played>,
    /// Number of logs on which both differ, and the first of them in words.
    differing: (u64, Option<String>),
}

impl<'a> Campaign<'a> {
    /// No log is played.
    pub fn new(program: &'a Program) -> Self {
        Campaign {
            program,
            begun: Instant::now(),
            met: Coverage::default(),
            played: Vec::new(),
            differing: (0, None),
        }
    }

    /// A good log with the damages `which`. Where none is among them, its lines that agree count.
    pub fn play_damaged(&mut self, name: &str, mut damaged: Damaged, which: fn(&str) -> bool) {
        let damages = DAMAGES.iter().enumerate();
        for (at, damage) in damages.filter(|(_, damage)| which(damage.name)) {
            let name = format!("{name}, damage: {}", damage.name);
            let report = self.play(name, Some(at), damaged.case(at).text);
            if at == 0 {
                let lines = &damaged.recorder.lines;
                self.met.note_lines(&lines[..agreed(report)]);
            }
        }
    }

    /// One log by both.
    pub fn play(&mut self, name: String, damage: Option<usize>, text: Vec<u8>) -> replay::Report {
        let case = Case { shape: LENT, text };
        let mut model = Replay::start(LENT.entries, LENT.words);
        model.feed(&case.text);
        let report = model.report();
        self.met.note(damage, report, reason(&case, &model));
        let printed = match self.played.len() % FILES {
            0 => self.program.play_file(&case.text),
            _ => self.program.play(&case.text),
        };
        let printed = printed.unwrap_or_else(String::into_bytes);
        let played = Played {
            name,
            case,
            printed,
        };
        self.compare(&played, report);
        self.played.push(played);
        report
    }

    fn compare(&mut self, played: &Played, report: replay::Report) {
        let due = text(&played.case, report);
        if played.printed != due.as_bytes() {
            let (number, first) = &mut self.differing;
            *number += 1;
            first.get_or_insert_with(|| told(played, &due));
        }
    }

    /// Every log, and everything that was met.
    pub fn judge(&self, report: &mut Report) {
        let logs = self.played.len() as u64;
        let (differing, first) = &self.differing;
        (0..logs).for_each(|at| report.count(at >= *differing));
        if let Some(first) = first {
            println!("{differing} logs differ, the first:\n{first}");
        }
        for (name, times) in self.met.counts() {
            let passed = match never(&name) {
                true => times == 0,
                false => times >= WANTED,
            };
            report.count(passed);
            let mark = if passed { "" } else { "FAILED" };
            println!("{}", format!("{name:<54} {times:>9} {mark}").trim_end());
        }
        let seconds = self.begun.elapsed().as_secs_f64();
        report.check("logs played by the program", || match logs {
            LOGS.. => Ok(format!("{logs} in {seconds:.1} s")),
            _ => Err(format!("{logs}, wanted {LOGS}")),
        });
    }

    /// Every log played.
    pub fn played(&self) -> &[Played] {
        &self.played
    }
}

/// What no log can meet where 128 pages and an entry for every port are lent: report 33, and an
/// answer 14.
fn never(name: &str) -> bool {
    name.ends_with("33") || name.ends_with("X answer 14")
}

/// The number of lines that agree.
fn agreed(report: replay::Report) -> usize {
    match report {
        replay::Report::Agree(lines) => lines as usize,
        replay::Report::Differs { line, .. }
        | replay::Report::Malformed(line)
        | replay::Report::NotLent(line) => line as usize - 1,
    }
}

/// What both say, and the log.
fn told(played: &Played, due: &str) -> String {
    let printed = String::from_utf8_lossy(&played.printed);
    let log = played.case.text.escape_ascii().to_string();
    let log: String = log.replace("\\n", "\\n\n").chars().take(SHOWN).collect();
    let name = &played.name;
    format!("{name}\nprogram:\n{printed}\nmodel:\n{due}\nlog:\n{log}")
}
