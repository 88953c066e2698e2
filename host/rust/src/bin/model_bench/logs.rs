//! A long good log: written to a file, and played from it in pieces by the library's functions and
//! by the model.

use evtchn_fifo_host::boundary::records::{DOMAIN_SIZE, GUEST_SIZE};
use evtchn_fifo_host::boundary::replay::{Lent, BLOCK_WORDS, LINE_SIZE};
use evtchn_fifo_host::corpus::busy::{record, SHAPE};
use evtchn_fifo_host::model::replay::{Replay, Report};
use evtchn_fifo_host::random::Random;
use std::fs;
use std::time::Instant;

/// Bytes of a piece.
const PIECE: usize = 1 << 16;
/// Times that each plays the log, in turn; the least time counts.
const ROUNDS: u32 = 10;

/// Writes a log of so many lines, or a few more.
pub fn write(path: &str, lines: usize) -> Result<String, String> {
    let recorder = record(&mut Random::new(1), lines);
    fs::write(path, recorder.log.text()).map_err(|error| format!("{path}: {error}"))?;
    Ok(format!("{} lines", recorder.lines.len()))
}

/// Lines per second of both, and the library's as a ratio to the model's.
pub fn play(path: &str) -> Result<String, String> {
    let text = fs::read(path).map_err(|error| format!("{path}: {error}"))?;
    let (mut library, mut model) = (0.0_f64, 0.0_f64);
    for _ in 0..ROUNDS {
        library = library.max(lines_per_second(by_library, &text)?);
        model = model.max(lines_per_second(by_model, &text)?);
    }
    let ratio = library / model;
    Ok(format!(
        "library {library:.0} model {model:.0} ratio {ratio:.2}"
    ))
}

/// One round: from the start of the replay to its report.
fn lines_per_second(play: fn(&[u8]) -> Result<u64, String>, text: &[u8]) -> Result<f64, String> {
    let begun = Instant::now();
    let lines = play(text)?;
    Ok(lines as f64 / begun.elapsed().as_secs_f64())
}

/// The number of lines of a log whose lines all agree.
fn by_library(text: &[u8]) -> Result<u64, String> {
    let mut ledger = vec![0; 2 * SHAPE.entries];
    let mut words = vec![0; SHAPE.words];
    let mut lent = Lent {
        domain: &mut [0; DOMAIN_SIZE],
        ledger: &mut ledger,
        guest: &mut [0; GUEST_SIZE],
        words: &mut words,
        block: &mut [0; BLOCK_WORDS],
        line: &mut [0; LINE_SIZE],
        due: &mut [0; LINE_SIZE],
    };
    let start = lent.start();
    let pieces = text.chunks(PIECE);
    let end = pieces.fold(start, |position, piece| lent.feed(position, piece));
    match end.report() {
        report if report.kind == 0 => Ok(report.line),
        other => Err(format!("the library reports {other:?}")),
    }
}

/// The same by the model.
fn by_model(text: &[u8]) -> Result<u64, String> {
    let mut replay = Replay::start(SHAPE.entries, SHAPE.words);
    text.chunks(PIECE).for_each(|piece| replay.feed(piece));
    match replay.report() {
        Report::Agree(lines) => Ok(lines),
        other => Err(format!("the model reports {other:?}")),
    }
}
