//! Any position over any records, ledger, words and text: the library returns, and from a position
//! that has stopped it changes nothing.

use super::buffers::Buffers;
use evtchn_fifo_host::boundary::records::{put_number, CLEAR_STAGE, GUEST_STAGE, OWNER, STAGE};
use evtchn_fifo_host::boundary::replay::{Lent, Position, LINE_SIZE};
use evtchn_fifo_host::corpus::lines;
use evtchn_fifo_host::crash;
use evtchn_fifo_host::guarded::{Edge, Guarded};
use evtchn_fifo_host::random::Random;

/// Pieces that are fed.
const PIECES: u64 = 200_000;
/// Lengths of a line that is read or due: those that fit, and some beyond.
const LENGTHS: [usize; 9] = [0, 0, 1, 11, 53, 63, 64, 65, usize::MAX];
const LINES: [u64; 5] = [0, 1, 7, u64::MAX - 1, u64::MAX];

/// Every piece.
pub fn run(seed: u64) -> Result<String, String> {
    crash::set_seed(seed);
    let mut random = Random::new(seed);
    let (mut buffers, mut text) = (Buffers::default(), Guarded::new(4096));
    for at in 0..PIECES {
        let words = random.pick(&[0, 1, 500, 1024, 2048]);
        let ledger_bytes = random.pick(&[0, 1, 2, 16, 17, 2048]);
        let mut lent = buffers.lend(&mut random, words, ledger_bytes);
        let position = position(&mut random, &mut lent);
        fill(&mut random, &mut text, &lent);
        let stopped = (position.stop != 0).then(|| parts(&lent));
        let after = lent.feed(position, text.bytes());
        let report = after.report();
        let changed =
            |before| (after, report.kind, parts(&lent)) != (position, position.stop, before);
        if stopped.is_some_and(changed) {
            return Err(format!("piece {at}: from {position:?} to {after:?}"));
        }
    }
    Ok(format!("{PIECES} pieces"))
}

/// A position; often calls are under way by their codes, and what is due is a line.
fn position(random: &mut Random, lent: &mut Lent<'_>) -> Position {
    if !random.once_in(4) {
        put_number(lent.domain, OWNER, random.below(6) as u32);
        put_number(lent.domain, STAGE, random.below(9) as u32);
        put_number(lent.guest, GUEST_STAGE, random.below(7) as u32);
        put_number(lent.guest, CLEAR_STAGE, random.below(4) as u32);
    }
    let mut due = random.pick(&LENGTHS);
    if random.once_in(3) {
        let line = format!("{}\n", lines::line(random));
        due = line.len();
        lent.due[..due].copy_from_slice(line.as_bytes());
    }
    Position {
        lines: random.pick(&LINES),
        line: random.pick(&LENGTHS),
        due,
        mask: random.pick(&[0, 1, 2, u32::MAX]),
        stop: random.pick(&[0, 0, 0, 0, 1, 22, 33, 7, u32::MAX]),
    }
}

/// A few lines, of the form or any bytes; at times what is due comes first. The last may be cut.
fn fill(random: &mut Random, text: &mut Guarded, lent: &Lent<'_>) {
    let mut bytes = Vec::new();
    if random.once_in(2) {
        let first = lent.due.split_inclusive(|byte| *byte == b'\n').next();
        bytes.extend_from_slice(first.unwrap_or(&[]));
    }
    for _ in 0..random.below(6) {
        match random.once_in(4) {
            true => bytes.extend((0..random.below(90)).map(|_| random.word() as u8)),
            false => bytes.extend_from_slice(lines::line(random).to_string().as_bytes()),
        }
        bytes.push(b'\n');
    }
    let length = bytes.len() - random.below(LINE_SIZE as u64).min(bytes.len() as u64) as usize;
    text.set(length, Edge::Last);
    text.bytes_mut().copy_from_slice(&bytes[..length]);
}

/// Everything that is lent.
fn parts(lent: &Lent<'_>) -> (Vec<u8>, Vec<u32>) {
    let bytes = [
        &lent.domain[..],
        lent.ledger,
        lent.guest,
        lent.line,
        lent.due,
    ]
    .concat();
    let words = [&*lent.words, lent.block].concat();
    (bytes, words)
}
