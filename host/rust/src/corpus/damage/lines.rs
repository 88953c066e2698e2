//! Damage to whole lines.

use super::bytes::line;
use crate::corpus::lines;
use crate::corpus::log::Log;
use crate::random::Random;

/// The header of a log.
const HEADER: &[u8] = b"accesses\t1\n";
/// First lines that are no header.
const OTHER_HEADERS: [&[u8]; 12] = [
    b"accesses\t2\n",
    b"accesses\t0\n",
    b"accesses\t10\n",
    b"accesses\t01\n",
    b"accesses\t\n",
    b"accesses\n",
    b"accesses\t1\t\n",
    b"accesses\t1\t-\t-\t-\t-\n",
    b"Accesses\t1\n",
    b"accesses 1\n",
    b"access\t1\n",
    b"X\taccesses\t1\t-\t-\t-\n",
];

/// The log with `bytes` before line `at`.
fn insert(log: &Log, at: usize, bytes: &[u8]) -> Vec<u8> {
    let start = log.range(at).start;
    log.with(start..start, bytes)
}

/// A place for a line, also behind the last.
fn gap(random: &mut Random, log: &Log) -> usize {
    line(random, log) + random.below(2) as usize
}

/// The text up to the end of a line, often a call line, or none of it.
pub fn cut(random: &mut Random, log: &Log) -> Vec<u8> {
    let lines = random.below(log.lines() as u64 + 1) as usize;
    let calls = |at: &usize| log.line(*at)[1..].starts_with(b"\tcall\t");
    let call = (lines..log.lines()).find(calls);
    let lines = match (random.below(16), call) {
        (0, _) => 0,
        (1..=8, Some(call)) => call + 1,
        _ => lines,
    };
    log.text()[..log.range(lines).start].to_vec()
}

/// A line twice.
pub fn doubled(random: &mut Random, log: &Log) -> Vec<u8> {
    let at = line(random, log);
    insert(log, at, log.line(at))
}

/// A line less.
pub fn dropped(random: &mut Random, log: &Log) -> Vec<u8> {
    log.with(log.range(line(random, log)), &[])
}

/// A line at another place.
pub fn moved(random: &mut Random, log: &Log) -> Vec<u8> {
    let (from, to) = (line(random, log), gap(random, log));
    let without = Log::of(log.with(log.range(from), &[]));
    insert(&without, to, log.line(from))
}

/// Two lines in each other's place, often neighbours.
pub fn swapped(random: &mut Random, log: &Log) -> Vec<u8> {
    let one = line(random, log);
    let other = match random.once_in(2) {
        true => one.saturating_sub(1),
        false => line(random, log),
    };
    let (one, other) = (one.min(other), one.max(other));
    let later = Log::of(log.with(log.range(other), log.line(one)));
    later.with(later.range(one), log.line(other))
}

/// A line of the log once more, elsewhere.
pub fn repeated(random: &mut Random, log: &Log) -> Vec<u8> {
    let (from, to) = (line(random, log), gap(random, log));
    insert(log, to, log.line(from))
}

/// Any line of the form.
pub fn inserted(random: &mut Random, log: &Log) -> Vec<u8> {
    let line = format!("{}\n", lines::line(random));
    insert(log, gap(random, log), line.as_bytes())
}

/// An empty line.
pub fn empty(random: &mut Random, log: &Log) -> Vec<u8> {
    insert(log, gap(random, log), b"\n")
}

/// A line that begins like one of the form and goes on, or one of a single byte repeated; its
/// lengths lie around those of the longest line, of 64 bytes, and far beyond.
pub fn long(random: &mut Random, log: &Log) -> Vec<u8> {
    let at = line(random, log);
    let range = log.range(at);
    let begun = match random.below(3) {
        0 => range.start,
        1 => range.start + random.below(range.len() as u64) as usize,
        _ => range.end - 1,
    };
    let wide = 48 + random.below(24) as usize;
    let length = random.pick(&[wide, wide, wide, 63, 64, 65, 70, 200, 5000]);
    let more = vec![random.pick(b"\t0-9AX "); length];
    let torn = at + 1 == log.lines() && random.once_in(2);
    match torn {
        true => log.with(begun..range.end, &more),
        false => log.with(begun..range.end - 1, &more),
    }
}

/// A first line that is no header.
pub fn other_header(random: &mut Random, log: &Log) -> Vec<u8> {
    log.with(log.range(0), random.pick(&OTHER_HEADERS))
}

/// A header between two lines, or behind the last.
pub fn second_header(random: &mut Random, log: &Log) -> Vec<u8> {
    insert(log, gap(random, log), HEADER)
}

/// The log without its header, or another line of the form in its place.
pub fn no_header(random: &mut Random, log: &Log) -> Vec<u8> {
    match random.once_in(2) {
        true => log.with(log.range(0), &[]),
        false => {
            let line = format!("{}\n", lines::line(random));
            log.with(log.range(0), line.as_bytes())
        }
    }
}

/// An expand that passes 11.
pub fn expand(random: &mut Random, log: &Log) -> Vec<u8> {
    let frame = random.pick(&[0, 5, 1023]);
    let line = format!("X\tcall\texpand_array\t-\t{frame}\t-\n");
    insert(log, gap(random, log), line.as_bytes())
}
