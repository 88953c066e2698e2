//! Damage to single bytes.

use crate::corpus::log::Log;
use crate::random::Random;
use std::ops::Range;

/// Bytes that lines are made of, and some that stand beside them.
const ALPHABET: &[u8] = b"\t\n-0123456789ABCDEFGXabcdefhilmnoprstuvwy_ \r./:@`\0\xFF";

/// A byte of the log's text, mostly of its last lines: damage there leaves most lines to be played.
fn place(random: &mut Random, log: &Log) -> usize {
    let range = log.range(line(random, log));
    range.start + random.below(range.len() as u64) as usize
}

/// A line of the log.
pub fn line(random: &mut Random, log: &Log) -> usize {
    let lines = log.lines() as u64;
    let any = random.below(lines);
    let other = random.below(lines);
    any.max(other) as usize
}

fn byte(random: &mut Random) -> u8 {
    match random.once_in(4) {
        true => random.word() as u8,
        false => random.pick(ALPHABET),
    }
}

fn one(place: usize) -> Range<usize> {
    place..place + 1
}

/// Another byte in place of one, often a digit in place of a digit.
pub fn changed(random: &mut Random, log: &Log) -> Vec<u8> {
    let place = place(random, log);
    let byte = match log.text()[place] {
        b'0'..=b'9' if random.once_in(2) => random.pick(b"0123456789"),
        _ => byte(random),
    };
    log.with(one(place), &[byte])
}

/// A byte less.
pub fn dropped(random: &mut Random, log: &Log) -> Vec<u8> {
    log.with(one(place(random, log)), &[])
}

/// A byte more, at times one that stands there already.
pub fn inserted(random: &mut Random, log: &Log) -> Vec<u8> {
    let place = place(random, log);
    let byte = match random.once_in(3) {
        true => log.text()[place],
        false => byte(random),
    };
    log.with(place..place, &[byte])
}

/// Byte 0 or 255, more or in place of one.
pub fn odd(random: &mut Random, log: &Log) -> Vec<u8> {
    let place = place(random, log);
    let end = place + random.below(2) as usize;
    log.with(place..end, &[random.pick(&[0, 255])])
}

/// A carriage return, mostly before a newline.
pub fn carriage_return(random: &mut Random, log: &Log) -> Vec<u8> {
    let place = match random.once_in(4) {
        true => place(random, log),
        false => log.range(line(random, log)).end - 1,
    };
    log.with(place..place, b"\r")
}

/// A space, mostly in place of a tab.
pub fn space(random: &mut Random, log: &Log) -> Vec<u8> {
    let place = place(random, log);
    let rest = log.text()[place..].iter();
    match rest.clone().position(|byte| *byte == b'\t') {
        Some(tab) if !random.once_in(4) => log.with(one(place + tab), b" "),
        _ => log.with(place..place, b" "),
    }
}

/// The text up to a byte inside a line.
pub fn cut(random: &mut Random, log: &Log) -> Vec<u8> {
    let range = log.range(line(random, log));
    let inside = 1 + random.below((range.len() as u64 - 1).max(1)) as usize;
    log.text()[..range.start + inside].to_vec()
}

/// The text, or that of its first lines, without the last newline.
pub fn last_newline(random: &mut Random, log: &Log) -> Vec<u8> {
    let last = match random.once_in(2) {
        true => log.lines() - 1,
        false => line(random, log),
    };
    log.text()[..log.range(last).end - 1].to_vec()
}
