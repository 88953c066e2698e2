//! Two damages at once, and lines made of the form's words.

use super::{bytes, lines};
use crate::corpus::log::Log;
use crate::random::Random;

const WORDS: [&[u8]; 35] = [
    b"X",
    b"G",
    b"call",
    b"answer",
    b"read",
    b"store",
    b"or",
    b"and",
    b"swap",
    b"cas",
    b"init_control",
    b"expand_array",
    b"bind",
    b"close",
    b"set_priority",
    b"raise",
    b"unmask",
    b"service",
    b"mask",
    b"clear_mask",
    b"ready",
    b"w5",
    b"h7",
    b"w",
    b"0",
    b"5",
    b"19",
    b"15",
    b"1024",
    b"00000000",
    b"80000000",
    b"A0000005",
    b"-",
    b"-",
    b"-",
];

type Text = fn(&mut Random, &Log) -> Vec<u8>;

/// Damages that a damaged log can take, too.
const SINGLE: [Text; 16] = [
    bytes::changed,
    bytes::dropped,
    bytes::inserted,
    bytes::odd,
    bytes::carriage_return,
    bytes::cut,
    bytes::last_newline,
    lines::cut,
    lines::doubled,
    lines::dropped,
    lines::swapped,
    lines::repeated,
    lines::inserted,
    lines::empty,
    lines::long,
    lines::expand,
];

/// One damage upon another.
pub fn two(random: &mut Random, log: &Log) -> Vec<u8> {
    let first = Log::of(random.pick(&SINGLE)(random, log));
    match first.lines() {
        0 => Vec::new(),
        _ if random.once_in(6) => lines::expand(random, &first),
        _ => random.pick(&SINGLE)(random, &first),
    }
}

/// A line of six of the form's words: mostly each of a kind that can stand there.
pub fn words(random: &mut Random, log: &Log) -> Vec<u8> {
    let mut line = Vec::new();
    let places = [0..2, 2..10, 10..27, 24..35, 24..35, 24..35];
    for place in places {
        let word = match random.once_in(12) {
            true => random.pick(&WORDS),
            false => random.pick(&WORDS[place]),
        };
        line.extend_from_slice(word);
        line.push(b'\t');
    }
    line.pop();
    line.push(b'\n');
    let at = bytes::line(random, log);
    let start = log.range(at + 1).start;
    log.with(start..start, &line)
}
