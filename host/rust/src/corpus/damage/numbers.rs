//! Damage to decimals, words and places.

use super::fields::{find, put, Holds};
use crate::corpus::lines;
use crate::corpus::log::Log;
use crate::model::log::place;
use crate::random::Random;
use std::ops::Range;

/// Decimals that are not below 2^32.
const TOO_LARGE: [&[u8]; 9] = [
    b"4294967296",
    b"4294967297",
    b"4294967301",
    b"9999999999",
    b"10000000000",
    b"18446744073709551616",
    b"18446744073709551621",
    b"340282366920938463463374607431768211461",
    b"42949672950",
];

/// A decimal of a line, also one behind a place's letter.
fn decimal(random: &mut Random, log: &Log) -> Option<Range<usize>> {
    let wanted = [Holds::Argument, Holds::Number, Holds::Port, Holds::Place];
    let field = find(random, log, &wanted, |field| field != b"ready")?;
    let letter = usize::from(!log.text()[field.start].is_ascii_digit());
    Some(field.start + letter..field.end)
}

/// A decimal of 2^32 or more.
pub fn too_large(random: &mut Random, log: &Log) -> Vec<u8> {
    put(log, decimal(random, log), random.pick(&TOO_LARGE))
}

/// The largest decimal of the form.
pub fn largest(random: &mut Random, log: &Log) -> Vec<u8> {
    put(log, decimal(random, log), b"4294967295")
}

/// Zeros before a decimal, or a sign.
pub fn leading_zero(random: &mut Random, log: &Log) -> Vec<u8> {
    let at = decimal(random, log).map(|decimal| decimal.start..decimal.start);
    let zeros: [&[u8]; 4] = [b"0", b"00", b"0000000000", b"+"];
    put(log, at, random.pick(&zeros))
}

/// Another decimal, often of the same length.
pub fn other_decimal(random: &mut Random, log: &Log) -> Vec<u8> {
    let number = match random.once_in(2) {
        true => random.below(24) as u32,
        false => lines::number(random),
    };
    put(log, decimal(random, log), number.to_string().as_bytes())
}

/// Another answer: its port where the log has one with a port, or its number.
pub fn other_answer(random: &mut Random, log: &Log) -> Vec<u8> {
    let port = find(random, log, &[Holds::Port], |_| true);
    let number = match port.is_some() {
        true => random.below(8) as u32,
        false => random.below(24) as u32,
    };
    let field = port.or_else(|| find(random, log, &[Holds::Number], |_| true));
    put(log, field, number.to_string().as_bytes())
}

/// A word's letters in lower case.
pub fn lower_case(random: &mut Random, log: &Log) -> Vec<u8> {
    let letters = |word: &[u8]| word.iter().any(u8::is_ascii_uppercase);
    let field = find(random, log, &[Holds::Word], letters);
    let word = field.clone().map_or(&[][..], |field| &log.text()[field]);
    put(log, field, &word.to_ascii_lowercase())
}

/// A word with a digit less or one more.
pub fn digits(random: &mut Random, log: &Log) -> Vec<u8> {
    let field = find(random, log, &[Holds::Word], |_| true);
    let word = field.clone().map_or(&[][..], |field| &log.text()[field]);
    let other = match random.below(4) {
        0 => word.get(1..).unwrap_or(&[]).to_vec(),
        1 => word.get(..7).unwrap_or(&[]).to_vec(),
        2 => [b"0", word].concat(),
        _ => [word, b"0"].concat(),
    };
    put(log, field, &other)
}

/// Another word.
pub fn other_word(random: &mut Random, log: &Log) -> Vec<u8> {
    let field = find(random, log, &[Holds::Word], |_| true);
    let word = format!("{:08X}", lines::word(random));
    put(log, field, word.as_bytes())
}

/// Another place.
pub fn other_place(random: &mut Random, log: &Log) -> Vec<u8> {
    let field = find(random, log, &[Holds::Place], |_| true);
    let other = place(lines::place(random));
    put(log, field, other.as_bytes())
}
