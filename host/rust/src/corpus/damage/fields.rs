//! Damage to fields: side, kind and name, dashes, the number of fields.

use super::bytes::line;
use crate::corpus::log::Log;
use crate::random::Random;
use std::ops::Range;

const NAMES: [&[u8]; 10] = [
    b"init_control",
    b"expand_array",
    b"bind",
    b"close",
    b"set_priority",
    b"raise",
    b"unmask",
    b"service",
    b"mask",
    b"clear_mask",
];
const KINDS: [&[u8]; 8] = [
    b"read", b"store", b"or", b"and", b"swap", b"cas", b"answer", b"call",
];
/// Names that no line has.
const UNKNOWN: [&[u8]; 18] = [
    b"",
    b"tell",
    b"send",
    b"lay",
    b"cut",
    b"move",
    b"import",
    b"export",
    b"clear_masks",
    b"reply",
    b"xor",
    b"Read",
    b"reads",
    b"o",
    b"calls",
    b"raise ",
    b"set_priorit",
    b"x",
];

/// What stands in a field.
#[derive(Clone, Copy, Debug, PartialEq, Eq)]
pub enum Holds {
    /// X or G, or the header's word.
    Side,
    /// An access's kind, `answer` or `call`.
    Kind,
    /// A call's name.
    Name,
    /// An access's place.
    Place,
    /// A word of eight hex digits.
    Word,
    /// A call's argument, or the header's number.
    Argument,
    /// An answer's number.
    Number,
    /// An answer's port.
    Port,
    /// A dash.
    Dash,
}

/// What stands in field `at` of a good line.
fn holds(log: &Log, fields: &[Range<usize>], at: usize) -> Holds {
    let text = |at: usize| &log.text()[fields[at].clone()];
    match at {
        0 => Holds::Side,
        1 if fields.len() == 2 => Holds::Argument,
        1 => Holds::Kind,
        _ if text(at) == b"-" => Holds::Dash,
        2 if text(1) == b"call" => Holds::Name,
        _ if text(1) == b"call" => Holds::Argument,
        2 if text(1) == b"answer" => Holds::Number,
        _ if text(1) == b"answer" => Holds::Port,
        2 => Holds::Place,
        _ => Holds::Word,
    }
}

/// A field that holds such a thing and has the property, of a line or one of those after it.
pub fn find(
    random: &mut Random,
    log: &Log,
    wanted: &[Holds],
    property: impl Fn(&[u8]) -> bool,
) -> Option<Range<usize>> {
    let from = line(random, log);
    (0..log.lines()).find_map(|step| {
        let fields = log.fields((from + step) % log.lines());
        let fits = |at: &usize| {
            wanted.contains(&holds(log, &fields, *at)) && property(&log.text()[fields[*at].clone()])
        };
        let found: Vec<usize> = (0..fields.len()).filter(fits).collect();
        (!found.is_empty()).then(|| fields[random.pick(&found)].clone())
    })
}

/// The log with `bytes` in place of a field, or as it is where none was found.
pub fn put(log: &Log, field: Option<Range<usize>>, bytes: &[u8]) -> Vec<u8> {
    match field {
        Some(field) => log.with(field, bytes),
        None => log.text().to_vec(),
    }
}

/// X for G and G for X.
pub fn side(random: &mut Random, log: &Log) -> Vec<u8> {
    let field = find(random, log, &[Holds::Side], |side| side.len() == 1);
    let other = match field.as_ref().map(|field| log.text()[field.start]) {
        Some(b'X') => b"G",
        _ => b"X",
    };
    put(log, field, other)
}

/// Another kind or name that lines have.
pub fn name(random: &mut Random, log: &Log) -> Vec<u8> {
    let calls = random.once_in(2);
    let (holds, names) = match calls {
        true => (Holds::Name, &NAMES[..]),
        false => (Holds::Kind, &KINDS[..]),
    };
    let field = find(random, log, &[holds], |_| true);
    put(log, field, random.pick(names))
}

/// A kind or name that no line has.
pub fn unknown(random: &mut Random, log: &Log) -> Vec<u8> {
    let wanted = random.pick(&[Holds::Name, Holds::Kind, Holds::Side, Holds::Place]);
    let field = find(random, log, &[wanted], |_| true);
    put(log, field, random.pick(&UNKNOWN))
}

/// A dash where a value must stand.
pub fn dash(random: &mut Random, log: &Log) -> Vec<u8> {
    let wanted = [
        Holds::Word,
        Holds::Argument,
        Holds::Number,
        Holds::Port,
        Holds::Place,
    ];
    let field = find(random, log, &wanted, |_| true);
    put(log, field, b"-")
}

/// A value where a dash must stand, or more than one dash.
pub fn value(random: &mut Random, log: &Log) -> Vec<u8> {
    let field = find(random, log, &[Holds::Dash], |_| true);
    let values: [&[u8]; 7] = [b"5", b"0", b"00000000", b"A0000005", b"--", b"", b"-1"];
    put(log, field, random.pick(&values))
}

/// A field less or one more.
pub fn count(random: &mut Random, log: &Log) -> Vec<u8> {
    let fields = log.fields(line(random, log));
    let field = fields[random.below(fields.len() as u64) as usize].clone();
    let more: [&[u8]; 5] = [b"\t", b"-\t", b"0\t", b"00000000\t", b"X\t"];
    match random.below(3) {
        0 if field.start > 0 => log.with(field.start - 1..field.end, &[]),
        1 => log.with(field.end..field.end, b"\t-"),
        _ => log.with(field.start..field.start, random.pick(&more)),
    }
}
