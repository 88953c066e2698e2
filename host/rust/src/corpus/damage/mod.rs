//! What can be wrong with a log: each damage with the reports that it must bring about.

mod bytes;
mod fields;
mod lent;
mod lines;
mod mixed;
mod numbers;

use super::cases::Case;
use super::log::Log;
use super::recorder::Shape;
use crate::random::Random;

/// A kind of damage.
pub struct Damage {
    /// Its name.
    pub name: &'static str,
    /// The reports' numbers that it must bring about.
    pub gives: &'static [u32],
    text: fn(&mut Random, &Log) -> Vec<u8>,
    shape: fn(&mut Random, Shape) -> Shape,
}

/// Report numbers: all lines agree; a line differs; not of the form; a page not lent.
const AGREE: u32 = 0;
const DIFFERS: u32 = 1;
const MALFORMED: u32 = 22;
const NOT_LENT: u32 = 33;

impl Damage {
    /// The log with the damage.
    pub fn case(&self, random: &mut Random, shape: Shape, log: &Log) -> Case {
        Case {
            text: (self.text)(random, log),
            shape: (self.shape)(random, shape),
        }
    }

    const fn of_text(
        name: &'static str,
        gives: &'static [u32],
        text: fn(&mut Random, &Log) -> Vec<u8>,
    ) -> Self {
        Damage {
            name,
            gives,
            text,
            shape: |_, shape| shape,
        }
    }

    const fn of_shape(
        name: &'static str,
        gives: &'static [u32],
        shape: fn(&mut Random, Shape) -> Shape,
    ) -> Self {
        Damage {
            name,
            gives,
            text: |_, log| log.text().to_vec(),
            shape,
        }
    }
}

/// Every kind of damage; the first is none.
pub const DAMAGES: [Damage; 40] = [
    Damage::of_shape("none", &[AGREE], |_, shape| shape),
    Damage::of_text("byte changed", &[DIFFERS, MALFORMED], bytes::changed),
    Damage::of_text("byte dropped", &[MALFORMED], bytes::dropped),
    Damage::of_text("byte inserted", &[MALFORMED], bytes::inserted),
    Damage::of_text("byte 0 or 255", &[MALFORMED], bytes::odd),
    Damage::of_text("carriage return", &[MALFORMED], bytes::carriage_return),
    Damage::of_text("space", &[MALFORMED], bytes::space),
    Damage::of_text("cut inside a line", &[MALFORMED], bytes::cut),
    Damage::of_text("last newline missing", &[MALFORMED], bytes::last_newline),
    Damage::of_text("cut after a line", &[AGREE, DIFFERS], lines::cut),
    Damage::of_text("line doubled", &[DIFFERS], lines::doubled),
    Damage::of_text("line dropped", &[DIFFERS], lines::dropped),
    Damage::of_text("line moved", &[DIFFERS], lines::moved),
    Damage::of_text("lines swapped", &[DIFFERS], lines::swapped),
    Damage::of_text("line of the log inserted", &[DIFFERS], lines::repeated),
    Damage::of_text("line of the form inserted", &[DIFFERS], lines::inserted),
    Damage::of_text("empty line", &[MALFORMED], lines::empty),
    Damage::of_text("long line", &[MALFORMED], lines::long),
    Damage::of_text("another header", &[MALFORMED], lines::other_header),
    Damage::of_text("second header", &[DIFFERS], lines::second_header),
    Damage::of_text("no header", &[DIFFERS], lines::no_header),
    Damage::of_text("expand inserted", &[DIFFERS, NOT_LENT], lines::expand),
    Damage::of_text("the other side", &[DIFFERS, MALFORMED], fields::side),
    Damage::of_text("another kind or name", &[DIFFERS, MALFORMED], fields::name),
    Damage::of_text("unknown kind or name", &[MALFORMED], fields::unknown),
    Damage::of_text("dash for a value", &[MALFORMED], fields::dash),
    Damage::of_text("value for a dash", &[MALFORMED], fields::value),
    Damage::of_text("five or seven fields", &[MALFORMED], fields::count),
    Damage::of_text("decimal of 2^32 or more", &[MALFORMED], numbers::too_large),
    Damage::of_text("decimal of 2^32 - 1", &[DIFFERS], numbers::largest),
    Damage::of_text("leading zero", &[MALFORMED], numbers::leading_zero),
    Damage::of_text("another decimal", &[AGREE, DIFFERS], numbers::other_decimal),
    Damage::of_text("another answer", &[DIFFERS], numbers::other_answer),
    Damage::of_text("lower-case hex", &[MALFORMED], numbers::lower_case),
    Damage::of_text("seven or nine digits", &[MALFORMED], numbers::digits),
    Damage::of_text("another word", &[DIFFERS], numbers::other_word),
    Damage::of_text("another place", &[DIFFERS], numbers::other_place),
    Damage::of_shape("other lent", &[AGREE, DIFFERS, NOT_LENT], lent::other),
    Damage::of_text("two damages", &[DIFFERS, MALFORMED, NOT_LENT], mixed::two),
    Damage::of_text("words of the form", &[MALFORMED], mixed::words),
];
