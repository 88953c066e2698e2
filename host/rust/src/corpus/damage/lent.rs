//! More or less lent than the log was recorded with.

use crate::corpus::good;
use crate::corpus::recorder::Shape;
use crate::random::Random;

/// Other words or other entries, or a few of either more or less.
pub fn other(random: &mut Random, shape: Shape) -> Shape {
    let (words, entries) = (shape.words, shape.entries);
    let other = good::shape(random);
    match random.below(6) {
        0 => Shape { words, ..other },
        1 => Shape { entries, ..other },
        2 => Shape {
            words: words.saturating_sub(1),
            entries,
        },
        3 => Shape {
            words: words.saturating_sub(1024),
            entries,
        },
        4 => Shape {
            words: words + random.below(1500) as usize,
            entries,
        },
        _ => Shape {
            words,
            entries: random.below(entries as u64 + 2) as usize,
        },
    }
}
