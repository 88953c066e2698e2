//! How a log is cut into pieces.

use evtchn_fifo_host::random::Random;

/// A kind of cut: its name, and the most bytes of a piece; none where the log is one piece.
pub type Cut = (&'static str, Option<u64>);

/// Every kind. Pieces up to a length may be empty.
pub const CUTS: [Cut; 6] = [
    ("one piece", None),
    ("single bytes", Some(1)),
    ("pieces of 7 bytes at most", Some(7)),
    ("pieces of 64 bytes at most", Some(64)),
    ("pieces of 200 bytes at most", Some(200)),
    ("pieces of 1,000 bytes at most", Some(1000)),
];

/// The length of the next piece of a text that has so many bytes left.
pub fn length(random: &mut Random, (_, most): Cut, left: usize) -> usize {
    match most {
        None => left,
        Some(1) => 1,
        Some(most) => (random.below(most + 1) as usize).min(left),
    }
}
