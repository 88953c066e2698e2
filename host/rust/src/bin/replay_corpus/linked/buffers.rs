//! What is lent to the library's replay, each part against a guard page and full of junk.

use evtchn_fifo_host::boundary::records::{DOMAIN_SIZE, GUEST_SIZE};
use evtchn_fifo_host::boundary::replay::{Lent, BLOCK_WORDS, LINE_SIZE};
use evtchn_fifo_host::differential::lent::edge;
use evtchn_fifo_host::guarded::Guarded;
use evtchn_fifo_host::random::Random;

/// Bytes of junk, more than any part has.
const JUNK: usize = 1 << 20;

/// The parts, and the junk that they are filled with.
pub struct Buffers {
    domain: Guarded,
    ledger: Guarded,
    guest: Guarded,
    words: Guarded,
    block: Guarded,
    line: Guarded,
    due: Guarded,
    junk: Vec<u8>,
}

impl Default for Buffers {
    fn default() -> Self {
        let mut random = Random::new(0);
        Buffers {
            domain: Guarded::new(DOMAIN_SIZE),
            ledger: Guarded::new(JUNK),
            guest: Guarded::new(GUEST_SIZE),
            words: Guarded::new(JUNK),
            block: Guarded::new(4 * BLOCK_WORDS),
            line: Guarded::new(LINE_SIZE),
            due: Guarded::new(LINE_SIZE),
            junk: (0..JUNK).map(|_| random.word() as u8).collect(),
        }
    }
}

impl Buffers {
    /// Junk of so many event words and bytes of a ledger, at either edge.
    pub fn lend(&mut self, random: &mut Random, words: usize, ledger_bytes: usize) -> Lent<'_> {
        let parts = [
            (&mut self.domain, DOMAIN_SIZE),
            (&mut self.ledger, ledger_bytes),
            (&mut self.guest, GUEST_SIZE),
            (&mut self.words, 4 * words),
            (&mut self.block, 4 * BLOCK_WORDS),
            (&mut self.line, LINE_SIZE),
            (&mut self.due, LINE_SIZE),
        ];
        for (bytes, length) in parts {
            bytes.set(length, edge(random));
            let from = random.below((JUNK - length + 1) as u64) as usize;
            let junk = &self.junk[from..from + length];
            bytes.bytes_mut().copy_from_slice(junk);
        }
        Lent {
            domain: array(self.domain.bytes_mut()),
            ledger: self.ledger.bytes_mut(),
            guest: array(self.guest.bytes_mut()),
            words: self.words.words_mut(),
            block: array(self.block.words_mut()),
            line: array(self.line.bytes_mut()),
            due: array(self.due.bytes_mut()),
        }
    }
}

/// A slice of the length that was set.
fn array<T, const N: usize>(slice: &mut [T]) -> &mut [T; N] {
    slice.try_into().expect("the length that was set")
}
