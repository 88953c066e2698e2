//! A ledger entry decoded into its fields, with the bits kept as found.

use super::kinds::{Priority, Queue};

/// Ledger entry of a port: 16 bits.
#[derive(Clone, Copy, Debug, PartialEq, Eq, Hash)]
pub struct Entry {
    /// Bits 0 to 3.
    pub priority: Priority,
    /// Bits 4 to 7: the last queue.
    pub last: Queue,
    /// Bit 8.
    pub bound: bool,
    /// Bit 9: has been linked.
    pub been_linked: bool,
    /// Bits 10 to 15, kept as found.
    pub kept: u8,
}

/// Priority of a fresh and of a closed port.
pub const DEFAULT_PRIORITY: Priority = Priority(7);

impl Entry {
    /// A fresh entry: the number 7.
    pub const FRESH: Entry = Entry {
        priority: DEFAULT_PRIORITY,
        last: Queue(0),
        bound: false,
        been_linked: false,
        kept: 0,
    };

    /// Decodes 16 bits.
    pub fn from_bits(bits: u16) -> Self {
        Entry {
            priority: Priority((bits % 16) as u8),
            last: Queue(u32::from(bits / 16 % 16)),
            bound: bits / 256 % 2 == 1,
            been_linked: bits / 512 % 2 == 1,
            kept: (bits / 1024) as u8,
        }
    }

    /// Encodes into 16 bits.
    pub fn bits(self) -> u16 {
        u16::from(self.priority.0 % 16)
            + (self.last.0 % 16) as u16 * 16
            + u16::from(self.bound) * 256
            + u16::from(self.been_linked) * 512
            + u16::from(self.kept % 64) * 1024
    }

    /// A fresh ledger of `length` entries.
    pub fn ledger(length: usize) -> Vec<Entry> {
        vec![Entry::FRESH; length]
    }
}
