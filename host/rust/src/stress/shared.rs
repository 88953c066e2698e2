//! A domain's shared memory in atomics, and one access on it.

use crate::model::{Access, Op, Place};
use std::sync::atomic::{AtomicU32, Ordering::SeqCst};

/// Event words and control block.
pub struct Shared {
    /// Event words, port p at p.
    pub words: Vec<AtomicU32>,
    /// READY.
    pub ready: AtomicU32,
    /// HEAD of each queue.
    pub heads: [AtomicU32; 16],
}

impl Shared {
    /// `words` event words and a control block, all 0.
    pub fn zeroed(words: usize) -> Self {
        Shared {
            words: (0..words).map(|_| AtomicU32::new(0)).collect(),
            ready: AtomicU32::new(0),
            heads: std::array::from_fn(|_| AtomicU32::new(0)),
        }
    }

    fn at(&self, place: Place) -> Option<&AtomicU32> {
        match place {
            Place::Word(port) => self.words.get(port.index()),
            Place::Ready => Some(&self.ready),
            Place::Head(queue) => self.heads.get(queue.0 as usize),
        }
    }

    /// Performs one access and gives the word seen; none where the place is outside.
    pub fn perform(&self, access: Access) -> Option<u32> {
        let word = self.at(access.place)?;
        Some(match access.op {
            Op::Read => word.load(SeqCst),
            Op::Store(value) => {
                word.store(value, SeqCst);
                0
            }
            Op::Or(operand) => word.fetch_or(operand, SeqCst),
            Op::And(operand) => word.fetch_and(operand, SeqCst),
            Op::Swap(value) => word.swap(value, SeqCst),
            Op::Cas { old, new } => match word.compare_exchange(old, new, SeqCst, SeqCst) {
                Ok(seen) | Err(seen) => seen,
            },
        })
    }

    /// The event word of a port.
    pub fn word(&self, port: usize) -> u32 {
        self.words[port].load(SeqCst)
    }
}
