//! The lent memory: event words and the control block, and one access on them.

use crate::model::access::{Access, Place};
use crate::model::domain::PAGE_WORDS;
use crate::model::kinds::QUEUES;

/// Control block: 72 bytes.
#[derive(Clone, Debug, Default, PartialEq, Eq, Hash)]
pub struct ControlBlock {
    /// READY; bits 31 to 16 are ignored.
    pub ready: u32,
    /// The reserved word.
    pub reserved: u32,
    /// HEAD of each queue.
    pub head: [u32; QUEUES as usize],
}

/// The memory lent to the machine; its size never changes.
#[derive(Clone, Debug, PartialEq, Eq, Hash)]
pub struct Memory {
    /// Event words, port p at p.
    pub words: Vec<u32>,
    /// The guest's control block.
    pub control: ControlBlock,
}

impl Memory {
    /// `words` event words and a control block, all 0.
    pub fn zeroed(words: usize) -> Self {
        Memory {
            words: vec![0; words],
            control: ControlBlock::default(),
        }
    }

    /// The word at a place, where it is lent.
    fn word_at(&mut self, place: Place) -> Option<&mut u32> {
        match place {
            Place::Word(port) => self.words.get_mut(port.index()),
            Place::Ready => Some(&mut self.control.ready),
            Place::Head(queue) => self.control.head.get_mut(queue.0 as usize),
        }
    }

    /// Performs one access and gives the word seen.
    pub fn perform(&mut self, access: Access) -> u32 {
        let Some(word) = self.word_at(access.place) else {
            return 0;
        };
        let seen = *word;
        *word = access.op.effect(seen);
        seen
    }

    /// Sets the lent words of page `page` to 0.
    pub fn zero_page(&mut self, page: u32) {
        let start = page as usize * PAGE_WORDS as usize;
        let page_words = self.words.iter_mut().skip(start);
        page_words.take(PAGE_WORDS as usize).for_each(|w| *w = 0);
    }
}
