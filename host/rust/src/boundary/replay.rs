//! The replay of a log over what is lent. Each call is sound for any position, bytes and words: the
//! library reads and writes only inside what it is lent.
//!
//! The calls are inlined, so that a program that makes none of them links with an archive that has
//! no replay.
#![allow(unsafe_code)]

use super::raw;
use super::records::{DOMAIN_SIZE, GUEST_SIZE};

/// Bytes that are kept of a line; no line of the form has more.
pub const LINE_SIZE: usize = 64;
/// Words of a control block: READY, one that is reserved, and sixteen HEADs.
pub const BLOCK_WORDS: usize = 18;

/// Where a replay stands, as C has it.
#[repr(C)]
#[derive(Clone, Copy, Debug, PartialEq, Eq)]
pub struct Position {
    /// How many lines agreed.
    pub lines: u64,
    /// Bytes kept of the line that is being read, or of the one at which the replay stopped.
    pub line: usize,
    /// Bytes of the line that is due; 0 where none is.
    pub due: usize,
    /// 1 where that is a mask's access, after which its answer is due.
    pub mask: u32,
    /// 0, or the kind of the report at which it stopped.
    pub stop: u32,
}

/// What a replay says of a log, as C has it.
#[repr(C)]
#[derive(Clone, Copy, Debug, PartialEq, Eq)]
pub struct Report {
    /// 0: every line agrees; 1: the line differs; 22: it is not of the form; 33: its page is not lent.
    pub kind: u32,
    /// The number of lines where all agree, else the number of the line, counted from 1.
    pub line: u64,
}

/// What is lent to a replay from its start on.
pub struct Lent<'a> {
    /// The hypervisor's record.
    pub domain: &'a mut [u8; DOMAIN_SIZE],
    /// The ledger.
    pub ledger: &'a mut [u8],
    /// The guest's record.
    pub guest: &'a mut [u8; GUEST_SIZE],
    /// The event words.
    pub words: &'a mut [u32],
    /// The control block.
    pub block: &'a mut [u32; BLOCK_WORDS],
    /// Room for the line that is being read.
    pub line: &'a mut [u8; LINE_SIZE],
    /// Room for the line that is due.
    pub due: &'a mut [u8; LINE_SIZE],
}

impl Lent<'_> {
    /// Makes what is lent fresh, whatever it held; the header is due.
    #[inline]
    pub fn start(&mut self) -> Position {
        // SAFETY: all is lent for the call, and none of it overlaps.
        unsafe {
            raw::evtchn_replay_bytes_start(
                self.domain.as_mut_ptr(),
                self.ledger.as_mut_ptr(),
                self.ledger.len(),
                self.guest.as_mut_ptr(),
                self.words.as_mut_ptr(),
                self.words.len(),
                self.block.as_mut_ptr(),
                self.due.as_mut_ptr(),
            )
        }
    }

    /// Plays a piece of the log, which may begin and end inside a line.
    #[inline]
    pub fn feed(&mut self, position: Position, text: &[u8]) -> Position {
        // SAFETY: all is lent for the call, and none of it overlaps.
        unsafe {
            raw::evtchn_replay_bytes_feed(
                position,
                self.domain.as_mut_ptr(),
                self.ledger.as_mut_ptr(),
                self.ledger.len(),
                self.guest.as_mut_ptr(),
                self.words.as_mut_ptr(),
                self.words.len(),
                self.block.as_mut_ptr(),
                self.line.as_mut_ptr(),
                self.due.as_mut_ptr(),
                text.as_ptr(),
                text.len(),
            )
        }
    }

    /// What is kept of the line that is being read, or at which the replay stopped.
    pub fn kept(&self, position: Position) -> &[u8] {
        &self.line[..position.line.min(LINE_SIZE)]
    }

    /// The text of the line that is due.
    pub fn due(&self, position: Position) -> &[u8] {
        &self.due[..position.due.min(LINE_SIZE)]
    }
}

impl Position {
    /// The report, if the log ends here.
    #[inline]
    pub fn report(self) -> Report {
        // SAFETY: takes numbers only.
        unsafe { raw::evtchn_replay_bytes_report(self) }
    }
}
