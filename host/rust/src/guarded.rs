//! Bytes that stand against a page without access, so that a read or write one past the end, or
//! one before the beginning, ends the process.
#![allow(unsafe_code)]

use std::ffi::{c_int, c_void};

const PAGE: usize = 4096;
const NO_ACCESS: c_int = 0;
const READ_AND_WRITE: c_int = 3;
/// Private and anonymous; no memory is reserved for pages that are not touched.
const PRIVATE_AND_ANONYMOUS: c_int = 0x4022;

extern "C" {
    fn mmap(
        at: *mut c_void,
        length: usize,
        protection: c_int,
        flags: c_int,
        file: c_int,
        offset: i64,
    ) -> *mut c_void;
    fn mprotect(at: *mut c_void, length: usize, protection: c_int) -> c_int;
    fn munmap(at: *mut c_void, length: usize) -> c_int;
}

/// Which end of the bytes stands against a guard page.
#[derive(Clone, Copy, Debug, PartialEq, Eq)]
pub enum Edge {
    /// The first byte follows a guard page.
    First,
    /// A guard page follows the last byte.
    Last,
}

/// Pages between two guard pages, and the bytes of them that are in use.
pub struct Guarded {
    base: *mut u8,
    capacity: usize,
    start: usize,
    length: usize,
}

impl Guarded {
    /// Room for `capacity` bytes at least; none is in use.
    pub fn new(capacity: usize) -> Self {
        let capacity = capacity.div_ceil(PAGE).max(1) * PAGE;
        let all = capacity + 2 * PAGE;
        let none = std::ptr::null_mut();
        // SAFETY: a new anonymous mapping; its inner pages alone are opened.
        let base = unsafe {
            let at = mmap(none, all, NO_ACCESS, PRIVATE_AND_ANONYMOUS, -1, 0);
            assert!(at as isize != -1, "mmap gives no memory for {all} bytes");
            let base = at.cast::<u8>().add(PAGE);
            let opened = mprotect(base.cast(), capacity, READ_AND_WRITE);
            assert!(opened == 0, "mprotect does not open {capacity} bytes");
            base
        };
        Guarded {
            base,
            capacity,
            start: 0,
            length: 0,
        }
    }

    /// Puts `length` bytes in use at an edge; what they hold is left over from before.
    pub fn set(&mut self, length: usize, edge: Edge) {
        assert!(length <= self.capacity, "{length} bytes do not fit");
        self.length = length;
        self.start = match edge {
            Edge::First => 0,
            Edge::Last => self.capacity - length,
        };
    }

    /// The bytes in use.
    pub fn bytes(&self) -> &[u8] {
        // SAFETY: inside the opened pages, borrowed with self.
        unsafe { std::slice::from_raw_parts(self.base.add(self.start), self.length) }
    }

    /// The bytes in use, to be changed.
    pub fn bytes_mut(&mut self) -> &mut [u8] {
        // SAFETY: inside the opened pages, borrowed with self alone.
        unsafe { std::slice::from_raw_parts_mut(self.base.add(self.start), self.length) }
    }

    /// The bytes in use as words of four bytes, to be changed.
    pub fn words_mut(&mut self) -> &mut [u32] {
        let (whole, length) = (self.length / 4, self.length);
        assert!(length % 4 == 0, "{length} bytes are no whole words");
        // SAFETY: as `bytes_mut`; both edges are those of pages, so that whole words are aligned.
        unsafe { std::slice::from_raw_parts_mut(self.base.add(self.start).cast(), whole) }
    }

    /// Reads one byte outside: the process is expected to end.
    pub fn read_outside(&self, edge: Edge) -> u8 {
        let first = self.base.wrapping_add(self.start);
        let at = match edge {
            Edge::First => first.wrapping_sub(1),
            Edge::Last => first.wrapping_add(self.length),
        };
        // SAFETY: none; the read is the test of the guard page and does not return.
        unsafe { at.read_volatile() }
    }
}

impl Drop for Guarded {
    fn drop(&mut self) {
        // SAFETY: the whole mapping that `new` made.
        unsafe {
            munmap(self.base.sub(PAGE).cast(), self.capacity + 2 * PAGE);
        }
    }
}
