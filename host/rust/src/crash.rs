//! If the process dies of a read or write outside a guarded buffer, the seed of the history under
//! way is printed first.
#![allow(unsafe_code)]

use std::ffi::{c_int, c_void};
use std::sync::atomic::{AtomicU64, Ordering::Relaxed};

const SEGMENTATION: c_int = 11;
const DEFAULT: usize = 0;
const STANDARD_ERROR: c_int = 2;

static SEED: AtomicU64 = AtomicU64::new(0);

extern "C" {
    fn signal(number: c_int, handler: usize) -> usize;
    fn write(file: c_int, bytes: *const c_void, length: usize) -> isize;
}

/// The seed to print.
pub fn set_seed(seed: u64) {
    SEED.store(seed, Relaxed);
}

/// From now on a crash prints the seed.
pub fn install() {
    let handler: extern "C" fn(c_int) = crashed;
    // SAFETY: the handler only reads an atomic and writes bytes.
    unsafe {
        signal(SEGMENTATION, handler as *const () as usize);
    }
}

/// Prints the seed; the faulting instruction is then tried again and ends the process.
extern "C" fn crashed(_: c_int) {
    let mut digits = [0; 20];
    let seed = decimal(SEED.load(Relaxed), &mut digits);
    for text in [b"access outside a guarded buffer, seed ", seed, b"\n"] {
        // SAFETY: the bytes are lent for the call.
        unsafe {
            write(STANDARD_ERROR, text.as_ptr().cast(), text.len());
        }
    }
    // SAFETY: restores what the system does by itself.
    unsafe {
        signal(SEGMENTATION, DEFAULT);
    }
}

/// The decimal digits of a number, without memory of its own.
fn decimal(mut number: u64, digits: &mut [u8; 20]) -> &[u8] {
    let mut at = digits.len();
    loop {
        at -= 1;
        digits[at] = b'0' + (number % 10) as u8;
        number /= 10;
        if number == 0 {
            return &digits[at..];
        }
    }
}
