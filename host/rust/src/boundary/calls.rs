//! Safe calls over byte slices. Each is sound for any bytes of any length: the library reads and
//! writes only inside the slices that it is lent.
#![allow(unsafe_code)]

use super::encoded::Encoded;
use super::raw;

/// The number of the layout of records, ledger and codes.
pub fn layout() -> u32 {
    // SAFETY: takes nothing.
    unsafe { raw::evtchn_fifo_layout() }
}

/// Writes a fresh record of the hypervisor; 64 where the bytes are too few.
pub fn fresh_domain(domain: &mut [u8]) -> u32 {
    // SAFETY: the slice is lent for the call.
    unsafe { raw::evtchn_fifo_bytes_fresh_domain(domain.as_mut_ptr(), domain.len()) }
}

/// Writes a fresh record of the guest; 64 where the bytes are too few.
pub fn fresh_guest(guest: &mut [u8]) -> u32 {
    // SAFETY: the slice is lent for the call.
    unsafe { raw::evtchn_fifo_bytes_fresh_guest(guest.as_mut_ptr(), guest.len()) }
}

/// Makes every entry fresh.
pub fn fresh_ledger(ledger: &mut [u8]) -> u32 {
    // SAFETY: the slice is lent for the call.
    unsafe { raw::evtchn_fifo_bytes_fresh_ledger(ledger.as_mut_ptr(), ledger.len()) }
}

/// init_control.
pub fn init_control(domain: &mut [u8], vcpu: u64, frame: u64, frames: u64, offset: u64) -> Encoded {
    let (at, length) = (domain.as_mut_ptr(), domain.len());
    // SAFETY: the slice is lent for the call.
    unsafe { raw::evtchn_fifo_bytes_init_control(at, length, vcpu, frame, frames, offset) }
}

/// expand_array.
pub fn expand_array(domain: &mut [u8], frame: u64, frames: u64) -> Encoded {
    let (at, length) = (domain.as_mut_ptr(), domain.len());
    // SAFETY: the slice is lent for the call.
    unsafe { raw::evtchn_fifo_bytes_expand_array(at, length, frame, frames) }
}

/// bind.
pub fn bind(domain: &mut [u8], ledger: &mut [u8], port: u64) -> Encoded {
    let (at, length) = (domain.as_mut_ptr(), domain.len());
    // SAFETY: the slices are lent for the call and do not overlap.
    unsafe { raw::evtchn_fifo_bytes_bind(at, length, ledger.as_mut_ptr(), ledger.len(), port) }
}

/// close.
pub fn close(domain: &mut [u8], ledger: &mut [u8], port: u64) -> Encoded {
    let (at, length) = (domain.as_mut_ptr(), domain.len());
    // SAFETY: the slices are lent for the call and do not overlap.
    unsafe { raw::evtchn_fifo_bytes_close(at, length, ledger.as_mut_ptr(), ledger.len(), port) }
}

/// set_priority.
pub fn set_priority(domain: &mut [u8], ledger: &mut [u8], port: u64, priority: u64) -> Encoded {
    let (at, length) = (domain.as_mut_ptr(), domain.len());
    let (entries, size) = (ledger.as_mut_ptr(), ledger.len());
    // SAFETY: the slices are lent for the call and do not overlap.
    unsafe { raw::evtchn_fifo_bytes_set_priority(at, length, entries, size, port, priority) }
}

/// raise.
pub fn raise(domain: &mut [u8], ledger: &mut [u8], port: u64) -> Encoded {
    let (at, length) = (domain.as_mut_ptr(), domain.len());
    // SAFETY: the slices are lent for the call and do not overlap.
    unsafe { raw::evtchn_fifo_bytes_raise(at, length, ledger.as_mut_ptr(), ledger.len(), port) }
}

/// unmask.
pub fn unmask(domain: &mut [u8], ledger: &mut [u8], port: u64) -> Encoded {
    let (at, length) = (domain.as_mut_ptr(), domain.len());
    // SAFETY: the slices are lent for the call and do not overlap.
    unsafe { raw::evtchn_fifo_bytes_unmask(at, length, ledger.as_mut_ptr(), ledger.len(), port) }
}

/// The reply to the hypervisor's call under way.
pub fn reply(domain: &mut [u8], ledger: &mut [u8], seen: u32) -> Encoded {
    let (at, length) = (domain.as_mut_ptr(), domain.len());
    // SAFETY: the slices are lent for the call and do not overlap.
    unsafe { raw::evtchn_fifo_bytes_reply(at, length, ledger.as_mut_ptr(), ledger.len(), seen) }
}

/// The access that the hypervisor's call under way waits for; 16 where none is.
pub fn due(domain: &[u8]) -> Encoded {
    // SAFETY: the slice is lent for the call.
    unsafe { raw::evtchn_fifo_bytes_due(domain.as_ptr(), domain.len()) }
}

/// The start of a service.
pub fn service(guest: &mut [u8]) -> Encoded {
    // SAFETY: the slice is lent for the call.
    unsafe { raw::evtchn_fifo_bytes_service(guest.as_mut_ptr(), guest.len()) }
}

/// The guest's reply: to its clear_mask under way, else to its service.
pub fn service_reply(guest: &mut [u8], seen: u32) -> Encoded {
    // SAFETY: the slice is lent for the call.
    unsafe { raw::evtchn_fifo_bytes_service_reply(guest.as_mut_ptr(), guest.len(), seen) }
}

/// The access that the guest waits for: its clear_mask's, else its service's; 16 where neither is
/// under way.
pub fn service_due(guest: &[u8]) -> Encoded {
    // SAFETY: the slice is lent for the call.
    unsafe { raw::evtchn_fifo_bytes_service_due(guest.as_ptr(), guest.len()) }
}

/// mask, by a number of words.
pub fn mask(port: u64, words: u64) -> Encoded {
    // SAFETY: takes numbers only.
    unsafe { raw::evtchn_fifo_mask(port, words) }
}

/// The start of a clear_mask.
pub fn clear_mask(guest: &mut [u8], port: u64) -> Encoded {
    // SAFETY: the slice is lent for the call.
    unsafe { raw::evtchn_fifo_bytes_clear_mask(guest.as_mut_ptr(), guest.len(), port) }
}

/// tell.
pub fn tell(guest: &mut [u8], words: u64) -> Encoded {
    // SAFETY: the slice is lent for the call.
    unsafe { raw::evtchn_fifo_bytes_tell(guest.as_mut_ptr(), guest.len(), words) }
}
