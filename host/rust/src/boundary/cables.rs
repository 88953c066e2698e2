//! Cables over byte slices, and the table's bytes: 1,024 slots of two numbers of four bytes, the
//! lowest first. Each call is sound for any bytes of any length: the library reads and writes only
//! inside the slices that it is lent.
//!
//! The calls are inlined, so that a program that makes none of them links with an archive that has
//! no cables.
#![allow(unsafe_code)]

use super::encoded::Encoded;
use super::raw;
use super::records::{number, put_number};
use crate::model::cables::{Slot, Table, SLOTS};

/// Bytes of a table.
pub const TABLE_SIZE: usize = 8 * SLOTS;
/// The hint of a send that has none.
pub const NO_HINT: u32 = SLOTS as u32;

/// What lay gives, as C has it.
#[repr(C)]
#[derive(Clone, Copy, Debug, PartialEq, Eq)]
pub struct Laid {
    /// 0, or a refusal.
    pub code: u32,
    /// The slot of the new cable, 0 after a refusal.
    pub slot: u32,
}

/// What send gives, as C has it: the host is to raise `port` of `domain`. After a refusal all but
/// the code are 0.
#[repr(C)]
#[derive(Clone, Copy, Debug, PartialEq, Eq)]
pub struct Far {
    /// 0, or a refusal.
    pub code: u32,
    /// The far end's domain.
    pub domain: u32,
    /// The far end's port.
    pub port: u32,
    /// The cable's slot.
    pub slot: u32,
}

/// An end, with what its domain lends to be read. Those of a lay's two ends may be the same.
#[derive(Clone, Copy)]
pub struct End<'a> {
    /// The hypervisor's record.
    pub record: &'a [u8],
    /// The ledger.
    pub ledger: &'a [u8],
    /// Number of the domain.
    pub domain: u64,
    /// The port.
    pub port: u64,
}

/// lay.
#[inline]
pub fn lay(table: &mut [u8], near: End<'_>, far: End<'_>) -> Laid {
    // SAFETY: the slices are lent for the call; the table overlaps none of the others.
    unsafe {
        raw::evtchn_cables_bytes_lay(
            table.as_mut_ptr(),
            table.len(),
            near.record.as_ptr(),
            near.record.len(),
            near.ledger.as_ptr(),
            near.ledger.len(),
            far.record.as_ptr(),
            far.record.len(),
            far.ledger.as_ptr(),
            far.ledger.len(),
            near.domain,
            near.port,
            far.domain,
            far.port,
        )
    }
}

/// cut.
#[inline]
pub fn cut(table: &mut [u8], near: End<'_>) -> u32 {
    // SAFETY: the slices are lent for the call; the table overlaps none of the others.
    unsafe {
        raw::evtchn_cables_bytes_cut(
            table.as_mut_ptr(),
            table.len(),
            near.record.as_ptr(),
            near.record.len(),
            near.ledger.as_ptr(),
            near.ledger.len(),
            near.domain,
            near.port,
        )
    }
}

/// send.
#[inline]
pub fn send(table: &[u8], near: End<'_>, hint: u32) -> Far {
    // SAFETY: the slices are lent for the call.
    unsafe {
        raw::evtchn_cables_bytes_send(
            table.as_ptr(),
            table.len(),
            near.record.as_ptr(),
            near.record.len(),
            near.ledger.as_ptr(),
            near.ledger.len(),
            near.domain,
            near.port,
            hint,
        )
    }
}

/// close of a port of domain `number`.
#[inline]
pub fn close(
    table: &mut [u8],
    domain: &mut [u8],
    ledger: &mut [u8],
    number: u64,
    port: u64,
) -> Encoded {
    let (at, length) = (domain.as_mut_ptr(), domain.len());
    let (entries, size) = (ledger.as_mut_ptr(), ledger.len());
    let (slots, bytes) = (table.as_mut_ptr(), table.len());
    // SAFETY: the slices are lent for the call and do not overlap.
    unsafe { raw::evtchn_cables_bytes_close(slots, bytes, at, length, entries, size, number, port) }
}

/// The reply to the call under way of domain `number`.
#[inline]
pub fn reply(
    table: &mut [u8],
    domain: &mut [u8],
    ledger: &mut [u8],
    number: u64,
    seen: u32,
) -> Encoded {
    let (at, length) = (domain.as_mut_ptr(), domain.len());
    let (entries, size) = (ledger.as_mut_ptr(), ledger.len());
    let (slots, bytes) = (table.as_mut_ptr(), table.len());
    // SAFETY: the slices are lent for the call and do not overlap.
    unsafe { raw::evtchn_cables_bytes_reply(slots, bytes, at, length, entries, size, number, seen) }
}

/// The slot that the bytes of a table have.
pub fn slot(table: &[u8], at: usize) -> Slot {
    Slot([number(table, 8 * at), number(table, 8 * at + 4)])
}

/// Writes a slot.
pub fn put_slot(table: &mut [u8], at: usize, slot: Slot) {
    let Slot([first, second]) = slot;
    put_number(table, 8 * at, first);
    put_number(table, 8 * at + 4, second);
}

/// The table that the bytes are; none where they are too few.
pub fn table(bytes: &[u8]) -> Option<Table> {
    let slots = || std::array::from_fn(|at| slot(bytes, at));
    (bytes.len() >= TABLE_SIZE).then(|| Table::new(slots()))
}
