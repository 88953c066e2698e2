//! The ledger's bytes: two an entry, the lower first; a last odd byte is no entry.

use crate::model::Entry;

/// The entries that the bytes are.
pub fn entries(bytes: &[u8]) -> Vec<Entry> {
    bytes.chunks_exact(2).map(entry).collect()
}

fn entry(two: &[u8]) -> Entry {
    Entry::from_bits(u16::from_le_bytes([two[0], two[1]]))
}

/// Entry `index`, where the bytes have one.
pub fn entry_at(bytes: &[u8], index: usize) -> Option<Entry> {
    bytes.chunks_exact(2).nth(index).map(entry)
}

/// Writes entry `index`, where the bytes have one.
pub fn put_entry(bytes: &mut [u8], index: usize, entry: Entry) {
    if let Some(two) = bytes.chunks_exact_mut(2).nth(index) {
        two.copy_from_slice(&entry.bits().to_le_bytes());
    }
}
