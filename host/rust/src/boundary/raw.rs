//! The symbols of the archive. A slice is a pointer and a length, an array a pointer.

use super::cables::{Far, Laid};
use super::encoded::Encoded;
use super::replay::{Position, Report};

extern "C" {
    pub fn evtchn_fifo_layout() -> u32;
    pub fn evtchn_fifo_bytes_fresh_domain(domain: *mut u8, length: usize) -> u32;
    pub fn evtchn_fifo_bytes_fresh_guest(guest: *mut u8, length: usize) -> u32;
    pub fn evtchn_fifo_bytes_fresh_ledger(ledger: *mut u8, length: usize) -> u32;
    pub fn evtchn_fifo_bytes_init_control(
        domain: *mut u8,
        domain_length: usize,
        vcpu: u64,
        frame: u64,
        frames: u64,
        offset: u64,
    ) -> Encoded;
    pub fn evtchn_fifo_bytes_expand_array(
        domain: *mut u8,
        domain_length: usize,
        frame: u64,
        frames: u64,
    ) -> Encoded;
    pub fn evtchn_fifo_bytes_bind(
        domain: *mut u8,
        domain_length: usize,
        ledger: *mut u8,
        ledger_length: usize,
        port: u64,
    ) -> Encoded;
    pub fn evtchn_fifo_bytes_close(
        domain: *mut u8,
        domain_length: usize,
        ledger: *mut u8,
        ledger_length: usize,
        port: u64,
    ) -> Encoded;
    pub fn evtchn_fifo_bytes_set_priority(
        domain: *mut u8,
        domain_length: usize,
        ledger: *mut u8,
        ledger_length: usize,
        port: u64,
        priority: u64,
    ) -> Encoded;
    pub fn evtchn_fifo_bytes_raise(
        domain: *mut u8,
        domain_length: usize,
        ledger: *mut u8,
        ledger_length: usize,
        port: u64,
    ) -> Encoded;
    pub fn evtchn_fifo_bytes_unmask(
        domain: *mut u8,
        domain_length: usize,
        ledger: *mut u8,
        ledger_length: usize,
        port: u64,
    ) -> Encoded;
    pub fn evtchn_fifo_bytes_reply(
        domain: *mut u8,
        domain_length: usize,
        ledger: *mut u8,
        ledger_length: usize,
        seen: u32,
    ) -> Encoded;
    pub fn evtchn_fifo_bytes_due(domain: *const u8, length: usize) -> Encoded;
    pub fn evtchn_fifo_bytes_service(guest: *mut u8, length: usize) -> Encoded;
    pub fn evtchn_fifo_bytes_service_reply(guest: *mut u8, length: usize, seen: u32) -> Encoded;
    pub fn evtchn_fifo_bytes_service_due(guest: *const u8, length: usize) -> Encoded;
    pub fn evtchn_fifo_mask(port: u64, words: u64) -> Encoded;
    pub fn evtchn_fifo_bytes_clear_mask(guest: *mut u8, length: usize, port: u64) -> Encoded;
    pub fn evtchn_fifo_bytes_tell(guest: *mut u8, length: usize, words: u64) -> Encoded;
    pub fn evtchn_replay_bytes_start(
        domain: *mut u8,
        ledger: *mut u8,
        ledger_bytes: usize,
        guest: *mut u8,
        words: *mut u32,
        words_count: usize,
        block: *mut u32,
        due: *mut u8,
    ) -> Position;
    pub fn evtchn_replay_bytes_feed(
        position: Position,
        domain: *mut u8,
        ledger: *mut u8,
        ledger_bytes: usize,
        guest: *mut u8,
        words: *mut u32,
        words_count: usize,
        block: *mut u32,
        line: *mut u8,
        due: *mut u8,
        text: *const u8,
        text_length: usize,
    ) -> Position;
    pub fn evtchn_replay_bytes_report(position: Position) -> Report;
    pub fn evtchn_cables_bytes_lay(
        table: *mut u8,
        table_length: usize,
        near: *const u8,
        near_length: usize,
        near_ledger: *const u8,
        near_ledger_length: usize,
        far: *const u8,
        far_length: usize,
        far_ledger: *const u8,
        far_ledger_length: usize,
        near_domain: u64,
        near_port: u64,
        far_domain: u64,
        far_port: u64,
    ) -> Laid;
    pub fn evtchn_cables_bytes_cut(
        table: *mut u8,
        table_length: usize,
        domain: *const u8,
        domain_length: usize,
        ledger: *const u8,
        ledger_length: usize,
        number: u64,
        port: u64,
    ) -> u32;
    pub fn evtchn_cables_bytes_send(
        table: *const u8,
        table_length: usize,
        domain: *const u8,
        domain_length: usize,
        ledger: *const u8,
        ledger_length: usize,
        number: u64,
        port: u64,
        hint: u32,
    ) -> Far;
    pub fn evtchn_cables_bytes_close(
        table: *mut u8,
        table_length: usize,
        domain: *mut u8,
        domain_length: usize,
        ledger: *mut u8,
        ledger_length: usize,
        number: u64,
        port: u64,
    ) -> Encoded;
    pub fn evtchn_cables_bytes_reply(
        table: *mut u8,
        table_length: usize,
        domain: *mut u8,
        domain_length: usize,
        ledger: *mut u8,
        ledger_length: usize,
        number: u64,
        seen: u32,
    ) -> Encoded;
}

#[cfg(test)]
#[allow(unsafe_code)]
mod tests {
    //! NULL is allowed where the length is 0.
    use super::*;
    use crate::boundary::records::{DOMAIN_SIZE, GUEST_SIZE};
    use std::mem::size_of;
    use std::ptr::{null, null_mut};

    #[test]
    fn null_records_are_too_short() {
        // SAFETY: no bytes are lent.
        let given = unsafe {
            [
                evtchn_fifo_bytes_raise(null_mut(), 0, null_mut(), 0, 5),
                evtchn_fifo_bytes_reply(null_mut(), 0, null_mut(), 0, 0),
                evtchn_fifo_bytes_due(null(), 0),
                evtchn_fifo_bytes_service(null_mut(), 0),
                evtchn_fifo_bytes_service_reply(null_mut(), 0, 0),
                evtchn_fifo_bytes_service_due(null(), 0),
                evtchn_fifo_bytes_clear_mask(null_mut(), 0, 5),
                evtchn_fifo_bytes_tell(null_mut(), 0, 1024),
            ]
        };
        assert_eq!(given, [Encoded::TOO_SHORT; 8]);
    }

    #[test]
    fn null_ledger_has_no_entry() {
        let mut domain = [0; DOMAIN_SIZE];
        domain[0] = 1;
        // SAFETY: the record is lent, the ledger has no bytes.
        let given = unsafe {
            assert_eq!(evtchn_fifo_bytes_fresh_ledger(null_mut(), 0), 0);
            evtchn_fifo_bytes_raise(domain.as_mut_ptr(), domain.len(), null_mut(), 0, 5)
        };
        assert_eq!((given.code, given.value), (14, 0));
    }

    #[test]
    fn null_words_ledger_and_text_of_a_replay() {
        let (mut domain, mut guest, mut block) = ([1; DOMAIN_SIZE], [1; GUEST_SIZE], [1; 18]);
        let (mut line, mut due) = ([1; 64], [1; 64]);
        let (domain, guest, block) = (domain.as_mut_ptr(), guest.as_mut_ptr(), block.as_mut_ptr());
        let (line, due) = (line.as_mut_ptr(), due.as_mut_ptr());
        let (ledger, words) = (null_mut(), null_mut());
        // SAFETY: the arrays are lent, the slices have nothing.
        let position = unsafe {
            let position =
                evtchn_replay_bytes_start(domain, ledger, 0, guest, words, 0, block, due);
            evtchn_replay_bytes_feed(
                position,
                domain,
                ledger,
                0,
                guest,
                words,
                0,
                block,
                line,
                due,
                null(),
                0,
            )
        };
        let header = Position {
            lines: 0,
            line: 0,
            due: 11,
            mask: 0,
            stop: 0,
        };
        assert_eq!(position, header);
    }

    #[test]
    fn null_tables_and_records_of_cables() {
        let (none, table) = (null(), null_mut());
        // SAFETY: no bytes are lent.
        let lay = |near, far| unsafe {
            evtchn_cables_bytes_lay(
                table, 0, none, 0, none, 0, none, 0, none, 0, near, 5, far, 5,
            )
        };
        let codes = [(40, 0), (0, 40), (40, 40), (3, 3), (0, 1)].map(|(a, b)| lay(a, b).code);
        assert_eq!(codes, [23, 23, 23, 24, 64]);
        // SAFETY: no bytes are lent.
        let cut =
            |number| unsafe { evtchn_cables_bytes_cut(table, 0, none, 0, none, 0, number, 5) };
        assert_eq!([40, 39].map(cut), [23, 64]);
        // SAFETY: no bytes are lent.
        let send =
            |number| unsafe { evtchn_cables_bytes_send(none, 0, none, 0, none, 0, number, 5, 0) };
        assert_eq!([40, 39].map(|number| send(number).code), [23, 64]);
        // SAFETY: no bytes are lent.
        let given = unsafe {
            [
                evtchn_cables_bytes_close(table, 0, table, 0, table, 0, 40, 5),
                evtchn_cables_bytes_reply(table, 0, table, 0, table, 0, 40, 0),
            ]
        };
        assert_eq!(given, [Encoded::TOO_SHORT; 2]);
    }

    #[test]
    fn sizes_of_what_is_given() {
        let sizes = (size_of::<Position>(), size_of::<Report>());
        assert_eq!(sizes, (32, 16));
        let sizes = (size_of::<Laid>(), size_of::<Far>());
        assert_eq!(sizes, (8, 16));
    }
}
