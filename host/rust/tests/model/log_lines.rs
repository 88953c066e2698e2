//! The reader and the writer of log lines: they agree each way on every line of the form, and
//! what is not of the form is no line.

use evtchn_fifo_host::corpus::cases::Damaged;
use evtchn_fifo_host::corpus::damage::DAMAGES;
use evtchn_fifo_host::corpus::lines;
use evtchn_fifo_host::corpus::sample::each_byte;
use evtchn_fifo_host::model::log::read;
use evtchn_fifo_host::random::Random;

/// Lines of the form, fields parted by spaces.
const OF_THE_FORM: [&str; 36] = [
    "accesses 1",
    "X read w5 - - 00000000",
    "G read h7 - - 00000005",
    "X store h7 - 00000005 -",
    "G store ready - 00000000 -",
    "X or w0 - 80000000 FFFFFFFF",
    "X and w4294967295 - 7FFFFFFF 0000000A",
    "G swap ready - 00000000 00000080",
    "X swap h16 - 12345678 9ABCDEF0",
    "X cas w5 A0000000 A0000009 80000000",
    "G cas h4294967295 00000000 00000000 00000000",
    "X answer 0 - - -",
    "G answer 19 5 - -",
    "X answer 21 4294967295 - -",
    "X answer 19 0 - -",
    "X answer 99 - - -",
    "G answer 4294967295 - - -",
    "X answer 22 - - -",
    "X call init_control 0 1 0",
    "X call init_control 7 5000 4294967295",
    "X call expand_array - 2 -",
    "X call expand_array - 4294967295 -",
    "X call bind 5 - -",
    "X call close 0 - -",
    "X call set_priority 5 16 -",
    "X call set_priority 4294967295 4294967295 -",
    "X call raise 131072 - -",
    "X call unmask 5 - -",
    "G call service - - -",
    "G call mask 5 - -",
    "G call mask 4294967295 - -",
    "G call clear_mask 5 - -",
    "G call clear_mask 4294967295 - -",
    "G cas w5 60000000 20000000 60000000",
    "G answer 20 - - -",
    "G answer 35 - - -",
];

/// Lines that are not, fields parted by spaces; `.` stands for a space and `~` for a carriage
/// return.
const NOT_OF_THE_FORM: [&str; 91] = [
    "",
    ".",
    "accesses",
    "accesses 2",
    "accesses 01",
    "accesses 1 -",
    "accesses 1 - - - -",
    "accesses.1",
    "Accesses 1",
    "accesses 1~",
    "X",
    "X read w5 - -",
    "X read w5 - - 00000000 -",
    "X read w5 - - 00000000 ",
    " X read w5 - - 00000000",
    "x read w5 - - 00000000",
    "Y read w5 - - 00000000",
    "XG read w5 - - 00000000",
    "X Read w5 - - 00000000",
    "X reads w5 - - 00000000",
    "X xor w5 - 80000000 00000000",
    "X read w05 - - 00000000",
    "X read w - - 00000000",
    "X read h - - 00000000",
    "X read w- - - 00000000",
    "X read w.5 - - 00000000",
    "X read W5 - - 00000000",
    "X read 5 - - 00000000",
    "X read - - - 00000000",
    "X read Ready - - 00000000",
    "X read ready0 - - 00000000",
    "X read w4294967296 - - 00000000",
    "X read h18446744073709551621 - - 00000000",
    "X read w5 - - 0000000",
    "X read w5 - - 000000000",
    "X read w5 - - 0000000a",
    "X read w5 - - 0000000G",
    "X read w5 - - 0x000000",
    "X read w5 - - -",
    "X read w5 - 00000000 00000000",
    "X read w5 00000000 - 00000000",
    "X read w5 - - 00000000~",
    "X read w5 - - .0000000",
    "X store h7 - 00000005 00000000",
    "X store h7 - - -",
    "X store h7 00000000 00000005 -",
    "X or w5 00000000 80000000 00000000",
    "X or w5 - - 00000000",
    "X or w5 - 80000000 -",
    "X or w5 -- 80000000 00000000",
    "G swap ready 00000000 00000000 00000080",
    "X cas w5 - A0000009 A0000000",
    "X cas w5 A0000000 - A0000000",
    "X cas w5 A0000000 A0000009 -",
    "X answer - - - -",
    "X answer 00 - - -",
    "X answer 1 5 - -",
    "X answer 0 0 - -",
    "G answer 19 - - -",
    "G answer 21 - - -",
    "G answer 19 05 - -",
    "G answer 19 5 - 0",
    "G answer 19 5 0 -",
    "X answer 4294967296 - - -",
    "X answer +1 - - -",
    "X answer -1 - - -",
    "X answer 1 - -",
    "X answer 1 - - - -",
    "X call tell 1024 - -",
    "X call send 5 - -",
    "X call clear_mask 5 - -",
    "G call clear_mask - - -",
    "G call clear_mask 5 5 -",
    "G call clear_mask 5 - 0",
    "G call clear_mask 4294967296 - -",
    "G call clear_masks 5 - -",
    "G call clear 5 - -",
    "G answer 35 5 - -",
    "X call service - - -",
    "X call mask 5 - -",
    "G call raise 5 - -",
    "G call init_control 0 1 0",
    "G call service 5 - -",
    "X call bind - - -",
    "X call bind 5 5 -",
    "X call bind 5 - 0",
    "X call expand_array 5 2 -",
    "X call expand_array 2 - -",
    "X call set_priority 5 - -",
    "X call init_control 0 1 -",
    "X call raise 4294967296 - -",
];

fn bytes(line: &str) -> Vec<u8> {
    let parted = line.replace(' ', "\t").replace('.', " ");
    parted.replace('~', "\r").into_bytes()
}

#[test]
fn lines_of_the_form_read_and_are_written_again() {
    for line in OF_THE_FORM {
        let bytes = bytes(line);
        let read = read(&bytes).unwrap_or_else(|| panic!("{line} is not read"));
        assert_eq!(read.to_string().into_bytes(), bytes);
    }
}

#[test]
fn other_lines_do_not_read() {
    for line in NOT_OF_THE_FORM {
        assert_eq!(read(&bytes(line)), None, "{line}");
    }
    for byte in [0, 255, b'\n', b'\r'] {
        for line in OF_THE_FORM {
            let bytes = [bytes(line), vec![byte]].concat();
            assert_eq!(read(&bytes), None, "{line} and byte {byte}");
        }
    }
}

#[test]
fn what_is_written_reads_back() {
    let mut random = Random::new(1);
    let mut longest = 0;
    for _ in 0..500_000 {
        let line = lines::line(&mut random);
        let text = line.to_string();
        longest = longest.max(text.len());
        assert_eq!(read(text.as_bytes()), Some(line), "{text}");
    }
    assert_eq!(longest, 52);
}

/// Every line that reads is what the writer makes of it.
fn writes_again(text: &[u8]) -> usize {
    let mut read_lines = 0;
    for bytes in text.split(|byte| *byte == b'\n') {
        if let Some(line) = read(bytes) {
            read_lines += 1;
            assert_eq!(line.to_string().as_bytes(), bytes);
        }
    }
    read_lines
}

#[test]
fn what_reads_is_written_again() {
    let mut read_lines = 0;
    for seed in 1..=1_000 {
        let mut damaged = Damaged::new(seed);
        for at in 0..DAMAGES.len() {
            read_lines += writes_again(&damaged.case(at).text);
        }
    }
    for case in each_byte() {
        let start = case.text.len().saturating_sub(110);
        read_lines += writes_again(&case.text[start..]);
    }
    assert!(read_lines > 1_000_000, "{read_lines} lines read");
}
