//! Logs at edges: none, one line, any bytes, long lines, and every page with the expand behind it.

use crate::LENT;
use evtchn_fifo_host::corpus::Recorder;
use evtchn_fifo_host::model::log::LoggedCall;

const HEADER: &[u8] = b"accesses\t1\n";
/// Lengths of lines around what a line can have, what is kept of it, and what is read at once.
const LENGTHS: [usize; 12] = [
    51, 52, 53, 63, 64, 65, 4_096, 65_535, 65_536, 65_537, 1_048_576, 3_000_000,
];

/// Each with its name.
pub fn edges() -> Vec<(String, Vec<u8>)> {
    let mut edges: Vec<(String, Vec<u8>)> = Vec::new();
    let mut add = |name: &str, text: &[u8]| edges.push((name.to_string(), text.to_vec()));
    add("empty log", b"");
    add("header alone", HEADER);
    add("header without its newline", &HEADER[..HEADER.len() - 1]);
    add("newline alone", b"\n");
    let bytes: Vec<u8> = (0..=255).collect();
    add("every byte", &bytes);
    add("every page and one expand more", every_page().log.text());
    for byte in 0..=255 {
        add(
            &format!("byte {byte} behind the header"),
            &[HEADER, &[byte, b'\n']].concat(),
        );
    }
    for length in LENGTHS {
        let name = format!("line of {length} bytes");
        let line = [HEADER, &vec![b'X'; length]].concat();
        add(&format!("{name} without its newline"), &line);
        add(&name, &[&line[..], b"\n"].concat());
    }
    edges
}

/// 128 pages, an expand that is refused with 13, and the last port raised and served.
fn every_page() -> Recorder {
    let last = 131_071;
    let mut recorder = Recorder::fresh(LENT);
    recorder.whole(LoggedCall::InitControl {
        vcpu: 0,
        frame: 0,
        offset: 0,
    });
    for frame in 0..129 {
        recorder.whole(LoggedCall::ExpandArray { frame });
    }
    recorder.whole(LoggedCall::Bind(last));
    recorder.whole(LoggedCall::Raise(last));
    recorder.whole(LoggedCall::Service);
    recorder
}
