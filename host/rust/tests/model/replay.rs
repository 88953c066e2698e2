//! The replay's rules, each by a log of a few lines.

use evtchn_fifo_host::corpus::recorder::{Recorder, Shape};
use evtchn_fifo_host::corpus::sample::sample;
use evtchn_fifo_host::model::log::{Line, LoggedCall};
use evtchn_fifo_host::model::replay::{replay, Replay, Report};
use evtchn_fifo_host::model::{Port, Side};

const BEGUN: &[&str] = &[
    "accesses 1",
    "X call init_control 0 1 0",
    "X answer 0 - - -",
    "X call expand_array - 2 -",
    "X answer 0 - - -",
];
const BOUND: &[&str] = &[
    "X call bind 5 - -",
    "X read w5 - - 00000000",
    "X answer 0 - - -",
];
const RAISED: &[&str] = &[
    "X call raise 5 - -",
    "X or w5 - 80000000 00000000",
    "X or w5 - 20000000 80000000",
    "X store h7 - 00000005 -",
    "X or ready - 00000080 00000000",
    "X answer 1 - - -",
];
const ANSWER_0: &str = "X answer 0 - - -";

/// The text of lines whose fields are parted by spaces.
fn text(parts: &[&[&str]]) -> Vec<u8> {
    let lines = parts.concat().into_iter();
    let text: String = lines.map(|line| line.replace(' ', "\t") + "\n").collect();
    text.into_bytes()
}

/// The report with one page and 1,024 entries lent.
fn report(parts: &[&[&str]]) -> Report {
    replay(1024, 1024, &text(parts))
}

/// That a line differs, and what was due there.
fn differs(parts: &[&[&str]], line: u64, due: &str) {
    let report = report(parts);
    let Report::Differs { line: at, due: was } = report else {
        panic!("{report:?}");
    };
    let was = was.map_or(String::new(), |due| due.to_string());
    assert_eq!((at, was), (line, due.replace(' ', "\t")));
}

#[test]
fn c1_agrees() {
    assert_eq!(report(&[BEGUN, BOUND, RAISED]), Report::Agree(14));
}

#[test]
fn the_header_is_due_first() {
    let header = "accesses 1";
    differs(&[], 1, header);
    differs(&[&["G call service - - -"]], 1, header);
    differs(&[&BEGUN[1..]], 1, header);
    assert_eq!(report(&[&[header]]), Report::Agree(1));
    assert_eq!(report(&[&["accesses 2"]]), Report::Malformed(1));
    assert_eq!(report(&[&["x"]]), Report::Malformed(1));
    differs(&[&[header, header]], 2, "");
    differs(&[&BEGUN[..2], &[header]], 3, ANSWER_0);
}

#[test]
fn what_nothing_brought_differs() {
    differs(&[BEGUN, &[ANSWER_0]], 6, "");
    differs(&[BEGUN, &["X answer 16 - - -"]], 6, "");
    differs(&[BEGUN, &["X or w5 - 80000000 00000000"]], 6, "");
    differs(&[BEGUN, &["G swap ready - 00000000 00000000"]], 6, "");
    let other_side = "G read w5 - - 00000000";
    differs(&[BEGUN, &BOUND[..1], &[other_side]], 7, "");
}

#[test]
fn an_access_is_compared_with_the_word_seen() {
    let due = "X read w5 - - 00000000";
    for line in [
        "X read w5 - - 00000001",
        "X read w6 - - 00000000",
        "X read h5 - - 00000000",
        "X or w5 - 80000000 00000000",
    ] {
        differs(&[BEGUN, &BOUND[..1], &[line]], 7, due);
    }
    let stored = "X store h7 - 00000006 -";
    differs(&[BEGUN, BOUND, &RAISED[..3], &[stored]], 12, RAISED[3]);
}

#[test]
fn an_answer_is_due_behind_the_line_that_brought_it() {
    differs(&[BEGUN, &BOUND[..2], RAISED], 8, ANSWER_0);
    differs(&[BEGUN, &BOUND[..2], &["X answer 1 - - -"]], 8, ANSWER_0);
    differs(&[BEGUN, &BOUND[..2], &["G answer 0 - - -"]], 8, ANSWER_0);
    differs(&[BEGUN, &BOUND[..2]], 8, ANSWER_0);
    let refused = "X answer 4 - - -";
    differs(&[BEGUN, &["X call raise 5 - -"]], 7, refused);
    differs(&[BEGUN, &["X call raise 5 - -", ANSWER_0]], 7, refused);
    assert_eq!(
        report(&[BEGUN, &["X call raise 5 - -", refused]]),
        Report::Agree(7)
    );
}

#[test]
fn a_call_under_way_is_not_due_at_the_end() {
    assert_eq!(report(&[BEGUN, &BOUND[..1]]), Report::Agree(6));
    assert_eq!(report(&[BEGUN, BOUND, &RAISED[..4]]), Report::Agree(12));
    let service = "G call service - - -";
    assert_eq!(report(&[BEGUN, &[service]]), Report::Agree(6));
}

#[test]
fn a_call_during_a_call_brings_15_and_the_first_goes_on() {
    let during = ["X call bind 6 - -", "X answer 15 - - -"];
    let log = [BEGUN, &BOUND[..1], &during, &BOUND[1..], RAISED];
    assert_eq!(report(&log), Report::Agree(16));
    differs(
        &[BEGUN, &BOUND[..1], &during[..1], &BOUND[1..]],
        8,
        during[1],
    );
    let service = "G call service - - -";
    let busy = "G answer 15 - - -";
    assert_eq!(
        report(&[BEGUN, &[service, service, busy]]),
        Report::Agree(8)
    );
}

#[test]
fn a_masks_access_follows_its_call_at_once() {
    let mask = [
        "G call mask 5 - -",
        "G or w5 - 40000000 00000000",
        "G answer 0 - - -",
    ];
    assert_eq!(report(&[BEGUN, &mask]), Report::Agree(8));
    differs(&[BEGUN, &mask[..1]], 7, mask[1]);
    differs(&[BEGUN, &mask[..2]], 8, mask[2]);
    differs(&[BEGUN, &mask[..1], &mask[2..]], 7, mask[1]);
    differs(&[BEGUN, &mask[..1], BOUND], 7, mask[1]);
    differs(
        &[BEGUN, &mask[..1], &["G or w5 - 40000000 40000000"]],
        7,
        mask[1],
    );
    let refused = ["G call mask 1024 - -", "G answer 6 - - -"];
    assert_eq!(report(&[BEGUN, &refused]), Report::Agree(7));
    differs(&[BEGUN, &refused[..1]], 7, refused[1]);
    let service = "G call service - - -";
    let idle = ["G swap ready - 00000000 00000000", "G answer 20 - - -"];
    assert_eq!(
        report(&[BEGUN, &[service], &mask, &idle]),
        Report::Agree(11)
    );
}

/// The accesses of a clear_mask come when they come, and the service's after its answer.
#[test]
fn a_clear_masks_accesses_are_the_guests_until_its_answer() {
    let mask = [
        "G call mask 5 - -",
        "G or w5 - 40000000 00000000",
        "G answer 0 - - -",
    ];
    let clear = [
        "G call clear_mask 5 - -",
        "G read w5 - - 40000000",
        "G cas w5 40000000 00000000 40000000",
        "G answer 0 - - -",
    ];
    assert_eq!(report(&[BEGUN, &mask, &clear]), Report::Agree(12));
    assert_eq!(report(&[BEGUN, &mask, &clear[..1]]), Report::Agree(9));
    assert_eq!(report(&[BEGUN, &mask, &clear[..2]]), Report::Agree(10));
    differs(&[BEGUN, &mask, &clear[..3]], 12, clear[3]);
    let refused = ["X call raise 5 - -", "X answer 4 - - -"];
    let between = report(&[BEGUN, &mask, &clear[..2], &refused, &clear[2..]]);
    assert_eq!(between, Report::Agree(14));
    let service = "G call service - - -";
    let idle = ["G swap ready - 00000000 00000000", "G answer 20 - - -"];
    let during = report(&[BEGUN, &mask, &[service], &clear, &idle]);
    assert_eq!(during, Report::Agree(15));
    differs(
        &[BEGUN, &mask, &[service], &clear[..1], &idle],
        11,
        clear[1],
    );
    let refused = [service, "G answer 15 - - -"];
    let refused = report(&[BEGUN, &mask, &clear[..1], &refused, &clear[1..]]);
    assert_eq!(refused, Report::Agree(14));
    let again = ["G call clear_mask 9 - -", "G answer 15 - - -"];
    let again = report(&[BEGUN, &mask, &clear[..1], &again, &clear[1..]]);
    assert_eq!(again, Report::Agree(14));
}

#[test]
fn a_clear_mask_answers_35_and_is_refused() {
    let masked = [
        "G call mask 5 - -",
        "G or w5 - 40000000 00000000",
        "G answer 0 - - -",
        "X call raise 5 - -",
        "X or w5 - 80000000 40000000",
        "X answer 0 - - -",
        "G call clear_mask 5 - -",
        "G read w5 - - C0000000",
        "G answer 35 - - -",
    ];
    assert_eq!(report(&[BEGUN, BOUND, &masked]), Report::Agree(17));
    let done = "G answer 0 - - -";
    differs(&[BEGUN, BOUND, &masked[..8], &[done]], 17, masked[8]);
    for (port, number) in [(0, 3), (1024, 6), (131_072, 3)] {
        let call = format!("G call clear_mask {port} - -");
        let answer = format!("G answer {number} - - -");
        assert_eq!(report(&[BEGUN, &[&call, &answer]]), Report::Agree(7));
        differs(&[BEGUN, &[&call]], 7, &answer);
    }
    differs(
        &[&["accesses 1", "G call clear_mask 1 - -"]],
        3,
        "G answer 6 - - -",
    );
}

/// A guest masks port 5 between the read and the cas of a raise behind it: the or that sets BUSY
/// is due, where an older log has a second cas.
#[test]
fn a_second_cas_follows_the_or() {
    let bound = [
        "X call bind 9 - -",
        "X read w9 - - 00000000",
        "X answer 0 - - -",
    ];
    let raised = [
        "X call raise 9 - -",
        "X or w9 - 80000000 00000000",
        "X or w9 - 20000000 80000000",
        "X read w5 - - A0000000",
        "G call mask 5 - -",
        "G or w5 - 40000000 A0000000",
        "G answer 0 - - -",
        "X cas w5 A0000000 A0000009 E0000000",
    ];
    let busy = [
        "X or w5 - 10000000 E0000000",
        "X cas w5 F0000000 E0000009 F0000000",
        "X answer 0 - - -",
    ];
    let begun: &[&[&str]] = &[BEGUN, BOUND, RAISED, &bound, &raised];
    let log = [begun, &[&busy]].concat();
    assert_eq!(report(&log), Report::Agree(28));
    let older = "X cas w5 E0000000 E0000009 E0000000";
    differs(&[begun, &[&[older]]].concat(), 26, busy[0]);
}

#[test]
fn a_line_not_of_the_form_gives_22_unless_an_earlier_line_differs() {
    assert_eq!(report(&[BEGUN, &["x"]]), Report::Malformed(6));
    assert_eq!(report(&[&BEGUN[..2], &["x"]]), Report::Malformed(3));
    assert_eq!(report(&[BEGUN, &["x"], &[ANSWER_0]]), Report::Malformed(6));
    assert_eq!(report(&[BEGUN, &[""]]), Report::Malformed(6));
    differs(&[BEGUN, &[ANSWER_0, "x"]], 6, "");
}

#[test]
fn a_last_line_without_its_newline_gives_22() {
    let whole = text(&[BEGUN, BOUND]);
    for length in 0..whole.len() {
        let begun = &whole[..length];
        let line = 1 + begun.iter().filter(|byte| **byte == b'\n').count() as u64;
        let report = replay(1024, 1024, begun);
        match begun.last() {
            None | Some(b'\n') => assert_ne!(report.kind(), 22),
            Some(_) => assert_eq!(report, Report::Malformed(line)),
        }
    }
    let mut stray = text(&[BEGUN, &[ANSWER_0]]);
    stray.push(b'X');
    assert_eq!(replay(1024, 1024, &stray).kind(), 1);
}

#[test]
fn an_expand_past_the_pages_lent_gives_33() {
    let again = "X call expand_array - 3 -";
    assert_eq!(report(&[BEGUN, &[again]]), Report::NotLent(6));
    assert_eq!(
        report(&[BEGUN, &[again, ANSWER_0, "x"]]),
        Report::NotLent(6)
    );
    differs(
        &[BEGUN, &["X call raise 5 - -", again]],
        7,
        "X answer 4 - - -",
    );
    differs(&[BEGUN, &[ANSWER_0, again]], 6, "");
    assert_eq!(report(&[BEGUN, &["x", again]]), Report::Malformed(6));
    let lent = |words| replay(1024, words, &text(&[BEGUN]));
    for words in [0, 500, 1023] {
        assert_eq!(lent(words), Report::NotLent(4));
    }
    for words in [1024, 2047] {
        assert_eq!(lent(words), Report::Agree(5));
        let twice = replay(1024, words, &text(&[BEGUN, &[again, ANSWER_0]]));
        assert_eq!(twice, Report::NotLent(6));
    }
    let twice = replay(1024, 2048, &text(&[BEGUN, &[again, ANSWER_0]]));
    assert_eq!(twice, Report::Agree(7));
}

#[test]
fn an_expand_that_is_refused_gives_no_33() {
    let not_given = [
        "accesses 1",
        "X call expand_array - 3 -",
        "X answer 10 - - -",
    ];
    assert_eq!(report(&[&not_given]), Report::Agree(3));
    let bad_frame = ["X call expand_array - 1024 -", "X answer 11 - - -"];
    assert_eq!(report(&[BEGUN, &bad_frame]), Report::Agree(7));
    let during = ["X call expand_array - 3 -", "X answer 15 - - -"];
    assert_eq!(report(&[BEGUN, &BOUND[..1], &during]), Report::Agree(8));
}

#[test]
fn the_129th_page_gives_13_however_much_is_lent() {
    for pages in [128, 129, 200] {
        let shape = Shape {
            words: pages * 1024,
            entries: 0,
        };
        let mut recorder = Recorder::fresh(shape);
        recorder.whole(LoggedCall::InitControl {
            vcpu: 0,
            frame: 0,
            offset: 0,
        });
        for frame in 0..129 {
            recorder.whole(LoggedCall::ExpandArray { frame });
        }
        let last = recorder.lines.last().map(Line::to_string);
        assert_eq!(last.as_deref(), Some("X\tanswer\t13\t-\t-\t-"));
        let report = replay(shape.entries, shape.words, recorder.log.text());
        assert_eq!(report, Report::Agree(3 + 2 * 129));
    }
}

#[test]
fn the_guest_is_told_of_a_page_at_once() {
    let again = ["X call expand_array - 3 -", "X answer 0 - - -"];
    let mask = |port: u32| {
        let call = format!("G call mask {port} - -");
        let access = format!("G or w{port} - 40000000 00000000");
        [call, access, "G answer 0 - - -".to_string()]
    };
    let mask = mask(2047);
    let mask: Vec<&str> = mask.iter().map(String::as_str).collect();
    let log = text(&[BEGUN, &again, &mask]);
    assert_eq!(replay(0, 2048, &log), Report::Agree(10));
    let outside = ["G call mask 2048 - -", "G answer 6 - - -"];
    let log = text(&[BEGUN, &again, &outside]);
    assert_eq!(replay(0, 4096, &log), Report::Agree(9));
}

#[test]
fn the_ledger_has_as_many_entries_as_are_lent() {
    let log = text(&[BEGUN, BOUND]);
    assert_eq!(replay(6, 1024, &log), Report::Agree(8));
    for entries in [0, 5] {
        let due = Some(Line::Answer {
            side: Side::Hypervisor,
            number: 14,
            port: None,
        });
        assert_eq!(
            replay(entries, 1024, &log),
            Report::Differs { line: 7, due }
        );
    }
}

#[test]
fn answers_19_and_21_have_their_port() {
    let served = [
        "G call service - - -",
        "G swap ready - 00000000 00000080",
        "G read h7 - - 00000005",
        "G and w5 - DFFE0000 A0000000",
        "G read w5 - - 80000000",
        "G and w5 - 7FFFFFFF 80000000",
        "G answer 19 5 - -",
    ];
    assert_eq!(report(&[BEGUN, BOUND, RAISED, &served]), Report::Agree(21));
    let due = "G answer 19 5 - -";
    differs(
        &[BEGUN, BOUND, RAISED, &served[..6], &["G answer 19 6 - -"]],
        21,
        due,
    );
    differs(
        &[BEGUN, BOUND, RAISED, &served[..6], &["G answer 21 5 - -"]],
        21,
        due,
    );
    let line = Line::Answer {
        side: Side::Guest,
        number: 19,
        port: Some(Port(5)),
    };
    assert_eq!(line.to_string(), due.replace(' ', "\t"));
}

/// A log fed in two pieces, at every place, and byte by byte, is the log.
#[test]
fn pieces_do_not_matter() {
    let recorder = sample();
    let text = recorder.log.text();
    let whole = Report::Agree(recorder.lines.len() as u64);
    for at in 0..=text.len() {
        let mut replay = Replay::start(1600, 2048);
        replay.feed(&text[..at]);
        let begun = replay.report();
        assert_eq!(
            begun,
            evtchn_fifo_host::model::replay::replay(1600, 2048, &text[..at])
        );
        replay.feed(&text[at..]);
        assert_eq!(replay.report(), whole);
    }
    let mut replay = Replay::start(1600, 2048);
    for byte in text {
        replay.feed(&[]);
        replay.feed(&[*byte]);
    }
    assert_eq!(replay.report(), whole);
}
