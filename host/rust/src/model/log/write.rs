//! The writer of lines.

use super::line::Line;
use crate::model::access::Place;
use crate::model::machine::{Event, Side};
use std::fmt::{self, Display, Formatter};

/// The log of a history without call lines.
pub fn log(events: &[Event]) -> String {
    let mut text = format!("{}\n", Line::Header);
    for line in events.iter().filter_map(Line::of) {
        text.push_str(&format!("{line}\n"));
    }
    text
}

/// The line without its newline.
impl Display for Line {
    fn fmt(&self, out: &mut Formatter<'_>) -> fmt::Result {
        match *self {
            Line::Header => write!(out, "accesses\t1"),
            Line::Call(call) => {
                let [first, second, third] = call.arguments().map(decimal);
                let (side, name) = (letter(call.side()), call.name());
                write!(out, "{side}\tcall\t{name}\t{first}\t{second}\t{third}")
            }
            Line::Access { side, access, seen } => {
                let (side, kind, place) = (letter(side), access.op.kind(), place(access.place));
                let [old, operand, seen] = [access.op.old(), access.op.operand(), seen].map(word);
                write!(out, "{side}\t{kind}\t{place}\t{old}\t{operand}\t{seen}")
            }
            Line::Answer { side, number, port } => {
                let (side, port) = (letter(side), decimal(port.map(|port| port.0)));
                write!(out, "{side}\tanswer\t{number}\t{port}\t-\t-")
            }
        }
    }
}

fn letter(side: Side) -> char {
    match side {
        Side::Hypervisor => 'X',
        Side::Guest => 'G',
    }
}

/// A place: `w` and the port, `ready`, or `h` and the queue.
pub fn place(place: Place) -> String {
    match place {
        Place::Word(port) => format!("w{}", port.0),
        Place::Ready => "ready".to_string(),
        Place::Head(queue) => format!("h{}", queue.0),
    }
}

/// Eight upper-case hex digits, or a dash.
fn word(word: Option<u32>) -> String {
    word.map_or("-".to_string(), |w| format!("{w:08X}"))
}

/// A decimal, or a dash.
fn decimal(number: Option<u32>) -> String {
    number.map_or("-".to_string(), |n| n.to_string())
}
