//! The kinds of lines that a good log can have.

use crate::model::log::{Line, LoggedCall};
use crate::model::{Op, Place, Side};

/// Every kind by its first fields: of an access side, kind and what the place is; of an answer
/// side and number; of a call side and name.
pub const KINDS: [&str; 47] = [
    "header",
    "X read w",
    "X store h",
    "X or w",
    "X or ready",
    "X and w",
    "X cas w",
    "G swap ready",
    "G read h",
    "G read w",
    "G and w",
    "G or w",
    "G cas w",
    "X answer 0",
    "X answer 1",
    "X answer 3",
    "X answer 4",
    "X answer 5",
    "X answer 6",
    "X answer 7",
    "X answer 8",
    "X answer 9",
    "X answer 10",
    "X answer 11",
    "X answer 12",
    "X answer 13",
    "X answer 14",
    "X answer 15",
    "X answer 17",
    "G answer 0",
    "G answer 3",
    "G answer 6",
    "G answer 15",
    "G answer 19",
    "G answer 20",
    "G answer 21",
    "G answer 35",
    "X call init_control",
    "X call expand_array",
    "X call bind",
    "X call close",
    "X call set_priority",
    "X call raise",
    "X call unmask",
    "G call service",
    "G call mask",
    "G call clear_mask",
];

/// The place of a line's kind in `KINDS`; none where no run from fresh records has such a line.
pub fn kind(line: &Line) -> Option<usize> {
    match *line {
        Line::Header => Some(0),
        Line::Access { side, access, .. } => match side {
            Side::Hypervisor => hypervisor_access(access.op, access.place),
            Side::Guest => guest_access(access.op, access.place),
        },
        Line::Answer { side, number, .. } => {
            let (first, numbers): (usize, &[u32]) = match side {
                Side::Hypervisor => (13, &HYPERVISOR_ANSWERS),
                Side::Guest => (29, &GUEST_ANSWERS),
            };
            let at = numbers.iter().position(|known| *known == number)?;
            Some(first + at)
        }
        Line::Call(call) => Some(37 + call_kind(call)),
    }
}

const HYPERVISOR_ANSWERS: [u32; 16] = [0, 1, 3, 4, 5, 6, 7, 8, 9, 10, 11, 12, 13, 14, 15, 17];
const GUEST_ANSWERS: [u32; 8] = [0, 3, 6, 15, 19, 20, 21, 35];

fn hypervisor_access(op: Op, place: Place) -> Option<usize> {
    match (op, place) {
        (Op::Read, Place::Word(_)) => Some(1),
        (Op::Store(_), Place::Head(_)) => Some(2),
        (Op::Or(_), Place::Word(_)) => Some(3),
        (Op::Or(_), Place::Ready) => Some(4),
        (Op::And(_), Place::Word(_)) => Some(5),
        (Op::Cas { .. }, Place::Word(_)) => Some(6),
        _ => None,
    }
}

fn guest_access(op: Op, place: Place) -> Option<usize> {
    match (op, place) {
        (Op::Swap(_), Place::Ready) => Some(7),
        (Op::Read, Place::Head(_)) => Some(8),
        (Op::Read, Place::Word(_)) => Some(9),
        (Op::And(_), Place::Word(_)) => Some(10),
        (Op::Or(_), Place::Word(_)) => Some(11),
        (Op::Cas { .. }, Place::Word(_)) => Some(12),
        _ => None,
    }
}

fn call_kind(call: LoggedCall) -> usize {
    match call {
        LoggedCall::InitControl { .. } => 0,
        LoggedCall::ExpandArray { .. } => 1,
        LoggedCall::Bind(_) => 2,
        LoggedCall::Close(_) => 3,
        LoggedCall::SetPriority { .. } => 4,
        LoggedCall::Raise(_) => 5,
        LoggedCall::Unmask(_) => 6,
        LoggedCall::Service => 7,
        LoggedCall::Mask(_) => 8,
        LoggedCall::ClearMask(_) => 9,
    }
}

#[cfg(test)]
mod tests {
    use super::*;
    use crate::corpus::lines;
    use crate::random::Random;

    /// A line begins with the fields of its kind.
    #[test]
    fn kinds_are_named_by_their_lines() {
        let mut random = Random::new(1);
        let mut met = [false; KINDS.len()];
        for _ in 0..20_000 {
            let line = lines::line(&mut random);
            let Some(kind) = kind(&line) else { continue };
            met[kind] = true;
            let text = line.to_string().replace('\t', " ");
            let name = KINDS[kind].replace("header", "accesses 1");
            assert!(text.starts_with(&name), "{text} is no {name}");
        }
        assert_eq!(met, [true; KINDS.len()]);
    }
}
