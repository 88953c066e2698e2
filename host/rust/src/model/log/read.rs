//! The reader of lines: a line is split at its tabs and each field is checked by itself.

use super::line::{Line, LoggedCall};
use crate::model::access::{Access, Op, Place};
use crate::model::kinds::{Port, Queue};
use crate::model::machine::Side;

type Field<'a> = &'a [u8];

/// The line that the bytes are, given without their newline; none where they are not of the form.
pub fn read(bytes: &[u8]) -> Option<Line> {
    let mut fields = bytes.split(|byte| *byte == b'\t');
    let mut field = || fields.next();
    let (first, second) = (field()?, field()?);
    if first == b"accesses" {
        return (second == b"1" && field().is_none()).then_some(Line::Header);
    }
    let side = side(first)?;
    let rest = [field()?, field()?, field()?, field()?];
    if field().is_some() {
        return None;
    }
    match second {
        b"call" => call(side, rest).map(Line::Call),
        b"answer" => answer(side, rest),
        kind => access(side, kind, rest),
    }
}

fn side(field: Field<'_>) -> Option<Side> {
    match field {
        b"X" => Some(Side::Hypervisor),
        b"G" => Some(Side::Guest),
        _ => None,
    }
}

/// A call by its name, which is one of its side's.
fn call(side: Side, [name, first, second, third]: [Field<'_>; 4]) -> Option<LoggedCall> {
    let on_port = || {
        dashes([second, third])?;
        decimal(first)
    };
    let call = match name {
        b"init_control" => LoggedCall::InitControl {
            vcpu: decimal(first)?,
            frame: decimal(second)?,
            offset: decimal(third)?,
        },
        b"expand_array" => {
            dashes([first, third])?;
            let frame = decimal(second)?;
            LoggedCall::ExpandArray { frame }
        }
        b"set_priority" => {
            dashes([third])?;
            let (port, priority) = (decimal(first)?, decimal(second)?);
            LoggedCall::SetPriority { port, priority }
        }
        b"bind" => LoggedCall::Bind(on_port()?),
        b"close" => LoggedCall::Close(on_port()?),
        b"raise" => LoggedCall::Raise(on_port()?),
        b"unmask" => LoggedCall::Unmask(on_port()?),
        b"mask" => LoggedCall::Mask(on_port()?),
        b"clear_mask" => LoggedCall::ClearMask(on_port()?),
        b"service" => {
            dashes([first, second, third])?;
            LoggedCall::Service
        }
        _ => return None,
    };
    (call.side() == side).then_some(call)
}

/// An answer: its number, a port exactly for 19 and 21, two dashes.
fn answer(side: Side, [number, port, third, fourth]: [Field<'_>; 4]) -> Option<Line> {
    dashes([third, fourth])?;
    let number = decimal(number)?;
    let port = match number {
        19 | 21 => Some(Port(decimal(port)?)),
        _ => {
            dashes([port])?;
            None
        }
    };
    Some(Line::Answer { side, number, port })
}

/// An access: its place, then old, operand and seen as its kind has them.
fn access(side: Side, kind: Field<'_>, [at, old, operand, seen]: [Field<'_>; 4]) -> Option<Line> {
    let place = place(at)?;
    let (op, seen) = match kind {
        b"read" => {
            dashes([old, operand])?;
            (Op::Read, Some(word(seen)?))
        }
        b"store" => {
            dashes([old, seen])?;
            (Op::Store(word(operand)?), None)
        }
        b"cas" => {
            let (old, new) = (word(old)?, word(operand)?);
            (Op::Cas { old, new }, Some(word(seen)?))
        }
        _ => {
            dashes([old])?;
            (fetch(kind, word(operand)?)?, Some(word(seen)?))
        }
    };
    let access = Access { place, op };
    Some(Line::Access { side, access, seen })
}

/// The kinds with an operand and a word seen and no old word.
fn fetch(kind: Field<'_>, operand: u32) -> Option<Op> {
    match kind {
        b"or" => Some(Op::Or(operand)),
        b"and" => Some(Op::And(operand)),
        b"swap" => Some(Op::Swap(operand)),
        _ => None,
    }
}

/// `w` and a decimal, `ready`, or `h` and a decimal.
fn place(field: Field<'_>) -> Option<Place> {
    match field {
        b"ready" => Some(Place::Ready),
        [b'w', port @ ..] => Some(Place::Word(Port(decimal(port)?))),
        [b'h', queue @ ..] => Some(Place::Head(Queue(decimal(queue)?))),
        _ => None,
    }
}

/// `Some` where every field is a dash.
fn dashes<const N: usize>(fields: [Field<'_>; N]) -> Option<()> {
    fields.iter().all(|field| *field == b"-").then_some(())
}

/// Decimal digits without a leading zero, of a number below 2^32.
fn decimal(field: Field<'_>) -> Option<u32> {
    if field.is_empty() || (field.len() > 1 && field[0] == b'0') {
        return None;
    }
    field.iter().try_fold(0_u32, |number, byte| {
        let digit = byte.is_ascii_digit().then(|| u32::from(byte - b'0'))?;
        number.checked_mul(10)?.checked_add(digit)
    })
}

/// Eight upper-case hex digits.
fn word(field: Field<'_>) -> Option<u32> {
    if field.len() != 8 {
        return None;
    }
    field.iter().try_fold(0, |number, byte| {
        let digit = match byte {
            b'0'..=b'9' => byte - b'0',
            b'A'..=b'F' => byte - b'A' + 10,
            _ => return None,
        };
        Some(number << 4 | u32::from(digit))
    })
}
