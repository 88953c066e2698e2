//! Records, ledger, event words and control block that a replay leaves, beside the model's.

use evtchn_fifo_host::boundary::records;
use evtchn_fifo_host::boundary::replay::Lent;
use evtchn_fifo_host::model::{Entry, World};

/// An error text where the library's are not the model's. An odd last byte of the ledger is none
/// of its entries.
pub fn expect(lent: &Lent<'_>, model: &World) -> Result<(), String> {
    let (domain, guest) = (records::domain(lent.domain), records::guest(lent.guest));
    if domain != model.domain {
        return Err(both("record", domain, model.domain));
    }
    if guest != model.guest {
        return Err(both("guest's record", guest, model.guest));
    }
    let mut entries = lent.ledger.chunks_exact(2).zip(&model.ledger);
    let other = |(two, entry): (&[u8], &Entry)| *two != entry.bits().to_le_bytes();
    if let Some(port) = entries.position(other) {
        return Err(format!("the entry of port {port} differs"));
    }
    let mut words = lent.words.iter().zip(&model.memory.words);
    if let Some(port) = words.position(|(library, model)| library != model) {
        return Err(format!("the word of port {port} differs"));
    }
    expect_block(lent, model)
}

fn expect_block(lent: &Lent<'_>, model: &World) -> Result<(), String> {
    let control = &model.memory.control;
    let [ready, reserved, head @ ..] = &*lent.block;
    match (*ready, *reserved, *head) == (control.ready, control.reserved, control.head) {
        true => Ok(()),
        false => Err(both("control block", *lent.block, control)),
    }
}

fn both(what: &str, library: impl std::fmt::Debug, model: impl std::fmt::Debug) -> String {
    format!("the {what} differs\nlibrary {library:?}\nmodel   {model:?}")
}
