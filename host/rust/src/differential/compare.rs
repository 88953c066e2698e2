//! What the library gives and holds after a step, compared with the model's.

use super::pair::Pair;
use crate::boundary::records::{self, CLEAR_STAGE, DOMAIN_SIZE, GUEST_SIZE};
use crate::boundary::{calls, ledger, Encoded};
use crate::model::machine::Stepped;
use crate::model::{Answer, Event, Next};

/// What `due` gives where no call is under way.
const NO_CALL: Next = Next::Answer(Answer::NoCall, 0);

/// Refusals that leave every byte as it was: all but 7 and 18.
fn changes_nothing(answer: Answer) -> bool {
    matches!(answer.number(), 3..=6 | 8..=17)
}

impl Pair {
    /// What the library gave and holds after a step, beside the model's.
    pub(super) fn compare(
        &mut self,
        masked: bool,
        stepped: &Stepped,
        encoded: Encoded,
        port: Option<usize>,
    ) -> Result<(), String> {
        let wanted = match (masked, stepped.events.first()) {
            (true, Some(Event::Accessed(accessed))) => Next::Access(accessed.access),
            _ => stepped.next,
        };
        expect("what it gives", encoded.next(), Some(wanted))?;
        let changed = self.follow_entry(port);
        self.compare_records()?;
        self.compare_ledger()?;
        match stepped.next {
            Next::Answer(answer, count) if changes_nothing(answer) => {
                expect("count of a refusal", count, 0)?;
                expect("entry changed by a refusal", changed, false)?;
                self.compare_unchanged()
            }
            _ => self.compare_rest(),
        }
    }

    /// Brings the port's entry of the model into the ledger to compare with; whether it changed.
    fn follow_entry(&mut self, port: Option<usize>) -> bool {
        let Some(port) = port else { return false };
        let Some(entry) = self.world.ledger.get(port) else {
            return false;
        };
        let at = 2 * port;
        let former = [self.ledger[at], self.ledger[at + 1]];
        ledger::put_entry(&mut self.ledger, port, *entry);
        former != [self.ledger[at], self.ledger[at + 1]]
    }

    /// Both records through the decoder, and the accesses that are due.
    pub(super) fn compare_records(&self) -> Result<(), String> {
        let domain = self.lent.domain.bytes();
        if domain.len() >= DOMAIN_SIZE {
            expect("record", records::domain(domain), self.world.domain)?;
            let due = self.world.model.due(&self.world.domain);
            let due = due.map_or(NO_CALL, Next::Access);
            expect("access due", calls::due(domain).next(), Some(due))?;
        }
        let guest = self.lent.guest.bytes();
        if guest.len() >= GUEST_SIZE {
            expect("guest record", records::guest(guest), self.world.guest)?;
            let due = self.world.model.guest_due(&self.world.guest);
            let due = due.map_or(NO_CALL, Next::Access);
            let given = calls::service_due(guest).next();
            expect("guest's access due", given, Some(due))?;
        }
        Ok(())
    }

    /// A clear_mask's steps leave every byte of the guest's record but its own, and other steps of
    /// the guest leave the clear_mask's. One that ends sets its stage to 0 and leaves its other
    /// words.
    pub(super) fn compare_clear_mask(&self, clears: bool, ended: bool) -> Result<(), String> {
        let (bytes, kept) = (self.lent.guest.bytes(), &self.kept.guest[..]);
        let others = 0..CLEAR_STAGE;
        let own = CLEAR_STAGE..GUEST_SIZE;
        if !clears {
            let what = "a clear_mask's bytes";
            return expect(what, &bytes[own.clone()], &kept[own]);
        }
        let what = "bytes that are no clear_mask's";
        expect(what, &bytes[others.clone()], &kept[others])?;
        if ended {
            let what = "stage of an ended clear_mask";
            expect(what, records::number(bytes, CLEAR_STAGE), 0)?;
            let rest = CLEAR_STAGE + 4..GUEST_SIZE;
            expect(
                "words of an ended clear_mask",
                &bytes[rest.clone()],
                &kept[rest],
            )?;
        }
        Ok(())
    }

    /// Every byte of the ledger.
    pub(super) fn compare_ledger(&self) -> Result<(), String> {
        let (lent, wanted) = (self.lent.ledger.bytes(), &self.ledger[..]);
        if lent == wanted {
            return Ok(());
        }
        let at = lent.iter().zip(wanted).position(|(a, b)| a != b);
        Err(format!("ledger byte {at:?} differs"))
    }

    /// Every byte of both records is as before.
    pub(super) fn compare_unchanged(&self) -> Result<(), String> {
        let domain = self.lent.domain.bytes();
        expect("record's bytes", domain, &self.kept.domain[..])?;
        let guest = self.lent.guest.bytes();
        expect("guest record's bytes", guest, &self.kept.guest[..])
    }

    /// The bytes behind both records are as before.
    pub(super) fn compare_rest(&self) -> Result<(), String> {
        let domain = behind(self.lent.domain.bytes(), DOMAIN_SIZE);
        let former = behind(&self.kept.domain, DOMAIN_SIZE);
        expect("bytes behind the record", domain, former)?;
        let guest = behind(self.lent.guest.bytes(), GUEST_SIZE);
        let former = behind(&self.kept.guest, GUEST_SIZE);
        expect("bytes behind the guest record", guest, former)
    }
}

/// The bytes behind a record.
fn behind(bytes: &[u8], size: usize) -> &[u8] {
    bytes.get(size..).unwrap_or(&[])
}

/// An error text where the library's value is not the model's.
pub(super) fn expect<T: PartialEq + std::fmt::Debug>(
    what: &str,
    library: T,
    model: T,
) -> Result<(), String> {
    if library == model {
        return Ok(());
    }
    Err(format!(
        "{what} differs\n library {library:?}\n model   {model:?}"
    ))
}
