//! lay, cut and send, refusals in their order, and the close that falls. All of them read records
//! and ledgers as they stand, and change the table alone.

use super::refusal::{Part, Refusal, Which};
use super::table::{End, Table};
use super::Cables;
use crate::model::answer::Next;
use crate::model::domain::Domain;
use crate::model::entry::Entry;
use crate::model::machine::{Side, Step};

/// An end as a call names it, by any numbers.
#[derive(Clone, Copy)]
pub struct Named<'a> {
    /// Number of its domain.
    pub domain: u64,
    /// Its port.
    pub port: u64,
    /// What is lent of its domain; none where that is too short for a record.
    pub lent: Option<Lent<'a>>,
}

/// What is lent of a domain, to be read.
#[derive(Clone, Copy)]
pub struct Lent<'a> {
    /// The hypervisor's record.
    pub record: &'a Domain,
    /// The ledger.
    pub ledger: &'a [Entry],
}

/// What a send finds: the host raises the far end's port in the far end's domain.
#[derive(Clone, Copy, Debug, PartialEq, Eq)]
pub struct Found {
    /// The other end of the cable.
    pub far: End,
    /// The cable's slot.
    pub slot: usize,
}

impl Cables {
    /// lay: 23, 24, 64, then 10, 3, 14, 4 for each end in turn, 25, 34. The lowest free slot takes
    /// the two ends.
    pub fn lay(
        &self,
        table: Option<&mut Table>,
        near: Named<'_>,
        far: Named<'_>,
    ) -> Result<usize, Refusal> {
        let numbers = self.known_numbers(&near, &far);
        let differ = self.in_two_domains(&near, &far);
        let whole = whole_table(table).and_then(|table| {
            let near_lent = whole_record(&near, Which::Near)?;
            Ok((table, near_lent, whole_record(&far, Which::Far)?))
        });
        let (table, near_lent, far_lent) = self.before_ports(numbers, differ, whole)?;
        let near = self.check(&near, near_lent, Which::Near);
        let far = self.check(&far, far_lent, Which::Far);
        let (near, far) = self.in_turn(near, far)?;
        let untaken = self.untaken(table, near, far);
        let free = self.free_slot(table).ok_or(Refusal::TableFull);
        let slot = self.before_laying(untaken, free)?;
        table.put(slot, self.laid(near, far));
        Ok(slot)
    }

    /// cut, from either end: 23, 64, then 10, 3, 14, 4, then 26. Every slot that has the end
    /// becomes free.
    pub fn cut(&self, table: Option<&mut Table>, near: Named<'_>) -> Result<(), Refusal> {
        let (table, end) = self.near_end(table, &near)?;
        table.lowest(end).ok_or(self.no_cable())?;
        self.free_every(table, end);
        Ok(())
    }

    /// send: 23, 64, then 10, 3, 14, 4, then 26. It goes through whatever the near domain has
    /// under way; the far raise has its own answers.
    pub fn send(
        &self,
        table: Option<&Table>,
        near: Named<'_>,
        hint: u32,
    ) -> Result<Found, Refusal> {
        let (table, end) = self.near_end(table, &near)?;
        self.at_rest(&near)?;
        let slot = self.find(table, end, hint).ok_or(self.no_cable())?;
        let far = self.across(table.slots()[slot], end);
        Ok(Found { far, slot })
    }

    /// The end of a cut or a send, with the table: 23, 64, then 10, 3, 14, 4.
    fn near_end<T>(&self, table: Option<T>, near: &Named<'_>) -> Result<(T, End), Refusal> {
        let which = Which::Near;
        let whole = whole_table(table).and_then(|table| Ok((table, whole_record(near, which)?)));
        let (table, lent) = self.before_ports(self.known(near, which), Ok(()), whole)?;
        Ok((table, self.check(near, lent, which)?))
    }

    /// What a step of domain `number`, whose record was `before`, does to the table: a close that
    /// falls frees every slot that has its end, and nothing happens where none has.
    pub fn follow(&self, table: &mut Table, number: u64, before: &Domain, step: Step, next: Next) {
        let port = self.falling(before, step, next);
        if let Some(end) = port.and_then(|port| self.closed_end(number, port)) {
            self.free_every(table, end);
        }
    }

    /// The port of a close that falls: at its start where that answers 0, the port being outside
    /// the array, or else at its reply where that is not refused.
    fn falling(&self, before: &Domain, step: Step, next: Next) -> Option<u64> {
        match step {
            Step::Close(port) if self.falls_at_start(next) => Some(port),
            Step::Access(Side::Hypervisor) | Step::HandBack(Side::Hypervisor, _) => {
                let call = before.call?;
                let falls = self.falls_at_reply(&call, next);
                falls.then_some(call.port.0.into())
            }
            _ => None,
        }
    }

    /// 10, 3, 14, 4: neither 15 nor 6 is among them.
    fn check(&self, named: &Named<'_>, lent: Lent<'_>, which: Which) -> Result<End, Refusal> {
        let port = self.model.check(lent.record, lent.ledger, named.port);
        let port = port.map_err(|answer| Refusal::Port(which, answer))?;
        self.in_array(lent, port, which)?;
        End::of(self.whole(named.domain), port.0.into()).ok_or(Refusal::BadDomain(which))
    }
}

/// 64 for the table.
fn whole_table<T>(table: Option<T>) -> Result<T, Refusal> {
    table.ok_or(Refusal::TooShort(Part::Table))
}

/// 64 for a record.
fn whole_record<'a>(named: &Named<'a>, which: Which) -> Result<Lent<'a>, Refusal> {
    let short = Refusal::TooShort(Part::Record(which));
    named.lent.ok_or(short)
}
