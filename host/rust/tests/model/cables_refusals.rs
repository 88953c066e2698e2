//! Refusals of lay, cut and send in their order: every set of lines is built, and the first of them
//! is given with nothing changed.

use evtchn_fifo_host::model::cables::{
    Cables, End, Lent, Named, Part, Refusal, Slot, Table, Which, SLOTS,
};
use evtchn_fifo_host::model::{Answer, Domain, Entry};

/// Cables of domains 30 and 31, which no call names.
fn full() -> Table {
    let number = |domain, at| End::of(domain, 1 + at as u64).map_or(0, End::number);
    let slots = std::array::from_fn(|at| Slot([number(30, at), number(31, at)]));
    Table::new(slots)
}

/// What one end's domain lends, and the end's port.
struct Side {
    domain: u64,
    port: u64,
    record: Domain,
    ledger: Vec<Entry>,
    short: bool,
}

impl Side {
    fn new(holds: &[Refusal], which: Which, domain: u64) -> Self {
        let has = |answer| holds.contains(&Refusal::Port(which, answer));
        let entry = Entry {
            bound: !has(Answer::NotBound),
            ..Entry::FRESH
        };
        let entries = if has(Answer::NoEntry) { 0 } else { 10 };
        Side {
            domain,
            port: if has(Answer::BadPort) { 0 } else { 5 },
            record: Domain {
                given: !has(Answer::NotGiven),
                ..Domain::FRESH
            },
            ledger: vec![entry; entries],
            short: holds.contains(&Refusal::TooShort(Part::Record(which))),
        }
    }

    fn named(&self) -> Named<'_> {
        let lent = Lent {
            record: &self.record,
            ledger: &self.ledger,
        };
        Named {
            domain: self.domain,
            port: self.port,
            lent: (!self.short).then_some(lent),
        }
    }

    /// Puts a cable of this end in a slot.
    fn take(&self, table: &mut Table, at: usize) {
        let far = End::of(32, 1 + at as u64);
        if let (Some(near), Some(far)) = (End::of(self.domain, self.port), far) {
            table.put(at, Slot::of(far, near));
        }
    }
}

/// Every set of the lines, in their order.
fn sets(lines: &[Refusal]) -> impl Iterator<Item = Vec<Refusal>> + '_ {
    (0..1_u32 << lines.len()).map(|set| {
        let chosen = |(at, _): &(usize, &Refusal)| set >> at & 1 == 1;
        let lines = lines.iter().enumerate().filter(chosen);
        lines.map(|(_, line)| *line).collect()
    })
}

/// The numbers of both ends; none where the lines can't hold together.
fn numbers(holds: &[Refusal]) -> Option<(u64, u64)> {
    let bad = |which| holds.contains(&Refusal::BadDomain(which));
    let near = if bad(Which::Near) { 40 } else { 39 };
    let far = if bad(Which::Far) { 1 << 32 } else { 0 };
    match holds.contains(&Refusal::SameDomain) {
        true => (bad(Which::Near) == bad(Which::Far)).then_some((near, near)),
        false => Some((near, far)),
    }
}

#[test]
fn lay_row() {
    let (none, every) = (Table::default(), full());
    for holds in sets(&Refusal::LAY) {
        let Some((near, far)) = numbers(&holds) else {
            continue;
        };
        let near = Side::new(&holds, Which::Near, near);
        let far = Side::new(&holds, Which::Far, far);
        let is_full = holds.contains(&Refusal::TableFull);
        let mut table = if is_full { every.clone() } else { none.clone() };
        for (at, side, which) in [(3, &near, Which::Near), (7, &far, Which::Far)] {
            if holds.contains(&Refusal::Taken(which)) {
                side.take(&mut table, at);
            }
        }
        let before = table.clone();
        let short = holds.contains(&Refusal::TooShort(Part::Table));
        let lent = (!short).then_some(&mut table);
        let laid = Cables::default().lay(lent, near.named(), far.named());
        assert_eq!(laid.err(), holds.first().copied(), "{holds:?}");
        assert_eq!(table == before, laid.is_err(), "{holds:?}");
    }
}

#[test]
fn cut_and_send_rows() {
    for holds in sets(&Refusal::NEAR) {
        let bad = holds.contains(&Refusal::BadDomain(Which::Near));
        let near = Side::new(&holds, Which::Near, if bad { 41 } else { 7 });
        let mut table = full();
        if !holds.contains(&Refusal::NoCable) {
            near.take(&mut table, 1000);
        }
        let before = table.clone();
        let short = holds.contains(&Refusal::TooShort(Part::Table));
        let cables = Cables::default();
        let lent = (!short).then_some(&table);
        let sent = cables.send(lent, near.named(), SLOTS as u32);
        let lent = (!short).then_some(&mut table);
        let cut = cables.cut(lent, near.named());
        let first = holds.first().copied();
        assert_eq!((sent.err(), cut.err()), (first, first), "{holds:?}");
        assert_eq!(table == before, cut.is_err(), "{holds:?}");
    }
}

#[test]
fn numbers_wider_than_the_field() {
    let near = Side::new(&[], Which::Near, 39);
    let far = Side::new(&[], Which::Far, 3);
    let mut table = Table::default();
    for domain in [40, 1 << 32, (1 << 32) + 1, u64::MAX] {
        let named = Named {
            domain,
            ..near.named()
        };
        let laid = Cables::default().lay(Some(&mut table), named, far.named());
        assert_eq!(laid, Err(Refusal::BadDomain(Which::Near)));
    }
    for port in [0, 131_072, 1 << 20, (1 << 32) + 5, u64::MAX] {
        let named = Named {
            port,
            ..near.named()
        };
        let laid = Cables::default().lay(Some(&mut table), named, far.named());
        assert_eq!(laid, Err(Refusal::Port(Which::Near, Answer::BadPort)));
    }
    assert_eq!(table, Table::default());
}
