//! Honest histories: two to forty domains from fresh records and a fresh table, each call's
//! accesses made one at a time among the others' calls, and ledgers lent short now and then.

use super::asked::EndAt;
use super::cabled::Cabled;
use super::claims;
use super::ends::{bad_domain, bad_port, hint};
use super::ledgers::Ledgers;
use crate::boundary::cables::TABLE_SIZE;
use crate::differential::lent::edge;
use crate::model::cables::{End, DOMAINS};
use crate::model::domain::PAGE_WORDS;
use crate::model::{Answer, Event, Model, Next, Owner, Side, Step, World};
use crate::random::Random;

/// Calls after every domain has begun.
const LENGTH: usize = 400;
/// Pages of event words that are lent.
const PAGES: u32 = 2;
/// Ports in the first page and in the second, which is often outside the array.
const PORTS: [u64; 8] = [1, 2, 5, 1023, 1024, 1025, 1500, 2047];
/// Slots that have most of the cables.
const USED: u64 = 16;
/// Domains that are looked at for one in a given state.
const LOOKS: usize = 6;

/// What a history goes by.
struct Honest {
    domains: Vec<u64>,
    ports: Vec<u64>,
    ledgers: Ledgers,
    /// The word of an access whose reply was refused with 14.
    seen: Vec<Option<u32>>,
}

/// One history from a seed.
pub fn history(cabled: &mut Cabled, random: &mut Random) -> Result<(), String> {
    let mut honest = Honest::new(random);
    honest.begin(cabled, random)?;
    let begun = cabled.length();
    while cabled.length() < begun + LENGTH {
        honest.next(cabled, random)?;
        honest.check(cabled)?;
    }
    let mut pairs = honest.domains.iter().map(|at| &cabled.pairs[*at as usize]);
    pairs.try_for_each(|pair| pair.finish())
}

impl Honest {
    fn new(random: &mut Random) -> Self {
        let number = match random.below(16) {
            0 => DOMAINS,
            1..=3 => 6 + random.below(10),
            _ => 2 + random.below(3),
        };
        let mut domains: Vec<u64> = (0..DOMAINS).collect();
        while domains.len() as u64 > number {
            domains.swap_remove(random.below(domains.len() as u64) as usize);
        }
        let ports = 2 + random.below(4);
        Honest {
            domains,
            ports: (0..ports).map(|_| random.pick(&PORTS)).collect(),
            ledgers: Ledgers::default(),
            seen: vec![None; DOMAINS as usize],
        }
    }

    /// Fresh records; then mostly a block, a page and bound ports.
    fn begin(&self, cabled: &mut Cabled, random: &mut Random) -> Result<(), String> {
        let table = vec![0; TABLE_SIZE + random.pick(&[0, 0, 1, 100])];
        cabled.begin(DOMAINS as usize, &table, edge(random));
        for at in self.domains.iter().map(|at| *at as usize) {
            let words = (PAGES * PAGE_WORDS) as usize;
            let entries = random.pick(&[1100, 2100, 2100, 2100]);
            let world = World::fresh(Model::default(), words, entries);
            cabled.pairs[at].begin_fresh(world, random, &mut cabled.steps)?;
            if random.once_in(32) {
                continue;
            }
            cabled.plain(at, init())?;
            if !random.once_in(8) {
                expand(cabled, at)?;
            }
            for port in &self.ports {
                cabled.plain(at, Step::Bind(*port))?;
                cabled.plain(at, Step::Access(Side::Hypervisor))?;
            }
        }
        Ok(())
    }

    /// The next call.
    fn next(&mut self, cabled: &mut Cabled, random: &mut Random) -> Result<(), String> {
        let at = random.pick(&self.domains) as usize;
        match random.below(100) {
            0..=24 => self.go_on(cabled, random),
            25..=34 => self.bind(cabled, random),
            35..=49 => self.lay(cabled, random),
            50..=54 => {
                let end = self.end(cabled, random);
                cabled.cut(end).map(drop)
            }
            55..=66 => {
                let end = self.end(cabled, random);
                send(cabled, random, end)
            }
            67..=73 => self.close(cabled, random),
            74..=85 => self.while_closing(cabled, random),
            86..=89 => {
                self.lend(cabled, random);
                Ok(())
            }
            90 if cabled.pairs[at].world.domain.pages < PAGES => expand(cabled, at),
            91..=95 => guest(cabled, at),
            _ => self.other(cabled, random, at),
        }
    }

    /// A domain of those looked at whose call under way is one of these.
    fn find(
        &self,
        cabled: &Cabled,
        random: &mut Random,
        is: impl Fn(Owner) -> bool,
    ) -> Option<usize> {
        (0..LOOKS).find_map(|_| {
            let at = random.pick(&self.domains) as usize;
            let call = cabled.pairs[at].world.domain.call;
            call.is_some_and(|call| is(call.owner)).then_some(at)
        })
    }

    /// The access that a call under way waits for, with its reply. After a 14 the same word is
    /// handed back.
    fn go_on(&mut self, cabled: &mut Cabled, random: &mut Random) -> Result<(), String> {
        let Some(at) = self.find(cabled, random, |_| true) else {
            return self.bind(cabled, random);
        };
        let step = match self.seen[at].take() {
            Some(seen) => Step::HandBack(Side::Hypervisor, seen),
            None => Step::Access(Side::Hypervisor),
        };
        let call = cabled.pairs[at].world.domain.call;
        let closes = call.is_some_and(|call| call.owner == Owner::Close);
        let stepped = match closes || random.once_in(2) {
            true => cabled.step(at, at as u64, step)?,
            false => cabled.plain(at, step)?,
        };
        let accessed = stepped.and_then(|stepped| stepped.events.first().copied());
        if let Some(Event::Accessed(accessed)) = accessed {
            self.seen[at] = (!accessed.accepted).then_some(accessed.seen);
        }
        Ok(())
    }

    /// A bind, mostly of a port that is not bound.
    fn bind(&self, cabled: &mut Cabled, random: &mut Random) -> Result<(), String> {
        let unbound = |named: &EndAt| {
            let end = End::of(named.domain, named.port);
            !end.is_some_and(|end| self.ledgers.is_bound(cabled, end))
        };
        let found = (0..LOOKS).map(|_| self.any_end(random)).find(unbound);
        let end = found.unwrap_or_else(|| self.any_end(random));
        cabled.plain(end.at, Step::Bind(end.port)).map(drop)
    }

    fn lay(&self, cabled: &mut Cabled, random: &mut Random) -> Result<(), String> {
        let (mut near, mut far) = (self.any_end(random), self.any_end(random));
        if near.at == far.at && !random.once_in(8) {
            far = self.any_end(random);
        }
        if random.once_in(4) {
            near = self.end(cabled, random);
        }
        match random.below(40) {
            0 => near.domain = bad_domain(random, near.domain),
            1 => far.domain = bad_domain(random, far.domain),
            2 => near.port = bad_port(random, near.port),
            3 => far.port = bad_port(random, far.port),
            _ => {}
        }
        cabled.lay(near, far).map(drop)
    }

    fn close(&self, cabled: &mut Cabled, random: &mut Random) -> Result<(), String> {
        let end = self.end(cabled, random);
        let step = Step::Close(end.port);
        cabled.step(end.at, end.domain, step).map(drop)
    }

    /// A call at a port whose close is under way; where there is none, a close.
    fn while_closing(&self, cabled: &mut Cabled, random: &mut Random) -> Result<(), String> {
        let at = self.find(cabled, random, |owner| owner == Owner::Close);
        let call = at.and_then(|at| cabled.pairs[at].world.domain.call);
        let (Some(at), Some(call)) = (at, call) else {
            return self.close(cabled, random);
        };
        let near = EndAt::own(at as u64, call.port.0.into());
        match random.below(8) {
            0 | 1 => cabled.cut(near).map(drop),
            2 | 3 => send(cabled, random, near),
            4 | 5 => {
                let far = across(cabled, near).unwrap_or(near);
                send(cabled, random, far)
            }
            _ => {
                let far = self.any_end(random);
                cabled.lay(near, far).map(drop)
            }
        }
    }

    /// Lends the whole of a ledger again, or less of one, mostly of a domain that closes a port.
    fn lend(&mut self, cabled: &mut Cabled, random: &mut Random) {
        let closing = self.find(cabled, random, |owner| owner == Owner::Close);
        let any = random.pick(&self.domains) as usize;
        let at = self.ledgers.short().or(closing).unwrap_or(any);
        self.ledgers.lend(cabled, random, at);
    }

    /// Any other call of the domain.
    fn other(&self, cabled: &mut Cabled, random: &mut Random, at: usize) -> Result<(), String> {
        let (port, priority) = (self.port(random), random.below(17));
        let step = match random.below(7) {
            0 => Step::Raise(port),
            1 => Step::Unmask(port),
            2 => Step::Bind(port),
            3 => Step::SetPriority { port, priority },
            4 => Step::Mask(port),
            5 => Step::ClearMask(port),
            _ => init(),
        };
        cabled.plain(at, step).map(drop)
    }

    /// Mostly an end of a cable.
    fn end(&self, cabled: &Cabled, random: &mut Random) -> EndAt {
        let slot = random.below(USED) as usize;
        let table = cabled.table.as_ref();
        match table.and_then(|table| table.slots()[slot].cable()) {
            Some(ends) if !random.once_in(4) => own(random.pick(&ends)),
            _ => self.any_end(random),
        }
    }

    fn any_end(&self, random: &mut Random) -> EndAt {
        EndAt::own(random.pick(&self.domains), self.port(random))
    }

    fn port(&self, random: &mut Random) -> u64 {
        match random.once_in(16) {
            true => random.pick(&PORTS),
            false => random.pick(&self.ports),
        }
    }

    fn check(&self, cabled: &Cabled) -> Result<(), String> {
        let bound = |end| self.ledgers.is_bound(cabled, end);
        let table = cabled.table.as_ref();
        table.map_or(Ok(()), |table| claims::check(table, bound))
    }
}

/// The end of a cable, with its own domain's record and ledger.
fn own(end: End) -> EndAt {
    EndAt::own(end.domain().into(), end.port().into())
}

/// The other end of its cable.
fn across(cabled: &Cabled, near: EndAt) -> Option<EndAt> {
    let (table, end) = (cabled.table.as_ref()?, End::of(near.domain, near.port)?);
    let slot = table.slots()[table.lowest(end)?];
    slot.across(end).map(own)
}

/// A send that comes through is refused by the far raise only with 15, 6, or 14 where less is lent.
fn send(cabled: &mut Cabled, random: &mut Random, near: EndAt) -> Result<(), String> {
    let hint = hint(random, cabled, near);
    match cabled.send(near, hint)? {
        Ok(Some(Next::Answer(answer, _))) => match answer {
            Answer::UnderWay | Answer::OutsideArray | Answer::NoEntry => Ok(()),
            _ => Err(format!("a far raise gives {}", answer.number())),
        },
        _ => Ok(()),
    }
}

fn init() -> Step {
    Step::InitControl {
        vcpu: 0,
        frame: 1,
        frames: 8,
        offset: 0,
    }
}

/// A page, told to the guest.
fn expand(cabled: &mut Cabled, at: usize) -> Result<(), String> {
    let (frame, frames) = (2, 8);
    cabled.plain(at, Step::ExpandArray { frame, frames })?;
    let words = cabled.pairs[at].world.domain.words();
    cabled.plain(at, Step::Tell(words)).map(drop)
}

/// The access that the guest waits for, or a service's start.
fn guest(cabled: &mut Cabled, at: usize) -> Result<(), String> {
    let step = match cabled.pairs[at].world.guest.is_under_way() {
        true => Step::Access(Side::Guest),
        false => Step::Service,
    };
    cabled.plain(at, step).map(drop)
}
