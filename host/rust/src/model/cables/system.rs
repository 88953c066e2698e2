//! Forty domains and the table of their cables.

use super::refusal::Refusal;
use super::rules::{Lent, Named};
use super::table::{Table, DOMAINS};
use super::Cables;
use crate::model::answer::Next;
use crate::model::machine::{Step, World};

/// The domains' worlds, by number, and the table.
pub struct System {
    /// The rules.
    pub cables: Cables,
    /// The table.
    pub table: Table,
    /// The worlds.
    pub worlds: Vec<World>,
}

/// An end as it is named: a domain number and a port.
pub type Numbers = (u64, u64);

impl System {
    /// Fresh domains of so many lent words and ledger entries, and a fresh table.
    pub fn fresh(cables: Cables, words: usize, entries: usize) -> Self {
        let world = World::fresh(cables.model, words, entries);
        System {
            cables,
            table: Table::default(),
            worlds: vec![world; DOMAINS as usize],
        }
    }

    /// A step of one domain.
    pub fn step(&mut self, domain: u64, step: Step) -> Next {
        let world = &mut self.worlds[domain as usize];
        let before = world.domain;
        let next = world.step(step).next;
        let table = &mut self.table;
        self.cables.follow(table, domain, &before, step, next);
        next
    }

    /// lay: the new cable's slot.
    pub fn lay(&mut self, near: Numbers, far: Numbers) -> Result<usize, Refusal> {
        let (near, far) = (named(&self.worlds, near), named(&self.worlds, far));
        self.cables.lay(Some(&mut self.table), near, far)
    }

    /// cut.
    pub fn cut(&mut self, near: Numbers) -> Result<(), Refusal> {
        let near = named(&self.worlds, near);
        self.cables.cut(Some(&mut self.table), near)
    }

    /// send, with the far raise's start in the same moment.
    pub fn send(&mut self, near: Numbers, hint: u32) -> Result<Next, Refusal> {
        let near = named(&self.worlds, near);
        let found = self.cables.send(Some(&self.table), near, hint)?;
        let (domain, port) = (found.far.domain(), found.far.port());
        Ok(self.step(domain.into(), Step::Raise(port.into())))
    }
}

/// An end with what its domain lends; a number of 40 or more has nothing to lend.
fn named(worlds: &[World], (domain, port): Numbers) -> Named<'_> {
    let world = usize::try_from(domain).ok().and_then(|at| worlds.get(at));
    let lent = world.map(|world| Lent {
        record: &world.domain,
        ledger: &world.ledger,
    });
    Named { domain, port, lent }
}
