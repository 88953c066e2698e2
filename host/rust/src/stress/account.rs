//! The account of PENDING that a thread keeps of its own accesses and answers.

use crate::model::{Access, Answer, Op, Place};
use std::collections::BTreeMap;

const PENDING: u32 = 1 << 31;
const BUSY: u32 = 1 << 28;
/// Accesses between two at which a thread gives way.
const GIVES_WAY: u64 = 7;

/// One port's numbers.
#[derive(Clone, Copy, Debug, Default, PartialEq, Eq)]
pub struct Numbers {
    /// Times that PENDING went from clear to set.
    pub sets: u64,
    /// Hand-overs.
    pub hand_overs: u64,
    /// Closes that found it set.
    pub closes: u64,
}

/// The numbers of all ports that a thread met, and how many calls and accesses it made.
#[derive(Clone, Debug, Default)]
pub struct Account {
    ports: BTreeMap<u32, Numbers>,
    /// Calls that gave an answer.
    pub calls: u64,
    /// Accesses performed.
    pub accesses: u64,
    /// Times that PENDING of any port went from clear to set.
    pub sets: u64,
    /// Answers 2.
    pub abandoned: u64,
    /// Times that BUSY was set.
    pub busy: u64,
    /// clear_masks that answered 0, and those that answered 35.
    pub clears: [u64; 2],
}

impl Account {
    /// Counts an access; at some the thread gives way, so that others come between two accesses.
    pub fn access(&mut self) {
        self.accesses += 1;
        if self.accesses.is_multiple_of(GIVES_WAY) {
            std::thread::yield_now();
        }
    }

    /// An access of the hypervisor's.
    pub fn hypervisor_access(&mut self, access: Access, seen: u32) {
        self.access();
        let Place::Word(port) = access.place else {
            return;
        };
        let after = access.op.effect(seen);
        if seen & PENDING == 0 && after & PENDING != 0 {
            self.ports.entry(port.0).or_default().sets += 1;
            self.sets += 1;
        }
        if matches!(access.op, Op::And(_)) && seen & PENDING != 0 && after & PENDING == 0 {
            self.ports.entry(port.0).or_default().closes += 1;
        }
        self.busy += u64::from(access.op == Op::Or(BUSY));
    }

    /// An answer of a clear_mask: whether unmask is to be called.
    pub fn cleared(&mut self, answer: Answer) -> Result<bool, String> {
        let unmask = match answer {
            Answer::Done => false,
            Answer::CallUnmask => true,
            _ => return Err(format!("clear_mask gives {answer:?}")),
        };
        self.clears[usize::from(unmask)] += 1;
        Ok(unmask)
    }

    /// An answer 19.
    pub fn handed_over(&mut self, port: u32) {
        self.ports.entry(port).or_default().hand_overs += 1;
    }

    /// Adds another thread's account.
    pub fn add(&mut self, other: &Account) {
        for (port, numbers) in &other.ports {
            let sum = self.ports.entry(*port).or_default();
            sum.sets += numbers.sets;
            sum.hand_overs += numbers.hand_overs;
            sum.closes += numbers.closes;
        }
        self.calls += other.calls;
        self.accesses += other.accesses;
        self.sets += other.sets;
        self.abandoned += other.abandoned;
        self.busy += other.busy;
        self.clears[0] += other.clears[0];
        self.clears[1] += other.clears[1];
    }

    /// All ports with their numbers.
    pub fn ports(&self) -> impl Iterator<Item = (u32, Numbers)> + '_ {
        self.ports.iter().map(|(port, numbers)| (*port, *numbers))
    }
}
