//! One domain: its hypervisor threads and guest threads, and what is checked when they have ended.

use super::account::Account;
use super::guest::{mask, Guest, Upcalls};
use super::hypervisor::Hypervisor;
use super::shared::Shared;
use crate::model::{Answer, Step};
use crate::random::Random;
use std::sync::atomic::{AtomicBool, Ordering::SeqCst};
use std::thread;
use std::time::Duration;

const WORDS: usize = 2048;
const PORTS: [u64; 10] = [1, 2, 3, 4, 5, 9, 100, 1023, 1024, 2047];
const NOT_BOUND: u32 = 4;
/// Calls for one event after which a thread gives up: the guest no longer serves.
const MOST_CALLS: u64 = 2_000;
/// Between two masked ports of an honest guest, so that most raises find their port unmasked.
const PAUSE: Duration = Duration::from_micros(20);
/// One port in so many is masked and its mask cleared again and again, without a pause.
const STORMS: u64 = 8;
/// Masks of a storm.
const STORM: usize = 40;
const BUSY: u32 = 1 << 28;
const LINKED: u32 = 1 << 29;
const PENDING: u32 = 1 << 31;

/// Whether the guest keeps the rules.
#[derive(Clone, Copy, Debug, PartialEq, Eq)]
pub enum Conduct {
    /// It makes only the library's accesses.
    Honest,
    /// It also writes anything anywhere in its pages.
    Hostile,
}

/// A domain with its shared memory.
pub struct Domain {
    conduct: Conduct,
    shared: Shared,
    hypervisor: Hypervisor,
    guest: Guest,
    upcalls: Upcalls,
    /// The hypervisor's threads have ended.
    ended: AtomicBool,
    /// A thread of the domain found something wrong: the others end too.
    failed: AtomicBool,
}

impl Domain {
    /// A domain with two pages, told, and its ports bound.
    pub fn begun(conduct: Conduct, account: &mut Account) -> Result<Self, String> {
        let domain = Domain {
            conduct,
            shared: Shared::zeroed(WORDS),
            hypervisor: Hypervisor::fresh(WORDS),
            guest: Guest::told(WORDS as u64),
            upcalls: Upcalls::default(),
            ended: AtomicBool::new(false),
            failed: AtomicBool::new(false),
        };
        let init = Step::InitControl {
            vcpu: 0,
            frame: 1,
            frames: 8,
            offset: 64,
        };
        let expand = Step::ExpandArray {
            frame: 2,
            frames: 8,
        };
        let binds = PORTS.map(Step::Bind);
        for step in [init, expand, expand].into_iter().chain(binds) {
            let number = domain.call(step, account)?;
            if number != 0 {
                return Err(format!("{step:?} gives {number}"));
            }
        }
        Ok(domain)
    }

    fn call(&self, step: Step, account: &mut Account) -> Result<u32, String> {
        let number = self.hypervisor.call(step, &self.shared, account)?;
        if number == 1 {
            self.upcalls.want();
        }
        Ok(number)
    }

    /// Runs the domain's threads: `events` of each of two hypervisor threads.
    pub fn run(&self, seed: u64, events: u64) -> Result<Account, String> {
        let mut account = Account::default();
        thread::scope(|scope| {
            let service = scope.spawn(|| self.noted(self.serve()));
            let other = scope.spawn(move || self.noted(self.disturb(seed.wrapping_add(2))));
            let raisers = [seed, seed.wrapping_add(1)];
            let raisers =
                raisers.map(|seed| scope.spawn(move || self.noted(self.raise(seed, events))));
            let raised = raisers.map(|thread| thread.join());
            self.ended.store(true, SeqCst);
            let disturbed = other.join();
            let unmasked = self.unmask_all();
            self.upcalls.stop();
            let served = service.join();
            let all = raised.into_iter().chain([disturbed, Ok(unmasked), served]);
            for outcome in all {
                let theirs = outcome.map_err(|_| "a thread panicked".to_string())?;
                account.add(&theirs?);
            }
            Ok::<(), String>(())
        })?;
        if self.conduct == Conduct::Honest {
            self.check(&account)?;
        }
        Ok(account)
    }

    /// A thread's outcome; the other threads see a failure.
    fn noted(&self, outcome: Result<Account, String>) -> Result<Account, String> {
        if outcome.is_err() {
            self.failed.store(true, SeqCst);
        }
        outcome
    }

    /// A hypervisor thread: raises until PENDING went from clear to set `events` times by them,
    /// with other calls between.
    fn raise(&self, seed: u64, events: u64) -> Result<Account, String> {
        let mut random = Random::new(seed);
        let mut account = Account::default();
        while account.sets < events && !self.failed.load(SeqCst) {
            let sets = account.sets;
            if account.calls > events * MOST_CALLS {
                return Err(format!("{sets} events in {} calls", account.calls));
            }
            let raised = random.pick(&PORTS);
            if self.call(Step::Raise(raised), &mut account)? == NOT_BOUND {
                self.call(Step::Bind(raised), &mut account)?;
            }
            let port = random.pick(&PORTS);
            match random.below(8) {
                0 => self.call(Step::Unmask(port), &mut account)?,
                1 if random.once_in(4) => self.reopen(port, &mut account)?,
                2 => {
                    let priority = random.pick(&[0, 7, 7, 15]);
                    self.call(Step::SetPriority { port, priority }, &mut account)?
                }
                _ => 0,
            };
            if account.sets == sets {
                thread::yield_now();
            }
        }
        Ok(account)
    }

    /// Closes a port and binds it again, which gives 7 while its old event is linked.
    fn reopen(&self, port: u64, account: &mut Account) -> Result<u32, String> {
        self.call(Step::Close(port), account)?;
        self.call(Step::Bind(port), account)
    }

    /// A guest thread: services until idle, then waits for an upcall.
    fn serve(&self) -> Result<Account, String> {
        let mut account = Account::default();
        while self.upcalls.wait() {
            while self.serve_one(&mut account)? {}
        }
        Ok(account)
    }

    /// One service; false where it was idle, or refused what a hostile guest wrote itself.
    fn serve_one(&self, account: &mut Account) -> Result<bool, String> {
        match (self.guest.service(&self.shared, account)?, self.conduct) {
            (Answer::Idle, _) => Ok(false),
            (Answer::HandedOver(_) | Answer::NotHandedOver(_), _) => Ok(!self.is_over()),
            (Answer::BadIndex, Conduct::Hostile) => Ok(!self.is_over()),
            (answer, _) => Err(format!("service gives {answer:?}")),
        }
    }

    /// A hostile guest may have linked a ring: it ends with the hypervisor's threads.
    fn is_over(&self) -> bool {
        self.conduct == Conduct::Hostile && self.ended.load(SeqCst)
    }

    /// A second guest thread: masks a port and clears its mask, and what the conduct allows
    /// besides. The ports that it leaves masked are unmasked by the hypervisor's threads.
    fn disturb(&self, seed: u64) -> Result<Account, String> {
        let mut random = Random::new(seed);
        let mut account = Account::default();
        while !self.ended.load(SeqCst) {
            let port = random.pick(&PORTS);
            mask(port, WORDS as u64, &self.shared)?;
            match self.conduct {
                Conduct::Honest if random.once_in(STORMS) => self.storm(port, &mut account)?,
                Conduct::Honest => thread::sleep(PAUSE),
                Conduct::Hostile => self.write_anything(&mut random),
            }
            if !random.once_in(4) {
                self.clear_mask(port, &mut account)?;
            }
            thread::yield_now();
        }
        Ok(account)
    }

    /// MASKED of one port changes as fast as the guest can.
    fn storm(&self, port: u64, account: &mut Account) -> Result<(), String> {
        for _ in 0..STORM {
            self.clear_mask(port, account)?;
            mask(port, WORDS as u64, &self.shared)?;
        }
        Ok(())
    }

    /// clear_mask, and unmask where it asks for that.
    fn clear_mask(&self, port: u64, account: &mut Account) -> Result<(), String> {
        if self.guest.clear_mask(port, &self.shared, account)? {
            self.call(Step::Unmask(port), account)?;
        }
        Ok(())
    }

    /// Writes anything to a word of the control block or of the pages.
    fn write_anything(&self, random: &mut Random) {
        let port = random.pick(&PORTS) as usize;
        let flags = (random.below(16) as u32) << 28;
        match random.below(8) {
            0 => self.shared.ready.store(random.word(), SeqCst),
            1 => self.shared.heads[random.below(16) as usize].store(random.word(), SeqCst),
            2 => self.shared.words[port].store(random.word(), SeqCst),
            _ => {
                let link = random.pick(&PORTS) as u32;
                self.shared.words[port].store(flags | link, SeqCst);
            }
        }
    }

    /// At the end every port is unmasked, so that nothing stays pending.
    fn unmask_all(&self) -> Result<Account, String> {
        let mut account = Account::default();
        for port in PORTS {
            self.call(Step::Unmask(port), &mut account)?;
        }
        Ok(account)
    }

    /// At rest nothing is linked, pending or BUSY, and every port's account agrees.
    fn check(&self, account: &Account) -> Result<(), String> {
        for port in 0..WORDS {
            let word = self.shared.word(port);
            if word & (LINKED | PENDING | BUSY) != 0 {
                return Err(format!("at rest word {port} is {word:08X}"));
            }
        }
        if account.abandoned != 0 {
            return Err(format!(
                "{} answers 2 on an honest domain",
                account.abandoned
            ));
        }
        let wrong = account
            .ports()
            .find(|(_, n)| n.sets != n.hand_overs + n.closes);
        wrong.map_or(Ok(()), |(port, numbers)| {
            Err(format!("account of port {port}: {numbers:?}"))
        })
    }
}
