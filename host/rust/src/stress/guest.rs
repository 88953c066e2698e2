//! The guest's side of a domain: services, which wait for an upcall when idle, masks and
//! clear_masks.

use super::account::Account;
use super::shared::Shared;
use crate::boundary::records::GUEST_SIZE;
use crate::boundary::{calls, Encoded};
use crate::model::{Access, Answer, Next};
use std::sync::{Condvar, Mutex, MutexGuard};

/// Most accesses of a service.
const MOST: u32 = 5;
/// Most accesses of a clear_mask.
const MOST_OF_CLEAR: u32 = 2;

/// A guest's record, which belongs to one VCPU. Its lock stands for what runs there: a step of a
/// service, its access and reply, or a whole clear_mask, which may begin between any two steps of
/// a service.
pub struct Guest {
    bytes: Mutex<Vec<u8>>,
}

impl Guest {
    /// Fresh, then told a number of words.
    pub fn told(words: u64) -> Self {
        let mut bytes = vec![0xAA; GUEST_SIZE];
        calls::fresh_guest(&mut bytes);
        calls::tell(&mut bytes, words);
        let bytes = Mutex::new(bytes);
        Guest { bytes }
    }

    fn record(&self) -> Result<MutexGuard<'_, Vec<u8>>, String> {
        let record = self.bytes.lock();
        record.map_err(|_| "a thread panicked".to_string())
    }

    /// A whole service: its answer.
    pub fn service(&self, shared: &Shared, account: &mut Account) -> Result<Answer, String> {
        let mut next = calls::service(&mut self.record()?);
        for made in 0..=MOST {
            let access = match finished("service", next, made)? {
                Finished::Goes(access) => access,
                Finished::Ends(answer) => {
                    account.calls += 1;
                    if let Answer::HandedOver(port) = answer {
                        account.handed_over(port.0);
                    }
                    return Ok(answer);
                }
            };
            next = self.reply(access, shared, account)?;
        }
        Err(format!("service names more than {MOST} accesses"))
    }

    /// An access of a service with its reply, in one moment.
    fn reply(
        &self,
        access: Access,
        shared: &Shared,
        account: &mut Account,
    ) -> Result<Encoded, String> {
        account.access();
        let mut record = self.record()?;
        let seen = shared.perform(access);
        let seen = seen.ok_or_else(|| format!("service reaches outside: {access:?}"))?;
        Ok(calls::service_reply(&mut record, seen))
    }

    /// A whole clear_mask: whether unmask is to be called.
    pub fn clear_mask(
        &self,
        port: u64,
        shared: &Shared,
        account: &mut Account,
    ) -> Result<bool, String> {
        let mut record = self.record()?;
        let mut next = calls::clear_mask(&mut record, port);
        for made in 0..=MOST_OF_CLEAR {
            let access = match finished("clear_mask", next, made)? {
                Finished::Goes(access) => access,
                Finished::Ends(answer) => {
                    account.calls += 1;
                    return account.cleared(answer);
                }
            };
            let seen = shared.perform(access);
            let seen = seen.ok_or_else(|| format!("clear_mask reaches outside: {access:?}"))?;
            account.access();
            next = calls::service_reply(&mut record, seen);
        }
        Err(format!(
            "clear_mask names more than {MOST_OF_CLEAR} accesses"
        ))
    }
}

/// Where a call stands after so many accesses.
enum Finished {
    Goes(Access),
    Ends(Answer),
}

/// The next access, or the answer, which counts the accesses made.
fn finished(call: &str, next: Encoded, made: u32) -> Result<Finished, String> {
    match next.next() {
        Some(Next::Access(access)) => Ok(Finished::Goes(access)),
        Some(Next::Answer(answer, count)) if count == made => Ok(Finished::Ends(answer)),
        given => Err(format!("{call} gives {given:?} after {made} accesses")),
    }
}

/// A mask with its access.
pub fn mask(port: u64, words: u64, shared: &Shared) -> Result<(), String> {
    match calls::mask(port, words).next() {
        Some(Next::Access(access)) => shared
            .perform(access)
            .map(|_| ())
            .ok_or_else(|| format!("mask reaches outside: {access:?}")),
        given => Err(format!("mask of {port} gives {given:?}")),
    }
}

/// What wakes an idle guest.
#[derive(Default)]
pub struct Upcalls {
    state: Mutex<State>,
    changed: Condvar,
}

#[derive(Default)]
struct State {
    wanted: bool,
    stopped: bool,
}

impl Upcalls {
    /// An answer 1 was given.
    pub fn want(&self) {
        self.change(|state| state.wanted = true);
    }

    /// No more will come.
    pub fn stop(&self) {
        self.change(|state| state.stopped = true);
    }

    fn change(&self, change: impl Fn(&mut State)) {
        let mut state = self.state.lock().expect("no thread panics with it");
        change(&mut state);
        self.changed.notify_all();
    }

    /// Waits for an upcall and takes it; false where none is left and no more will come.
    pub fn wait(&self) -> bool {
        let mut state = self.state.lock().expect("no thread panics with it");
        while !state.wanted && !state.stopped {
            state = self.changed.wait(state).expect("no thread panics with it");
        }
        std::mem::take(&mut state.wanted)
    }
}
