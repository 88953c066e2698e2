//! The hypervisor's side of a domain: record and ledger under one lock, held from a call's start to
//! its answer.

use super::account::Account;
use super::shared::Shared;
use crate::boundary::records::DOMAIN_SIZE;
use crate::boundary::{calls, Encoded};
use crate::model::{Next, Step};
use std::sync::Mutex;

/// Most accesses of a call.
const MOST: u32 = 12;

/// The library's bytes of the hypervisor's side.
struct Bytes {
    domain: Vec<u8>,
    ledger: Vec<u8>,
}

/// Record and ledger of a domain.
pub struct Hypervisor {
    bytes: Mutex<Bytes>,
}

impl Hypervisor {
    /// Fresh, with a ledger of `entries`.
    pub fn fresh(entries: usize) -> Self {
        let mut domain = vec![0xAA; DOMAIN_SIZE];
        let mut ledger = vec![0xAA; 2 * entries];
        calls::fresh_domain(&mut domain);
        calls::fresh_ledger(&mut ledger);
        let bytes = Mutex::new(Bytes { domain, ledger });
        Hypervisor { bytes }
    }

    /// A whole call: its answer's number.
    pub fn call(&self, step: Step, shared: &Shared, account: &mut Account) -> Result<u32, String> {
        let mut bytes = self.bytes.lock().map_err(|_| "a thread panicked")?;
        let Bytes { domain, ledger } = &mut *bytes;
        let mut next = start(domain, ledger, step)?;
        for made in 0..=MOST {
            let access = match next.next() {
                Some(Next::Access(access)) => access,
                Some(Next::Answer(answer, count)) if count == made => {
                    account.calls += 1;
                    account.abandoned += u64::from(answer.number() == 2);
                    return Ok(answer.number());
                }
                given => return Err(format!("{step:?} gives {given:?} after {made} accesses")),
            };
            let seen = shared.perform(access);
            let seen = seen.ok_or_else(|| format!("{step:?} reaches outside: {access:?}"))?;
            account.hypervisor_access(access, seen);
            next = calls::reply(domain, ledger, seen);
        }
        Err(format!("{step:?} names more than {MOST} accesses"))
    }
}

fn start(domain: &mut [u8], ledger: &mut [u8], step: Step) -> Result<Encoded, String> {
    Ok(match step {
        Step::InitControl {
            vcpu,
            frame,
            frames,
            offset,
        } => calls::init_control(domain, vcpu, frame, frames, offset),
        Step::ExpandArray { frame, frames } => calls::expand_array(domain, frame, frames),
        Step::Bind(port) => calls::bind(domain, ledger, port),
        Step::Close(port) => calls::close(domain, ledger, port),
        Step::SetPriority { port, priority } => calls::set_priority(domain, ledger, port, priority),
        Step::Raise(port) => calls::raise(domain, ledger, port),
        Step::Unmask(port) => calls::unmask(domain, ledger, port),
        _ => return Err(format!("{step:?} is no call of the hypervisor's")),
    })
}
