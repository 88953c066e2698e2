//! The starts of the hypervisor's seven calls, refusals in document 01's order.

use super::access::Access;
use super::answer::{Answer, Next};
use super::domain::{Call, Domain, Owner, Stage};
use super::entry::Entry;
use super::kinds::{Port, Priority, QUEUES};
use super::seeded::Faults;
use super::word::LINK_BITS;
use super::Model;

/// `Ok` where the line of a refusal does not hold.
pub(super) fn unless<R>(holds: bool, refusal: R) -> Result<(), R> {
    if holds {
        Err(refusal)
    } else {
        Ok(())
    }
}

impl Model {
    /// init_control: 15, 17, 9, 11, 12. The answer carries the link bits.
    pub fn init_control(
        &self,
        domain: &mut Domain,
        vcpu: u64,
        frame: u64,
        frames: u64,
        offset: u64,
    ) -> Next {
        let vcpu = self.whole(Faults::VcpuCut, vcpu);
        let checked = unless(domain.call.is_some(), Answer::UnderWay)
            .and_then(|()| unless(vcpu != 0, Answer::BadVcpu))
            .and_then(|()| unless(domain.given, Answer::AlreadyGiven))
            .and_then(|()| unless(self.bad_frame(frame, frames), Answer::BadFrame))
            .and_then(|()| unless(self.bad_offset(offset), Answer::BadOffset));
        Next::from_start(checked.map(|()| {
            domain.given = true;
            Next::at_once(Answer::DoneLinkBits(LINK_BITS))
        }))
    }

    /// expand_array: 15, 10, 13, 11. Adds a page.
    pub fn expand_array(&self, domain: &mut Domain, frame: u64, frames: u64) -> Next {
        let checked = free_and_given(domain)
            .and_then(|()| unless(domain.pages >= self.page_limit(), Answer::PagesFull))
            .and_then(|()| unless(self.bad_frame(frame, frames), Answer::BadFrame));
        Next::from_start(checked.map(|()| {
            domain.pages += 1;
            Next::at_once(Answer::Done)
        }))
    }

    /// bind: 15, 10, 3, 14, 5; in the array 7 at its reply.
    pub fn bind(&self, domain: &mut Domain, ledger: &mut [Entry], port: u64) -> Next {
        Next::from_start(self.start_bind(domain, ledger, port))
    }

    fn start_bind(
        &self,
        domain: &mut Domain,
        ledger: &mut [Entry],
        port: u64,
    ) -> Result<Next, Answer> {
        let port = self.known_port(domain, ledger, port, Answer::NoEntry)?;
        let entry = &mut ledger[port.index()];
        unless(entry.bound, Answer::AlreadyBound)?;
        if domain.in_array(port) {
            return Ok(self.begin(domain, Owner::Bind, Stage::BindRead, port));
        }
        entry.bound = true;
        Ok(Next::at_once(Answer::Done))
    }

    /// close: 15, 10, 3, 14, 4.
    pub fn close(&self, domain: &mut Domain, ledger: &mut [Entry], port: u64) -> Next {
        Next::from_start(self.start_close(domain, ledger, port))
    }

    fn start_close(
        &self,
        domain: &mut Domain,
        ledger: &mut [Entry],
        port: u64,
    ) -> Result<Next, Answer> {
        let port = self.bound_port(domain, ledger, port)?;
        if domain.in_array(port) {
            return Ok(self.begin(domain, Owner::Close, Stage::CloseAnd, port));
        }
        let entry = &mut ledger[port.index()];
        *entry = self.closed(*entry);
        Ok(Next::at_once(Answer::Done))
    }

    /// set_priority: 15, 10, 3, 14, 8; bound or not.
    pub fn set_priority(
        &self,
        domain: &Domain,
        ledger: &mut [Entry],
        port: u64,
        priority: u64,
    ) -> Next {
        let priority = self.whole(Faults::PriorityCut, priority);
        let checked = self
            .known_port(domain, ledger, port, Answer::NoEntry)
            .and_then(|port| {
                unless(priority >= u64::from(QUEUES), Answer::BadPriority).map(|()| port)
            });
        Next::from_start(checked.map(|port| {
            ledger[port.index()].priority = Priority(priority as u8);
            Next::at_once(Answer::Done)
        }))
    }

    /// raise: 15, 10, 3, 14, 4, 6; then R1.
    pub fn raise(&self, domain: &mut Domain, ledger: &[Entry], port: u64) -> Next {
        Next::from_start(self.start_on_word(domain, ledger, port, Owner::Raise, Stage::R1))
    }

    /// unmask: 15, 10, 3, 14, 4, 6; then U1.
    pub fn unmask(&self, domain: &mut Domain, ledger: &[Entry], port: u64) -> Next {
        Next::from_start(self.start_on_word(domain, ledger, port, Owner::Unmask, Stage::U1))
    }

    fn start_on_word(
        &self,
        domain: &mut Domain,
        ledger: &[Entry],
        port: u64,
        owner: Owner,
        stage: Stage,
    ) -> Result<Next, Answer> {
        let port = self.bound_port(domain, ledger, port)?;
        unless(!domain.in_array(port), Answer::OutsideArray)?;
        Ok(self.begin(domain, owner, stage, port))
    }

    fn bad_frame(&self, frame: u64, frames: u64) -> bool {
        self.whole(Faults::FrameCut, frame) >= self.whole(Faults::FramesCut, frames)
    }

    fn bad_offset(&self, offset: u64) -> bool {
        let offset = self.whole(Faults::OffsetCut, offset);
        !offset.is_multiple_of(8) || offset > self.offset_limit()
    }

    /// 15, 10, 3, then `missing` where the ledger has no entry.
    fn known_port(
        &self,
        domain: &Domain,
        ledger: &[Entry],
        port: u64,
        missing: Answer,
    ) -> Result<Port, Answer> {
        unless(domain.call.is_some(), Answer::UnderWay)?;
        self.port_with_entry(domain, ledger, port, missing)
    }

    /// 15, 10, 3, 14, 4.
    fn bound_port(&self, domain: &Domain, ledger: &[Entry], port: u64) -> Result<Port, Answer> {
        unless(domain.call.is_some(), Answer::UnderWay)?;
        self.check(domain, ledger, port)
    }

    /// 10, 3, 14, 4: by the record and ledger as they stand, whatever is under way.
    pub(super) fn check(
        &self,
        domain: &Domain,
        ledger: &[Entry],
        port: u64,
    ) -> Result<Port, Answer> {
        let port = self.port_with_entry(domain, ledger, port, self.missing_entry())?;
        unless(!ledger[port.index()].bound, Answer::NotBound)?;
        Ok(port)
    }

    /// 10, 3, then `missing` where the ledger has no entry.
    fn port_with_entry(
        &self,
        domain: &Domain,
        ledger: &[Entry],
        port: u64,
        missing: Answer,
    ) -> Result<Port, Answer> {
        unless(!domain.given, Answer::NotGiven)?;
        let port = self.valid_port(port)?;
        unless(port.index() >= ledger.len(), missing)?;
        Ok(port)
    }

    /// 3: port 0 or at least 131,072.
    pub(super) fn valid_port(&self, port: u64) -> Result<Port, Answer> {
        let port = self.whole(Faults::PortCut, port);
        unless(port == 0 || port >= self.port_limit(), Answer::BadPort)?;
        Ok(Port(port as u32))
    }

    /// Puts a call under way; its first access is counted.
    fn begin(&self, domain: &mut Domain, owner: Owner, stage: Stage, port: Port) -> Next {
        let count = self.first_count();
        let call = Call {
            owner,
            port,
            stage,
            count,
        };
        Next::Access(self.name(domain, call))
    }

    /// Puts `call` under way and gives the access that it waits for.
    pub(super) fn name(&self, domain: &mut Domain, call: Call) -> Access {
        domain.call = Some(call);
        self.access_of(domain, &call)
    }
}

/// 15, 10.
fn free_and_given(domain: &Domain) -> Result<(), Answer> {
    unless(domain.call.is_some(), Answer::UnderWay)?;
    unless(!domain.given, Answer::NotGiven)
}
