//! The records' bytes, read and written by the layout of the header: numbers of four bytes, the
//! lowest first.
//!
//! Hypervisor's record, 100 bytes: given 0, pages 4, tails 8, then the call under way: owner 72,
//! stage 76, port 80, queue 84, word 88, tries 92, count 96. Guest's record, 104 bytes: heads 0,
//! local ready bits 64, number of words 68, then the service under way: stage 72, port 76, queue
//! 80, count 84, and the clear_mask under way: stage 88, port 92, word 96, count 100. A code that
//! is none of the list's is no call under way.

use crate::model::decisions::QueueValues;
use crate::model::{
    ClearTag, Domain, FlatCall, FlatClear, FlatService, Guest, Owner, ServiceTag, StageTag,
};

/// Bytes of the hypervisor's record.
pub const DOMAIN_SIZE: usize = 100;
/// Bytes of the guest's record.
pub const GUEST_SIZE: usize = 104;
/// The layout that this decoder reads.
pub const LAYOUT: u32 = 2;

/// Where `given` stands.
pub const GIVEN: usize = 0;
/// Where the owner's code stands.
pub const OWNER: usize = 72;
/// Where the stage's code stands.
pub const STAGE: usize = 76;
/// Where the service's stage's code stands.
pub const GUEST_STAGE: usize = 72;
/// Where the clear_mask's stage's code stands, behind all that is not the clear_mask's.
pub const CLEAR_STAGE: usize = 88;

/// Number of the stages' codes of the hypervisor's record, which begin at 0.
pub const STAGES: u32 = 8;
/// The highest code of a service's stage; the codes begin at 1.
pub const SERVICE_STAGES: u32 = 5;
/// The highest code of a clear_mask's stage; the codes begin at 1.
pub const CLEAR_STAGES: u32 = 2;

/// The number of four bytes at `at`.
pub fn number(bytes: &[u8], at: usize) -> u32 {
    let four = bytes[at..at + 4].try_into().expect("four bytes");
    u32::from_le_bytes(four)
}

/// Writes a number of four bytes at `at`.
pub fn put_number(bytes: &mut [u8], at: usize, value: u32) {
    bytes[at..at + 4].copy_from_slice(&value.to_le_bytes());
}

fn sixteen(bytes: &[u8], at: usize) -> QueueValues {
    std::array::from_fn(|queue| number(bytes, at + 4 * queue))
}

fn put_sixteen(bytes: &mut [u8], at: usize, values: &QueueValues) {
    for (queue, value) in values.iter().enumerate() {
        put_number(bytes, at + 4 * queue, *value);
    }
}

/// The hypervisor's record that the bytes are.
pub fn domain(bytes: &[u8]) -> Domain {
    Domain {
        given: number(bytes, GIVEN) != 0,
        pages: number(bytes, 4),
        tails: sixteen(bytes, 8),
        call: flat_call(bytes).call(),
    }
}

fn flat_call(bytes: &[u8]) -> FlatCall {
    let named = owner(number(bytes, OWNER));
    let stage = named.and_then(|owner| stage(owner, number(bytes, STAGE)));
    FlatCall {
        owner: stage.and(named),
        stage: stage.unwrap_or(StageTag::R1),
        port: number(bytes, 80),
        queue: number(bytes, 84),
        word: number(bytes, 88),
        tries: number(bytes, 92),
        count: number(bytes, 96),
    }
}

fn owner(code: u32) -> Option<Owner> {
    match code {
        1 => Some(Owner::Bind),
        2 => Some(Owner::Close),
        3 => Some(Owner::Raise),
        4 => Some(Owner::Unmask),
        _ => None,
    }
}

fn owner_code(owner: Option<Owner>) -> u32 {
    match owner {
        None => 0,
        Some(Owner::Bind) => 1,
        Some(Owner::Close) => 2,
        Some(Owner::Raise) => 3,
        Some(Owner::Unmask) => 4,
    }
}

/// Stage 0 is the first access of its owner.
fn stage(owner: Owner, code: u32) -> Option<StageTag> {
    match (code, owner) {
        (0, Owner::Bind) => Some(StageTag::BindRead),
        (0, Owner::Close) => Some(StageTag::CloseAnd),
        (0, Owner::Raise) => Some(StageTag::R1),
        (0, Owner::Unmask) => Some(StageTag::U1),
        (1, _) => Some(StageTag::R2),
        (2, _) => Some(StageTag::R3),
        (3, _) => Some(StageTag::R4),
        (4, _) => Some(StageTag::R5),
        (5, _) => Some(StageTag::R6),
        (6, _) => Some(StageTag::SetBusy),
        (7, _) => Some(StageTag::ClearBusy),
        _ => None,
    }
}

fn stage_code(stage: StageTag) -> u32 {
    match stage {
        StageTag::BindRead | StageTag::CloseAnd | StageTag::R1 | StageTag::U1 => 0,
        StageTag::R2 => 1,
        StageTag::R3 => 2,
        StageTag::R4 => 3,
        StageTag::R5 => 4,
        StageTag::R6 => 5,
        StageTag::SetBusy => 6,
        StageTag::ClearBusy => 7,
    }
}

/// Writes a hypervisor's record.
pub fn put_domain(bytes: &mut [u8], domain: &Domain) {
    put_number(bytes, GIVEN, u32::from(domain.given));
    put_number(bytes, 4, domain.pages);
    put_sixteen(bytes, 8, &domain.tails);
    let call = FlatCall::from(domain.call);
    put_number(bytes, OWNER, owner_code(call.owner));
    put_number(bytes, STAGE, stage_code(call.stage));
    put_number(bytes, 80, call.port);
    put_number(bytes, 84, call.queue);
    put_number(bytes, 88, call.word);
    put_number(bytes, 92, call.tries);
    put_number(bytes, 96, call.count);
}

/// The guest's record that the bytes are.
pub fn guest(bytes: &[u8]) -> Guest {
    let service = FlatService {
        stage: service_stage(number(bytes, GUEST_STAGE)),
        port: number(bytes, 76),
        queue: number(bytes, 80),
        count: number(bytes, 84),
    };
    let clearing = FlatClear {
        stage: clear_stage(number(bytes, CLEAR_STAGE)),
        port: number(bytes, 92),
        word: number(bytes, 96),
        count: number(bytes, 100),
    };
    Guest {
        heads: sixteen(bytes, 0),
        local: number(bytes, 64),
        words: number(bytes, 68),
        call: service.service(),
        clearing: clearing.clear_mask(),
    }
}

fn clear_stage(code: u32) -> Option<ClearTag> {
    match code {
        1 => Some(ClearTag::Read),
        2 => Some(ClearTag::Cas),
        _ => None,
    }
}

fn clear_code(stage: Option<ClearTag>) -> u32 {
    match stage {
        None => 0,
        Some(ClearTag::Read) => 1,
        Some(ClearTag::Cas) => 2,
    }
}

fn service_stage(code: u32) -> Option<ServiceTag> {
    match code {
        1 => Some(ServiceTag::G0),
        2 => Some(ServiceTag::G1),
        3 => Some(ServiceTag::G2),
        4 => Some(ServiceTag::G3),
        5 => Some(ServiceTag::G4),
        _ => None,
    }
}

fn service_code(stage: Option<ServiceTag>) -> u32 {
    match stage {
        None => 0,
        Some(ServiceTag::G0) => 1,
        Some(ServiceTag::G1) => 2,
        Some(ServiceTag::G2) => 3,
        Some(ServiceTag::G3) => 4,
        Some(ServiceTag::G4) => 5,
    }
}

/// Writes a guest's record.
pub fn put_guest(bytes: &mut [u8], guest: &Guest) {
    put_sixteen(bytes, 0, &guest.heads);
    put_number(bytes, 64, guest.local);
    put_number(bytes, 68, guest.words);
    let service = FlatService::from(guest.call);
    put_number(bytes, GUEST_STAGE, service_code(service.stage));
    put_number(bytes, 76, service.port);
    put_number(bytes, 80, service.queue);
    put_number(bytes, 84, service.count);
    let clearing = FlatClear::from(guest.clearing);
    put_number(bytes, CLEAR_STAGE, clear_code(clearing.stage));
    put_number(bytes, 92, clearing.port);
    put_number(bytes, 96, clearing.word);
    put_number(bytes, 100, clearing.count);
}

#[cfg(test)]
mod tests {
    use super::*;
    use crate::boundary::calls::{fresh_domain, fresh_guest};

    #[test]
    fn zeros_are_fresh_records() {
        let (mut domain_bytes, mut guest_bytes) = ([0xAA; DOMAIN_SIZE], [0xAA; GUEST_SIZE]);
        let codes = (
            fresh_domain(&mut domain_bytes),
            fresh_guest(&mut guest_bytes),
        );
        assert_eq!(codes, (0, 0));
        assert_eq!(domain_bytes, [0; DOMAIN_SIZE]);
        assert_eq!(guest_bytes, [0; GUEST_SIZE]);
        assert_eq!(domain(&domain_bytes), Domain::FRESH);
        assert_eq!(guest(&guest_bytes), Guest::FRESH);
    }

    #[test]
    fn what_is_written_reads_back() {
        let mut random = crate::random::Random::new(1);
        for _ in 0..10_000 {
            let bytes: [u8; DOMAIN_SIZE] = std::array::from_fn(|_| random.word() as u8);
            let mut coded = bytes;
            put_number(&mut coded, OWNER, random.below(6) as u32);
            put_number(&mut coded, STAGE, random.below(10) as u32);
            let record = domain(&coded);
            let mut written = bytes;
            put_domain(&mut written, &record);
            assert_eq!(domain(&written), record);
        }
    }

    #[test]
    fn what_is_written_of_a_guest_reads_back() {
        let mut random = crate::random::Random::new(1);
        for _ in 0..10_000 {
            let bytes: [u8; GUEST_SIZE] = std::array::from_fn(|_| random.word() as u8);
            let mut coded = bytes;
            put_number(&mut coded, GUEST_STAGE, random.below(7) as u32);
            put_number(&mut coded, CLEAR_STAGE, random.below(4) as u32);
            let record = guest(&coded);
            let mut written = bytes;
            put_guest(&mut written, &record);
            assert_eq!(guest(&written), record);
        }
    }

    #[test]
    fn codes_end_where_they_are_said_to() {
        let known = |code| stage(Owner::Raise, code).is_some();
        assert!(known(STAGES - 1) && !known(STAGES));
        let known = |code| service_stage(code).is_some();
        assert!(known(SERVICE_STAGES) && !known(SERVICE_STAGES + 1));
        let known = |code| clear_stage(code).is_some();
        assert!(known(CLEAR_STAGES) && !known(CLEAR_STAGES + 1));
    }
}
