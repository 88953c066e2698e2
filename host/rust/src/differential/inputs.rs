//! Inputs of the rows of readings A1 for which chosen lines hold and no others.

use super::lent::odd_byte;
use super::rows::Row;
use crate::model::arbitrary::{self, flat_call, flat_clear, flat_service, with_bit_from};
use crate::model::{
    Call, ClearMask, ClearStage, Domain, Entry, FlatCall, Guest, Owner, Port, Queue, Service,
    ServiceStage, Side, Stage, StageTag, Step,
};
use crate::random::Random;

const PORT_LIMIT: u64 = 131_072;

/// The lines that hold.
#[derive(Clone, Copy)]
pub struct Lines<'a>(pub &'a [u32]);

impl Lines<'_> {
    fn has(self, line: u32) -> bool {
        self.0.contains(&line)
    }
}

/// Records, ledger and step.
pub struct Input {
    /// The hypervisor's record.
    pub domain: Domain,
    /// The guest's record.
    pub guest: Guest,
    /// The ledger's bytes.
    pub ledger: Vec<u8>,
    /// The step.
    pub step: Step,
}

impl Input {
    /// An input of a row for which exactly these lines hold.
    pub fn new(random: &mut Random, row: Row, lines: Lines<'_>) -> Self {
        let mut input = Input {
            domain: domain(random, lines),
            guest: guest(random, row, lines),
            ledger: Vec::new(),
            step: Step::Service,
        };
        match row {
            Row::InitControl => input.init(random, lines),
            Row::ExpandArray => input.expand(random, lines),
            Row::Bind | Row::Close | Row::SetPriority | Row::Raise | Row::Unmask => {
                input.on_port(random, lines, row);
            }
            Row::BindReply => input.reply(random, lines, Owner::Bind),
            Row::CloseReply => input.reply(random, lines, Owner::Close),
            Row::RaiseReply => input.reply(random, lines, Owner::Raise),
            Row::UnmaskReply => input.reply(random, lines, Owner::Unmask),
            Row::Service => {}
            Row::ServiceReply => input.service_reply(random, lines),
            Row::ClearMask => input.clear_mask(random, lines),
            Row::ClearMaskReply => input.clear_mask_reply(random, lines),
            Row::Mask => input.mask(random, lines),
            Row::Tell => input.step = Step::Tell(told(random)),
        }
        input
    }

    fn init(&mut self, random: &mut Random, lines: Lines<'_>) {
        self.domain.given = lines.has(9);
        let (frame, frames) = frame(random, lines);
        let offset = 8 * random.below(504);
        let bad_offsets = [4, 4_020, 4_028, 4_032, 4_096, 0xFFFF_FFF8, u64::MAX];
        self.step = Step::InitControl {
            vcpu: match lines.has(17) {
                true => refused(random, 0, 0, &[1, 7, u64::MAX]),
                false => 0,
            },
            frame,
            frames,
            offset: match lines.has(12) {
                true => refused(random, offset, 12, &bad_offsets),
                false => offset,
            },
        };
    }

    fn expand(&mut self, random: &mut Random, lines: Lines<'_>) {
        self.domain.pages = match lines.has(13) {
            true => random.pick(&[128, 129, 200, 1 << 31, u32::MAX]),
            false => random.below(128) as u32,
        };
        let (frame, frames) = frame(random, lines);
        self.step = Step::ExpandArray { frame, frames };
    }

    fn on_port(&mut self, random: &mut Random, lines: Lines<'_>, row: Row) {
        let port = start_port(random, lines);
        let bound = match row {
            Row::Bind => lines.has(5),
            Row::SetPriority => random.once_in(2),
            _ => !lines.has(4),
        };
        self.ledger = ledger(random, port, lines.has(14), bound);
        self.domain.pages = pages(random, port, lines.has(6));
        let priority = random.below(16);
        self.step = match row {
            Row::Bind => Step::Bind(port),
            Row::Close => Step::Close(port),
            Row::Raise => Step::Raise(port),
            Row::Unmask => Step::Unmask(port),
            _ => Step::SetPriority {
                port,
                priority: match lines.has(8) {
                    true => refused(random, priority, 4, &[16, 17, 255, u64::MAX]),
                    false => priority,
                },
            },
        };
    }

    fn reply(&mut self, random: &mut Random, lines: Lines<'_>, owner: Owner) {
        let port = small_port(random);
        let bound = random.once_in(2);
        self.ledger = ledger(random, port, lines.has(14), bound);
        let stage = reply_stage(random, owner);
        let call = FlatCall {
            owner: Some(owner),
            stage,
            port: port as u32,
            ..flat_call(random)
        };
        self.domain.call = call.call().filter(|_| !lines.has(16));
        let word = arbitrary::word(random);
        let linked = 1 << 29;
        let seen = match lines.has(7) {
            true => word | linked,
            false => word & !linked,
        };
        self.step = Step::HandBack(Side::Hypervisor, seen);
    }

    /// 18 at G0 or at G1.
    fn service_reply(&mut self, random: &mut Random, lines: Lines<'_>) {
        let index = match lines.has(18) {
            true => random.pick(&[1024, 1025, 0x2_0005, u32::MAX]),
            false => 1 + random.below(1023) as u32,
        };
        let queue = random.below(16) as usize;
        self.guest.words = 1024;
        self.guest.local = 1 << queue;
        self.guest.heads[queue] = index;
        let at_g1 = random.once_in(2);
        let stage = match at_g1 {
            true => ServiceStage::G1 {
                queue: Queue(queue as u32),
            },
            false => ServiceStage::G0,
        };
        let count = 1 + u32::from(at_g1);
        self.guest.clearing = None;
        self.guest.call = (!lines.has(16)).then_some(Service { stage, count });
        let seen = if at_g1 { index } else { 0xFFFF << 16 };
        self.step = Step::HandBack(Side::Guest, seen);
    }

    fn clear_mask(&mut self, random: &mut Random, lines: Lines<'_>) {
        let wide_port = with_bit_from(random, 17, 5);
        let (port, words) = match (lines.has(3), lines.has(6)) {
            (true, true) => random.pick(&[
                (0, 0),
                (PORT_LIMIT, 1 << 17),
                (wide_port, 5),
                (u64::MAX, u32::MAX),
            ]),
            (true, false) => {
                random.pick(&[(0, 1), (0, 1024), (PORT_LIMIT, 131_073), (0, u32::MAX)])
            }
            (false, true) => random.pick(&[(1, 0), (1, 1), (1024, 1024), (131_071, 131_071)]),
            (false, false) => random.pick(&[
                (1, 2),
                (1023, 1024),
                (131_071, 131_072),
                (131_071, u32::MAX),
            ]),
        };
        self.guest.words = words;
        self.step = Step::ClearMask(port);
    }

    /// Without 16 a clear_mask is under way, also where a service waits.
    fn clear_mask_reply(&mut self, random: &mut Random, lines: Lines<'_>) {
        let idle = lines.has(16);
        self.guest.call = self.guest.call.filter(|_| !idle);
        self.guest.clearing = (!idle).then(|| clearing(random));
        self.step = Step::HandBack(Side::Guest, arbitrary::word(random));
    }

    fn mask(&mut self, random: &mut Random, lines: Lines<'_>) {
        let wide_port = with_bit_from(random, 17, 5);
        let wide_words = with_bit_from(random, 18, 1024);
        let (port, words) = match (lines.has(3), lines.has(6)) {
            (true, true) => random.pick(&[
                (0, 0),
                (PORT_LIMIT, PORT_LIMIT),
                (wide_port, 1024),
                (u64::MAX, wide_words),
            ]),
            (true, false) => random.pick(&[
                (0, 1),
                (0, 1024),
                (0, wide_words),
                (PORT_LIMIT, PORT_LIMIT + 1),
                (200_000, u64::MAX),
            ]),
            (false, true) => random.pick(&[(1, 0), (1, 1), (1024, 1024), (131_071, 131_071)]),
            (false, false) => random.pick(&[
                (1, 2),
                (1023, 1024),
                (131_071, PORT_LIMIT),
                (131_071, wide_words),
                (5, 0xFFFF_FFFF),
                (5, 1 << 32),
            ]),
        };
        self.step = Step::MaskWithin { port, words };
    }
}

/// A record with any tails; a call is under way where 15 holds, the block is given unless 10 holds.
fn domain(random: &mut Random, lines: Lines<'_>) -> Domain {
    let mut domain = arbitrary::domain(random);
    domain.given = !lines.has(10);
    domain.call = lines.has(15).then(|| call(random));
    domain
}

fn call(random: &mut Random) -> Call {
    let flat = flat_call(random);
    flat.call().unwrap_or(Call {
        owner: Owner::Raise,
        port: Port(flat.port),
        stage: Stage::R2,
        count: flat.count,
    })
}

/// A guest's record. Where 15 of a service holds, a service or a clear_mask is under way, or both;
/// where that of a clear_mask does, a clear_mask, and a service or none.
fn guest(random: &mut Random, row: Row, lines: Lines<'_>) -> Guest {
    let mut guest = arbitrary::guest(random);
    if matches!(row, Row::Service | Row::ClearMask) {
        guest.clearing = lines.has(15).then(|| clearing(random));
    }
    if row == Row::Service {
        guest.call = lines.has(15).then(|| service(random));
        match random.below(3) {
            0 => guest.clearing = None,
            1 if lines.has(15) => guest.call = None,
            _ => {}
        }
    }
    guest
}

fn service(random: &mut Random) -> Service {
    let flat = flat_service(random);
    flat.service().unwrap_or(Service {
        stage: ServiceStage::G0,
        count: flat.count,
    })
}

fn clearing(random: &mut Random) -> ClearMask {
    let flat = flat_clear(random);
    flat.clear_mask().unwrap_or(ClearMask {
        port: Port(flat.port),
        stage: ClearStage::Read,
        count: flat.count,
    })
}

/// A frame and the frame count: 11 holds unless the frame is below.
fn frame(random: &mut Random, lines: Lines<'_>) -> (u64, u64) {
    let wide_frame = with_bit_from(random, 3, 1);
    let wide_frames = with_bit_from(random, 3, 2);
    match lines.has(11) {
        true => random.pick(&[
            (0, 0),
            (4, 4),
            (5, 4),
            (1 << 32, 1 << 32),
            (wide_frame, 5),
            (u64::MAX, u64::MAX),
        ]),
        false => random.pick(&[
            (0, 1),
            (3, 4),
            (1 << 32, (1 << 32) + 1),
            (5, wide_frames),
            (5, u64::MAX),
            (0, 1 << 32),
        ]),
    }
}

/// A number that is refused: one of these, or a legal one with one bit more, from bit `from` up.
fn refused(random: &mut Random, legal: u64, from: u64, others: &[u64]) -> u64 {
    match random.once_in(2) {
        true => random.pick(others),
        false => with_bit_from(random, from, legal),
    }
}

/// A number of words: any, or one above 32 bits with few lower bits.
fn told(random: &mut Random) -> u64 {
    let few = random.pick(&[0, 5, 1024, 131_072]);
    match random.once_in(2) {
        true => random.bits() >> random.below(64),
        false => with_bit_from(random, 32, few),
    }
}

/// A port in 1 to 131,071, seldom a large one.
pub(super) fn small_port(random: &mut Random) -> u64 {
    match random.below(512) {
        0 => random.pick(&[131_071, 131_070, 65_536]),
        1..=16 => 1000 + random.below(50),
        _ => 1 + random.below(40),
    }
}

fn start_port(random: &mut Random, lines: Lines<'_>) -> u64 {
    match (lines.has(3), lines.has(14)) {
        (true, true) => {
            let legal = small_port(random);
            refused(
                random,
                legal,
                17,
                &[0, PORT_LIMIT, PORT_LIMIT + 5, u64::MAX],
            )
        }
        (true, false) if random.once_in(256) => PORT_LIMIT,
        (true, false) => 0,
        (false, _) => small_port(random),
    }
}

/// A ledger with or without an entry for the port; without, it may end just before it or in it.
pub(super) fn ledger(random: &mut Random, port: u64, missing: bool, bound: bool) -> Vec<u8> {
    let near = port.min(64) as usize;
    let entries = match missing {
        true if port < 2000 && random.once_in(2) => port as usize,
        true if port <= PORT_LIMIT && random.once_in(200) => port as usize,
        true => random.below(near as u64 + 1) as usize,
        false => port as usize + 1 + random.below(4) as usize,
    };
    let mut bytes: Vec<u8> = (0..2 * entries).map(|_| random.word() as u8).collect();
    if !missing {
        let entry = Entry {
            bound,
            ..Entry::from_bits(random.word() as u16)
        };
        bytes[2 * port as usize..][..2].copy_from_slice(&entry.bits().to_le_bytes());
    }
    odd_byte(random, &mut bytes);
    bytes
}

/// Pages so that the port is outside the array or inside.
fn pages(random: &mut Random, port: u64, outside: bool) -> u32 {
    let page = (port / 1024).min(127) as u32;
    match outside {
        true => random.below(u64::from(page) + 1) as u32,
        false => page + 1 + random.pick(&[0, 0, 1, 127, 1000]),
    }
}

fn reply_stage(random: &mut Random, owner: Owner) -> StageTag {
    let later = random.pick(&[
        StageTag::R2,
        StageTag::R3,
        StageTag::R4,
        StageTag::R5,
        StageTag::R6,
        StageTag::SetBusy,
        StageTag::ClearBusy,
    ]);
    match owner {
        Owner::Bind => StageTag::BindRead,
        Owner::Close => StageTag::CloseAnd,
        Owner::Raise => random.pick(&[StageTag::R1, later]),
        Owner::Unmask => random.pick(&[StageTag::U1, later]),
    }
}
