//! The rows of readings A1: which call or reply a step is, and the numbers that each can give.

use super::pair::Before;
use crate::model::{Guest, Next, Owner, Side, Step};

/// A row: a call's start, or the reply to it.
#[derive(Clone, Copy, Debug, PartialEq, Eq)]
#[allow(missing_docs)]
pub enum Row {
    InitControl,
    ExpandArray,
    Bind,
    BindReply,
    Close,
    CloseReply,
    SetPriority,
    Raise,
    RaiseReply,
    Unmask,
    UnmaskReply,
    Service,
    ServiceReply,
    ClearMask,
    ClearMaskReply,
    Mask,
    Tell,
}

/// In place of a number: an access is named.
pub const NAMES_ACCESS: u32 = 36;
/// Number of things that a row can give.
pub const GIVEN: usize = NAMES_ACCESS as usize + 1;

/// Every row with its name and what it can give: refusals in their order, then the rest.
pub const ROWS: [(Row, &str, &[u32]); 17] = [
    (Row::InitControl, "init_control", &[15, 17, 9, 11, 12, 0]),
    (Row::ExpandArray, "expand_array", &[15, 10, 13, 11, 0]),
    (Row::Bind, "bind", &[15, 10, 3, 14, 5, 0, NAMES_ACCESS]),
    (Row::BindReply, "reply to bind", &[16, 14, 7, 0]),
    (Row::Close, "close", &[15, 10, 3, 14, 4, 0, NAMES_ACCESS]),
    (Row::CloseReply, "reply to close", &[16, 14, 0]),
    (Row::SetPriority, "set_priority", &[15, 10, 3, 14, 8, 0]),
    (Row::Raise, "raise", &[15, 10, 3, 14, 4, 6, NAMES_ACCESS]),
    (
        Row::RaiseReply,
        "reply to raise",
        &[16, 14, 0, 1, 2, NAMES_ACCESS],
    ),
    (Row::Unmask, "unmask", &[15, 10, 3, 14, 4, 6, NAMES_ACCESS]),
    (
        Row::UnmaskReply,
        "reply to unmask",
        &[16, 14, 0, 1, 2, NAMES_ACCESS],
    ),
    (Row::Service, "service", &[15, NAMES_ACCESS]),
    (
        Row::ServiceReply,
        "reply to service",
        &[16, 18, 19, 20, 21, NAMES_ACCESS],
    ),
    (Row::ClearMask, "clear_mask", &[15, 3, 6, NAMES_ACCESS]),
    (
        Row::ClearMaskReply,
        "reply to clear_mask",
        &[16, 0, 35, NAMES_ACCESS],
    ),
    (Row::Mask, "mask", &[3, 6, 0]),
    (Row::Tell, "tell", &[0]),
];

/// The calls of both sides that ended last: a reply with no call under way belongs to its side's.
#[derive(Clone, Copy, Debug)]
pub struct Ended {
    /// The hypervisor's call.
    pub owner: Owner,
    /// Whether the guest's was a clear_mask, no service.
    pub clear_mask: bool,
}

/// The row of a step.
pub fn row(before: &Before, step: Step, ended: Ended) -> Row {
    match step {
        Step::InitControl { .. } => Row::InitControl,
        Step::ExpandArray { .. } => Row::ExpandArray,
        Step::Bind(_) => Row::Bind,
        Step::Close(_) => Row::Close,
        Step::SetPriority { .. } => Row::SetPriority,
        Step::Raise(_) => Row::Raise,
        Step::Unmask(_) => Row::Unmask,
        Step::Service => Row::Service,
        Step::ClearMask(_) => Row::ClearMask,
        Step::Mask(_) | Step::MaskWithin { .. } => Row::Mask,
        Step::Tell(_) => Row::Tell,
        Step::Access(Side::Guest) | Step::HandBack(Side::Guest, _) => {
            guest_reply_row(&before.guest, ended.clear_mask)
        }
        Step::Access(Side::Hypervisor) | Step::HandBack(Side::Hypervisor, _) => {
            reply_row(before.domain.call.map_or(ended.owner, |call| call.owner))
        }
    }
}

fn guest_reply_row(guest: &Guest, ended: bool) -> Row {
    let idle = !guest.is_under_way();
    match guest.clearing.is_some() || (idle && ended) {
        true => Row::ClearMaskReply,
        false => Row::ServiceReply,
    }
}

fn reply_row(owner: Owner) -> Row {
    match owner {
        Owner::Bind => Row::BindReply,
        Owner::Close => Row::CloseReply,
        Owner::Raise => Row::RaiseReply,
        Owner::Unmask => Row::UnmaskReply,
    }
}

/// What a step gave: its answer's number, or that an access was named.
pub fn given(next: Next) -> u32 {
    match next {
        Next::Access(_) => NAMES_ACCESS,
        Next::Answer(answer, _) => answer.number(),
    }
}
