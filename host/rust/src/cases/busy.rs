//! Each way through BUSY, by words handed back, and with a guest that keeps the rules.

use super::run::Run;
use super::small_set::{after_c1, at_r3, at_r4};
use super::Script;
use crate::model::Side::{Guest, Hypervisor};
use crate::model::Step::{Bind, ClearMask, Close, Mask, Raise, Service};

pub const SCRIPTS: &[Script] = &[
    ("Taken on the second try", taken_second),
    ("Taken on the third try", taken_third),
    ("Taken on the fourth try", taken_fourth),
    ("Taken on the fifth try", taken_fifth),
    ("The or sees LINKED lost", or_unlinked),
    ("Second cas loses LINKED", second_unlinked),
    ("Third cas loses LINKED", third_unlinked),
    ("Fourth cas loses LINKED", fourth_unlinked),
    ("Fifth cas loses LINKED", fifth_unlinked),
    ("BUSY stands before the first cas", busy_before),
    ("BUSY stands before the or", busy_before_or),
    ("BUSY and LINK change between two cas", busy_changed),
    ("The and sees LINKED lost", and_unlinked),
    ("The and sees LINKED again", and_linked),
    ("Mask between R3 and the cas", masked),
    ("BUSY keeps a clear mask away", kept_away),
    ("BUSY comes between read and cas of a clear mask", overtaken),
    ("Ten accesses within the rules", ten_accesses),
];

/// Word 5 as a guest leaves it that changes MASKED before each access, from the first cas on: the
/// or is made on the second word.
const SEEN: [u32; 6] = [
    0xE000_0000,
    0xE000_0000,
    0xB000_0000,
    0xF000_0000,
    0xB000_0000,
    0xF000_0000,
];
/// The words without LINKED that the or and the later cas see.
const UNLINKED: u32 = 0x8000_0000;
const UNLINKED_BUSY: u32 = 0x9000_0000;

/// The first cas and the or, then so many cas more that are not taken.
fn not_taken(run: &mut Run, more: usize) -> &mut Run {
    at_r4(run);
    run.replies(Hypervisor, &SEEN[..2 + more])
}

fn taken_second(run: &mut Run) {
    not_taken(run, 0).replies(Hypervisor, &[0xF000_0000]);
}

fn taken_third(run: &mut Run) {
    not_taken(run, 1).replies(Hypervisor, &[0xB000_0000]);
}

fn taken_fourth(run: &mut Run) {
    not_taken(run, 2).replies(Hypervisor, &[0xF000_0000]);
}

fn taken_fifth(run: &mut Run) {
    not_taken(run, 3).replies(Hypervisor, &[0xB000_0000]);
}

fn or_unlinked(run: &mut Run) {
    at_r4(run);
    run.replies(Hypervisor, &[0xE000_0000, UNLINKED]);
    run.finish(Hypervisor);
}

fn lost(run: &mut Run, more: usize) {
    not_taken(run, more).replies(Hypervisor, &[UNLINKED_BUSY]);
    run.finish(Hypervisor);
}

fn second_unlinked(run: &mut Run) {
    lost(run, 0);
}

fn third_unlinked(run: &mut Run) {
    lost(run, 1);
}

fn fourth_unlinked(run: &mut Run) {
    lost(run, 2);
}

/// Twelve accesses, the most of any call.
fn fifth_unlinked(run: &mut Run) {
    lost(run, 3);
}

/// The first cas clears a BUSY that the guest has set.
fn busy_before(run: &mut Run) {
    at_r3(run);
    run.replies(Hypervisor, &[0xBFFE_0003, 0xBFFE_0003]);
}

fn busy_before_or(run: &mut Run) {
    at_r4(run);
    run.replies(Hypervisor, &[0xE000_0000, 0xB000_0000, 0xB000_0000]);
}

/// The guest writes the word anew, without BUSY; the next cas compares with what stands.
fn busy_changed(run: &mut Run) {
    not_taken(run, 0).replies(Hypervisor, &[0xA000_0003, 0xA000_0003]);
}

/// The word before the and had LINKED: 2.
fn and_unlinked(run: &mut Run) {
    not_taken(run, 4).replies(Hypervisor, &[UNLINKED_BUSY]);
}

/// The word before the and had no LINKED: HEAD.
fn and_linked(run: &mut Run) {
    not_taken(run, 1).replies(Hypervisor, &[UNLINKED_BUSY, 0xB000_0000]);
    run.finish(Hypervisor);
}

fn masked(run: &mut Run) {
    at_r4(run);
    run.step(Mask(5)).finish(Hypervisor).service().service();
}

/// Port 5 is closed while it is linked, so that it is the tail and not pending; its mask is set
/// between R3 and the cas of port 9.
fn closed_tail(run: &mut Run) {
    after_c1(run);
    run.calls(&[Close(5), Bind(9)]).step(Raise(9));
    run.accesses(Hypervisor, 3).step(Mask(5));
}

fn kept_away(run: &mut Run) {
    closed_tail(run);
    run.accesses(Hypervisor, 2).clear_mask(5).finish(Hypervisor);
    run.clear_mask(5);
}

fn overtaken(run: &mut Run) {
    closed_tail(run);
    run.accesses(Hypervisor, 1).step(ClearMask(5));
    run.accesses(Guest, 1).accesses(Hypervisor, 1);
    run.accesses(Guest, 1).finish(Hypervisor);
}

/// The guest clears the tail's mask before the first cas, sets it again before the second, and
/// takes the tail before the third.
fn ten_accesses(run: &mut Run) {
    after_c1(run);
    run.calls(&[Close(5), Bind(9)]).steps(&[Mask(5), Service]);
    run.accesses(Guest, 2)
        .step(Raise(9))
        .accesses(Hypervisor, 3);
    run.step(ClearMask(5)).accesses(Guest, 2);
    run.accesses(Hypervisor, 2).step(Mask(5));
    run.accesses(Hypervisor, 1).accesses(Guest, 1);
    run.finish(Hypervisor).finish(Guest);
}
