//! C1 to C12 of document 01, each with what runs before it.

use super::run::{expand, init, set_priority, Run};
use super::Script;
use crate::model::Side::{Guest, Hypervisor};
use crate::model::Step::{Bind, Close, Mask, Raise, Service, Tell, Unmask};

pub const SCRIPTS: &[Script] = &[
    ("C1", after_c1),
    ("C2", after_c2),
    ("C3", after_c3),
    ("C4", after_c4),
    ("C5", after_c5),
    ("C6", after_c6),
    ("C7", after_c7),
    ("C8", c8),
    ("C8 after C7", c8_after_c7),
    ("C9", c9),
    ("C10", c10),
    ("C11", c11),
    ("C12", c12),
];

/// The control block given, one page, and the guest told.
pub fn begun(run: &mut Run) {
    run.calls(&[init(0, 1, 8, 0), expand(2, 8)])
        .step(Tell(1024));
}

pub fn after_c1(run: &mut Run) {
    begun(run);
    run.calls(&[Bind(5), Raise(5)]);
}

pub fn after_c2(run: &mut Run) {
    after_c1(run);
    run.calls(&[Bind(9), Raise(9)]);
}

fn after_c3(run: &mut Run) {
    after_c2(run);
    run.calls(&[Raise(5)]);
}

fn after_c4(run: &mut Run) {
    after_c3(run);
    run.service();
}

pub fn after_c5(run: &mut Run) {
    after_c4(run);
    run.service();
}

fn after_c6(run: &mut Run) {
    after_c5(run);
    run.service();
}

fn after_c7(run: &mut Run) {
    after_c6(run);
    run.calls(&[Raise(9)]);
}

fn masked_12(run: &mut Run) {
    run.calls(&[Bind(12)]).step(Mask(12));
    run.calls(&[Raise(12), Unmask(12)]);
}

fn c8(run: &mut Run) {
    begun(run);
    masked_12(run);
}

fn c8_after_c7(run: &mut Run) {
    after_c7(run);
    masked_12(run);
}

/// C1, port 9 bound, and its raise as far as R2.
pub fn at_r3(run: &mut Run) {
    after_c1(run);
    run.calls(&[Bind(9)]).step(Raise(9)).accesses(Hypervisor, 2);
}

/// The same and R3: word 5 was A0000000.
pub fn at_r4(run: &mut Run) {
    at_r3(run);
    run.accesses(Hypervisor, 1);
}

/// The service's G2 falls between R3 and the cas.
fn c9(run: &mut Run) {
    after_c1(run);
    run.calls(&[Bind(9)]).step(Service).accesses(Guest, 2);
    run.step(Raise(9)).accesses(Hypervisor, 3);
    run.accesses(Guest, 1).finish(Hypervisor).finish(Guest);
}

fn c10(run: &mut Run) {
    after_c5(run);
    run.calls(&[set_priority(9, 0), Raise(9), Raise(5)]);
}

fn c11(run: &mut Run) {
    after_c1(run);
    run.calls(&[Close(5), Bind(5)]).service().calls(&[Bind(5)]);
}

/// A guest that breaks the rules changes MASKED before the or and before each of five cas.
fn c12(run: &mut Run) {
    at_r4(run);
    run.replies(Hypervisor, &[0xE000_0000, 0xA000_0000]);
    let words = [0xF000_0000, 0xB000_0000, 0xF000_0000, 0xB000_0000];
    run.replies(Hypervisor, &words);
    run.replies(Hypervisor, &[0xB000_0000]);
}
