//! Paths of raise and unmask that C1 to C12 leave out, but for those through BUSY.

use super::run::{set_priority, Run};
use super::small_set::{after_c1, after_c5, at_r3, begun};
use super::Script;
use crate::model::Side::Hypervisor;
use crate::model::Step::{Bind, Close, Mask, Raise, Unmask};
use crate::model::{Call, Owner, Port, Queue, Stage};

pub const SCRIPTS: &[Script] = &[
    ("R3 without LINKED", r3_unlinked),
    ("Reserved bits and a changed LINK", changed_words),
    ("R6 sees the bit set", ready_seen),
    ("R2 sees LINKED", r2_linked),
    ("Unmask sees LINKED, then no PENDING", unmask_linked),
    ("Close keeps the last queue", moved_port),
    ("Saturated count of a raise", saturated),
];

fn r3_unlinked(run: &mut Run) {
    after_c5(run);
    run.calls(&[Raise(5)]);
}

fn changed_words(run: &mut Run) {
    at_r3(run);
    run.replies(Hypervisor, &[0xAFFE_0003, 0xE100_0003, 0xE100_0003]);
    run.replies(Hypervisor, &[0xF100_0003]);
}

fn ready_seen(run: &mut Run) {
    at_r3(run);
    run.replies(Hypervisor, &[0x8000_0000]).finish(Hypervisor);
}

fn r2_linked(run: &mut Run) {
    begun(run);
    run.calls(&[Bind(5)]).step(Raise(5)).accesses(Hypervisor, 1);
    run.replies(Hypervisor, &[0xA000_0000]);
}

fn unmask_linked(run: &mut Run) {
    after_c1(run);
    run.step(Mask(5)).calls(&[Unmask(5), Bind(9), Unmask(9)]);
}

/// Port 6 starts queue 7 anew.
fn moved_port(run: &mut Run) {
    after_c1(run);
    run.service();
    run.calls(&[Close(5), Bind(5), set_priority(5, 0), Raise(5)]);
    run.calls(&[Bind(6), Raise(6)]);
}

/// A raise at R5 whose count can't move further.
fn saturated(run: &mut Run) {
    begun(run);
    run.world.domain.call = Some(Call {
        owner: Owner::Raise,
        port: Port(5),
        stage: Stage::R5 { queue: Queue(7) },
        count: u32::MAX,
    });
    run.finish(Hypervisor);
}
