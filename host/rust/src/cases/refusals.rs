//! Refusals: no ledger entry at each reply, ports outside the array, calls under way, and the order
//! of each call.

use super::run::{expand, init, set_priority, Run};
use super::small_set::{after_c1, at_r3, begun};
use super::Script;
use crate::model::Side::{Guest, Hypervisor};
use crate::model::Step::{Bind, Close, Mask, Raise, Service, Unmask};

pub const SCRIPTS: &[Script] = &[
    ("14 at the replies of bind, R1, R2, R5, R6", no_entry_first),
    ("14 at the replies of R3, R4, close, U1", no_entry_then),
    ("14 at the replies of the or and the and", no_entry_busy),
    ("Bind and close outside the array", outside),
    ("Calls during a raise", under_way),
    ("Refusals of the calls on ports", in_order),
    ("Control block not given", not_given),
];

/// A raise of 5 through R5 and R6.
fn no_entry_first(run: &mut Run) {
    begun(run);
    run.step(Bind(5)).access_twice();
    run.step(Raise(5)).access_twice().access_twice();
    run.access_twice().access_twice();
}

/// A raise of 9 through R3 and R4.
fn no_entry_then(run: &mut Run) {
    at_r3(run);
    run.access_twice().access_twice();
    run.step(Close(9)).access_twice();
    run.steps(&[Mask(5), Unmask(5)]).access_twice();
}

/// Port 5 is masked before the first cas of port 9, and taken before the second.
fn no_entry_busy(run: &mut Run) {
    after_c1(run);
    run.calls(&[Bind(9)]).step(Service).accesses(Guest, 2);
    run.step(Raise(9)).accesses(Hypervisor, 3).step(Mask(5));
    run.accesses(Hypervisor, 1).access_twice();
    run.accesses(Guest, 1)
        .accesses(Hypervisor, 1)
        .access_twice();
    run.finish(Hypervisor).finish(Guest);
}

fn outside(run: &mut Run) {
    begun(run);
    run.calls(&[Bind(1500), Bind(1500), Raise(1500)]);
    run.calls(&[Unmask(1500), Close(1500), Close(1500)]);
}

fn under_way(run: &mut Run) {
    after_c1(run);
    run.calls(&[Bind(9)]).step(Raise(9)).accesses(Hypervisor, 1);
    run.steps(&[init(0, 1, 8, 0), expand(3, 8), Bind(6), Close(5)]);
    run.steps(&[set_priority(5, 3), Raise(5), Unmask(5)]);
    run.steps(&[Service, Service]);
    run.finish(Hypervisor).finish(Guest);
    run.accesses(Hypervisor, 1).accesses(Guest, 1);
    run.replies(Hypervisor, &[0xA000_0000]);
    run.replies(Guest, &[0xA000_0000]);
}

/// Port 5000 has no entry; port 1500 lies outside the array.
fn in_order(run: &mut Run) {
    begun(run);
    run.calls(&[Bind(0), Bind(5000), Close(0), Close(5000), Close(5)]);
    run.calls(&[0, 5000, 5].map(|port| set_priority(port, 16)));
    run.calls(&[Raise(0), Raise(5000), Raise(1500), Unmask(5)]);
    run.steps(&[Mask(0), Mask(1500)]).calls(&[expand(8, 8)]);
}

/// Refusals before and at the giving of the control block.
fn not_given(run: &mut Run) {
    run.calls(&[expand(8, 8), Bind(0), Close(0), set_priority(0, 16)]);
    run.calls(&[Raise(0), Unmask(0)]).service();
    run.calls(&[init(1, 8, 8, 4020), init(0, 8, 8, 4020)]);
    run.calls(&[init(0, 7, 8, 8)]);
    run.calls(&[init(1, 8, 8, 4020), init(0, 8, 8, 4020)]);
}
