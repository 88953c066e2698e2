//! Paths of service, mask and tell that C1 to C12 leave out.

use super::run::{expand, set_priority, Run};
use super::small_set::{after_c1, after_c2, begun};
use super::Script;
use crate::model::Side::Guest;
use crate::model::Step::{Bind, Close, Mask, Raise, Service, Tell, Unmask};
use crate::model::{self, Port, ServiceStage};

pub const SCRIPTS: &[Script] = &[
    ("G3 sees MASKED, then unmask", g3_masked),
    ("G4 sees no PENDING", g4_not_pending),
    ("HEAD is 0", head_zero),
    ("HEAD is 131077", head_wide),
    ("H is outside", bad_head),
    ("Mask and tell during a service", mask_and_tell),
    ("Tell before G1 extends her words", told_in_service),
    ("HEAD is beyond her words", not_told),
    ("Two ready queues at once", two_queues),
    ("Saturated count of a service", saturated),
];

fn g3_masked(run: &mut Run) {
    after_c1(run);
    run.step(Mask(5)).service().calls(&[Unmask(5)]);
}

/// A close falls between G3 and G4.
fn g4_not_pending(run: &mut Run) {
    after_c1(run);
    run.step(Service).accesses(Guest, 4);
    run.calls(&[Close(5)]).accesses(Guest, 1);
}

fn head_zero(run: &mut Run) {
    after_c1(run);
    run.step(Service).accesses(Guest, 1).replies(Guest, &[0]);
    run.service();
}

fn head_wide(run: &mut Run) {
    after_c1(run);
    run.step(Service).accesses(Guest, 1);
    run.replies(Guest, &[0x0002_0005]);
}

/// H becomes 2000, outside her words; queue 8 stays ready.
fn bad_head(run: &mut Run) {
    after_c2(run);
    run.calls(&[Bind(12), set_priority(12, 8), Raise(12)]);
    run.step(Service).accesses(Guest, 2);
    run.replies(Guest, &[0xA000_07D0, 0]);
    run.service().service();
}

fn mask_and_tell(run: &mut Run) {
    after_c1(run);
    run.step(Service).accesses(Guest, 1);
    run.steps(&[Mask(5), Tell(1024)]).accesses(Guest, 2);
    run.step(Mask(9)).finish(Guest);
}

fn told_in_service(run: &mut Run) {
    begun(run);
    run.calls(&[expand(3, 8), Bind(1500)]).step(Mask(1500));
    run.calls(&[Raise(1500)]).step(Service).accesses(Guest, 1);
    run.step(Tell(2048)).finish(Guest);
}

fn not_told(run: &mut Run) {
    begun(run);
    run.calls(&[expand(3, 8), Bind(1500), Raise(1500)])
        .service();
}

fn two_queues(run: &mut Run) {
    begun(run);
    run.calls(&[Bind(5), Bind(9), set_priority(9, 3)]);
    run.calls(&[Raise(5), Raise(9)]);
    run.service().service().service();
}

/// A service at G3 whose count can't move further.
fn saturated(run: &mut Run) {
    after_c1(run);
    run.world.guest.call = Some(model::Service {
        stage: ServiceStage::G3 { port: Port(5) },
        count: u32::MAX,
    });
    run.finish(Guest);
}
