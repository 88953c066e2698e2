//! Paths of clear_mask.

use super::run::Run;
use super::small_set::{after_c1, begun};
use super::Script;
use crate::model::Side::Guest;
use crate::model::Step::{Bind, ClearMask, Mask, Raise, Service, Tell, Unmask};

pub const SCRIPTS: &[Script] = &[
    ("Clear mask of ports not masked and masked", whole),
    ("Clear mask of a pending port, then unmask", pending),
    ("A raise between read and cas of a clear mask", raised),
    ("A mask and an unmask during a clear mask", changed),
    ("Clear mask during a service", in_service),
    ("Calls during a clear mask", during),
    ("Refusals of clear mask", refused),
];

fn whole(run: &mut Run) {
    begun(run);
    run.clear_mask(5).step(Mask(5)).clear_mask(5);
}

fn pending(run: &mut Run) {
    begun(run);
    run.calls(&[Bind(5)]).step(Mask(5)).calls(&[Raise(5)]);
    run.clear_mask(5).calls(&[Unmask(5)]).service();
}

/// The raise finds the port masked, the cas finds it pending: unmask links it.
fn raised(run: &mut Run) {
    begun(run);
    run.calls(&[Bind(5)]).steps(&[Mask(5), ClearMask(5)]);
    run.accesses(Guest, 1).calls(&[Raise(5)]);
    run.accesses(Guest, 1).calls(&[Unmask(5)]).service();
}

/// A mask leaves the word as it is, and the cas is taken; after an unmask it is not.
fn changed(run: &mut Run) {
    begun(run);
    run.calls(&[Bind(5)]).steps(&[Mask(5), ClearMask(5)]);
    run.accesses(Guest, 1).step(Mask(5)).accesses(Guest, 1);
    run.steps(&[Mask(5), ClearMask(5)]).accesses(Guest, 1);
    run.calls(&[Unmask(5)]).accesses(Guest, 1);
}

/// The service stands where it was: before G1, before G2 and before G4.
fn in_service(run: &mut Run) {
    after_c1(run);
    run.step(Mask(9)).step(Service).accesses(Guest, 1);
    run.step(ClearMask(9)).accesses(Guest, 2);
    run.accesses(Guest, 1).step(ClearMask(5)).accesses(Guest, 1);
    run.accesses(Guest, 2).step(ClearMask(9)).accesses(Guest, 1);
    run.finish(Guest);
}

/// A service and a clear_mask are refused until the answer; so is a service after it, as long as
/// one is under way.
fn during(run: &mut Run) {
    after_c1(run);
    run.steps(&[Mask(9), ClearMask(9), Service, ClearMask(9)]);
    run.step(Tell(1024)).accesses(Guest, 1);
    run.steps(&[Service, ClearMask(5)]).accesses(Guest, 1);
    run.steps(&[Service, ClearMask(9), Service])
        .accesses(Guest, 1);
    run.step(Service).finish(Guest);
    run.accesses(Guest, 1).replies(Guest, &[0xA000_0000]);
}

fn refused(run: &mut Run) {
    run.steps(&[ClearMask(0), ClearMask(1)]);
    begun(run);
    run.steps(&[ClearMask(0), ClearMask(131_072), ClearMask(1024)]);
    run.clear_mask(1023).step(ClearMask(5));
    run.steps(&[ClearMask(0), ClearMask(1024)]).finish(Guest);
}
