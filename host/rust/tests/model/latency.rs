//! T-10: ports taken in turn, worked by hand, and the claims on how long and how soon say no. A
//! raise of ten accesses is in `busy`.

use crate::support::{Outcome, Run, G, X};
use evtchn_fifo_host::model::claims::{served_in_turn, Lengths, Turns};
use evtchn_fifo_host::model::{Event, Model, Port, Step};

cases! { ports_in_turn }

/// Queue 3 has a local bit left over, with 9 and 5, which is masked; READY has queue 7, with 12.
fn ports_in_turn(model: Model) -> Outcome {
    let mut run = Run::bound(model, &[5, 9, 12]);
    for port in [5, 9] {
        run.call(Step::SetPriority { port, priority: 3 });
        run.call(Step::Raise(port));
    }
    run.call(Step::Service);
    run.call(Step::Raise(12));
    run.call(Step::Raise(5));
    run.step(Step::Mask(5));
    let bits = (run.world.guest.local, run.world.memory.control.ready);
    same!(bits, (0x08, 0x80));
    let first = run.events.len();
    let services = [(); 4].map(|()| run.call(Step::Service));
    same!(services, [(19, 4), (21, 3), (19, 5), (20, 1)]);
    let port = |event: &Event| match event {
        Event::Answered(_, answer, _) => answer.port(),
        _ => None,
    };
    let ports: Vec<Port> = run.events[first..].iter().filter_map(port).collect();
    same!(ports, [Port(9), Port(5), Port(12)]);
    Ok(())
}

/// 9 and 5 stand on queue 7, in that order.
fn two_raised() -> Run {
    let mut run = Run::bound(Model::default(), &[5, 9]);
    run.call(Step::Raise(9));
    run.call(Step::Raise(5));
    run.events.clear();
    run
}

fn turns(run: &Run) -> Turns {
    Turns::from(&run.world).unwrap_or_else(|error| panic!("{error:?}"))
}

/// What is said of the services of this run, where these ports were to be taken.
fn said(ports: &[u32], run: &Run) -> Result<(), String> {
    let mut turns = turns(&two_raised());
    turns.ports = ports.iter().map(|port| Port(*port)).collect();
    run.events.iter().try_for_each(|event| turns.note(event))
}

#[test]
fn services_in_another_order_are_found() {
    let mut run = two_raised();
    assert_eq!(turns(&run).ports, [Port(9), Port(5)]);
    assert_eq!(served_in_turn(&mut run.world.clone()), Ok(()));
    (0..3).for_each(|_| _ = run.call(Step::Service));
    assert_eq!(said(&[9, 5], &run), Ok(()));
    for wrong in [&[5, 9][..], &[9], &[9, 5, 12], &[]] {
        assert!(said(wrong, &run).is_err(), "{wrong:?}");
    }
}

#[test]
fn a_service_of_six_accesses_is_found() {
    let mut run = two_raised();
    run.call(Step::Service);
    run.events.insert(0, run.events[0]);
    assert!(said(&[9, 5], &run).is_err_and(|text| text.contains("6 accesses")));
}

#[test]
fn a_service_under_way_is_not_one_from_the_start() {
    let mut run = two_raised();
    run.step(Step::Service);
    run.step(Step::Access(G));
    run.step(Step::Access(G));
    run.step(Step::Access(G));
    assert!(served_in_turn(&mut run.world).is_err());
}

/// The number of notes of this event after which a call is too long.
fn found_at(event: Event) -> Option<usize> {
    let mut lengths = Lengths::default();
    (1..20).find(|_| lengths.note(&event).is_err())
}

#[test]
fn a_longer_call_is_found() {
    let mut run = two_raised();
    run.step(Step::Unmask(9));
    run.step(Step::Access(X));
    assert_eq!(found_at(run.events[0]), None, "each is a call's first");
    run.call(Step::Service);
    run.step(Step::Raise(9));
    run.step(Step::Access(X));
    run.step(Step::Access(X));
    assert_eq!(found_at(run.events[run.events.len() - 1]), Some(11), "R2");
    run.events.clear();
    run.step(Step::Service);
    run.step(Step::Access(G));
    run.step(Step::Access(G));
    assert_eq!(found_at(run.events[1]), Some(6), "G2");
}
