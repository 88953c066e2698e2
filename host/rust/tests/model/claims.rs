//! The four parts and the account say no: a hand-made world or history for each way to fail.

use crate::support::{Run, G, X};
use evtchn_fifo_host::model::claims::{
    all_parts, part1, part2, part3, part4, Account, Broken, Flows, Queues, WalkError,
};
use evtchn_fifo_host::model::{Model, Port, Queue, Step, World};

/// Ports 5 and 9 raised on queue 7, nothing served.
fn two_raised() -> Run {
    let mut run = Run::bound(Model::default(), &[5, 9]);
    run.call(Step::Raise(5));
    run.call(Step::Raise(9));
    run
}

fn flows(run: &Run) -> Flows {
    let mut flows = Flows::default();
    run.events.iter().for_each(|event| flows.note(event));
    flows
}

fn account(run: &Run) -> Account {
    let mut account = Account::default();
    run.events.iter().for_each(|event| account.note(event));
    account
}

fn queues(world: &World) -> Queues {
    Queues::of(world).unwrap_or_else(|error| panic!("{error:?}"))
}

#[test]
fn queue_stands_in_order_of_taking_in() {
    let run = two_raised();
    assert_eq!(queues(&run.world).on(Queue(7)), [Port(5), Port(9)]);
    assert_eq!(flows(&run).took_in(Queue(7)), [Port(5), Port(9)]);
    assert_eq!(all_parts(&run.world, &flows(&run)), Ok(()));
}

#[test]
fn walk_finds_rings_and_ports_outside() {
    let mut world = two_raised().world;
    world.memory.words[9] = 0xA000_0005;
    assert_eq!(Queues::of(&world).err(), Some(WalkError::Ring(Queue(7))));
    world.memory.words[9] = 0xA000_0400;
    let outside = WalkError::Outside(Queue(7), Port(1024));
    assert_eq!(Queues::of(&world).err(), Some(outside));
}

#[test]
fn part1_finds_a_lost_port() {
    let mut world = two_raised().world;
    world.memory.words[6] = 0x8000_0000;
    assert_eq!(part1(&world, &queues(&world)), Err(Broken::Lost(Port(6))));
    world.memory.words[6] = 0xC000_0000;
    assert_eq!(part1(&world, &queues(&world)), Ok(()));
}

#[test]
fn part2_finds_a_linked_port_on_no_queue_and_on_two() {
    let mut world = two_raised().world;
    world.memory.words[6] = 0x2000_0000;
    let broken = Err(Broken::Linked(Port(6), 0));
    assert_eq!(part2(&world, &queues(&world)), broken);
    let mut world = two_raised().world;
    world.memory.control.ready |= 1;
    world.memory.control.head[0] = 9;
    let broken = Err(Broken::Linked(Port(9), 2));
    assert_eq!(part2(&world, &queues(&world)), broken);
}

#[test]
fn part2_allows_none_only_from_r2_to_taking_in() {
    let mut run = Run::bound(Model::default(), &[5]);
    run.step(Step::Raise(5));
    for _ in 0..3 {
        run.step(Step::Access(X));
        assert_eq!(all_parts(&run.world, &flows(&run)), Ok(()));
    }
    run.world.domain.call = None;
    let broken = Err(Broken::Linked(Port(5), 0));
    assert_eq!(part2(&run.world, &queues(&run.world)), broken);
}

#[test]
fn part3_finds_another_order() {
    let run = two_raised();
    let mut world = run.world.clone();
    world.memory.control.head[7] = 9;
    world.memory.words[9] = 0xA000_0005;
    world.memory.words[5] = 0xA000_0000;
    let broken = Err(Broken::Order(Queue(7)));
    assert_eq!(part3(&queues(&world), &flows(&run)), broken);
}

#[test]
fn part4_speaks_at_rest_alone() {
    let mut world = two_raised().world;
    assert_eq!(part4(&world), Ok(()));
    world.memory.control.ready = 0xFFFF_0000;
    assert_eq!(part4(&world), Err(Broken::AtRest(Port(5))));
    world.memory.words[5] = 0xC000_0000;
    world.memory.words[9] = 0;
    assert_eq!(part4(&world), Ok(()));
}

#[test]
fn account_counts_hand_overs_closes_and_what_is_set() {
    let mut run = two_raised();
    run.call(Step::Service);
    run.call(Step::Raise(5));
    run.call(Step::Raise(5));
    run.call(Step::Close(9));
    run.call(Step::Close(9));
    let account_now = account(&run);
    assert_eq!(account_now.wrong(), None);
    let five = account_now.of(Port(5));
    assert_eq!(
        (five.sets, five.hand_overs, five.closes, five.set_now),
        (2, 1, 0, true)
    );
    let nine = account_now.of(Port(9));
    assert_eq!(
        (nine.sets, nine.hand_overs, nine.closes, nine.set_now),
        (1, 0, 1, false)
    );
}

#[test]
fn account_finds_a_lost_event() {
    let mut run = two_raised();
    run.step(Step::Service);
    for _ in 0..4 {
        run.step(Step::Access(G));
    }
    run.step(Step::Access(G));
    run.events.pop();
    assert_eq!(account(&run).wrong().map(|(port, _)| port), Some(Port(5)));
}
