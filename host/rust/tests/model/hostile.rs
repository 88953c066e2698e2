//! Readings A5.11 and A6.2: from fresh records, whatever the replies, arguments and ledgers, no
//! access reaches outside, every call ends within twelve accesses, a service within five and a
//! clear_mask within two, and answer 2 comes after ten. And a rule that takes a tail outside the
//! array for none makes no difference.

use evtchn_fifo_host::model::arbitrary::{hostile_step, ledger, word};
use evtchn_fifo_host::model::{
    Answer, Entry, Faults, Model, Next, Place, Port, Side, Stage, Step, World,
};
use evtchn_fifo_host::random::Random;

fn in_control_block(place: Place) -> bool {
    match place {
        Place::Word(_) => false,
        Place::Ready => true,
        Place::Head(queue) => queue.0 < 16,
    }
}

fn in_array(world: &World, port: Port) -> bool {
    port.0 != 0 && port.0 / 1024 < world.domain.pages
}

/// The hypervisor's access is inside; its tails are none or inside.
fn hypervisor_reach(world: &World) -> bool {
    let tails = world.domain.tails.iter();
    let tails_inside = tails.clone().all(|t| *t == 0 || in_array(world, Port(*t)));
    let access = world.model.due(&world.domain);
    let access_inside = access.is_none_or(|access| match access.place {
        Place::Word(port) => in_array(world, port),
        place => in_control_block(place),
    });
    tails_inside && access_inside
}

/// The guest's access is inside its number of words or its control block.
fn guest_reach(world: &World) -> bool {
    let access = world.model.guest_due(&world.guest);
    access.is_none_or(|access| match access.place {
        Place::Word(port) => port.0 != 0 && port.0 < world.guest.words,
        place => in_control_block(place),
    })
}

fn begun(random: &mut Random) -> World {
    let mut world = World::fresh(Model::default(), 16, 2);
    if !random.once_in(8) {
        world.step(crate::support::init());
        world.step(crate::support::expand());
        world.step(Step::Tell(1024));
    }
    world
}

/// The same world, whose rule takes a tail outside the array for none.
fn by_other_rule(world: &World) -> World {
    World {
        model: Model::new(Faults::OutsideIsNone),
        ..world.clone()
    }
}

/// The largest counts of answers: of the hypervisor's calls, of services, of clear_masks.
type Largest = [u32; 3];

/// Reach and counts after a step.
fn check(seed: u64, at: usize, world: &World, step: Step) {
    assert!(hypervisor_reach(world), "seed {seed} step {at} {step:?}");
    assert!(guest_reach(world), "seed {seed} step {at} {step:?}");
    let counts = [
        world.domain.call.map_or(0, |call| call.count),
        world.guest.call.map_or(0, |call| call.count),
        world.guest.clearing.map_or(0, |clearing| clearing.count),
    ];
    let most = [12, 5, 2];
    let within = counts.iter().zip(most).all(|(count, most)| *count <= most);
    assert!(within, "seed {seed} step {at}: {counts:?}");
}

/// Notes the count of an answer; answer 2's is ten.
fn note(largest: &mut Largest, clearing: bool, step: Step, next: Next) {
    let Next::Answer(answer, count) = next else {
        return;
    };
    assert!(answer != Answer::LinkAbandoned || count == 10);
    let guest = matches!(
        step,
        Step::Access(Side::Guest) | Step::HandBack(Side::Guest, _)
    );
    let maker = usize::from(guest) + usize::from(guest && clearing);
    largest[maker] = largest[maker].max(count);
}

/// Every check of a history.
fn history(seed: u64, length: usize) -> Largest {
    let mut random = Random::new(seed);
    let mut world = begun(&mut random);
    let mut other = by_other_rule(&world);
    let mut largest = [0; 3];
    for at in 0..length {
        if random.once_in(3) {
            world.ledger = ledger(&mut random);
            other.ledger = world.ledger.clone();
        }
        let step = hostile_step(&mut random, &world);
        let clearing = world.guest.clearing.is_some();
        let next = world.step(step).next;
        assert_eq!(other.step(step).next, next, "seed {seed} step {at}");
        assert_eq!(by_other_rule(&world), other, "seed {seed} step {at}");
        check(seed, at, &world, step);
        note(&mut largest, clearing, step, next);
    }
    largest
}

#[test]
fn hostile_histories_stay_inside_and_end() {
    let (first, histories, length) = (1, 8_000, 150);
    println!(
        "seeds {first} to {}, {length} steps each",
        first + histories - 1
    );
    for seed in first..first + histories {
        history(seed, length);
    }
}

const LINKED: u32 = 0x2000_0000;
const MASKED: u32 = 0x4000_0000;

/// A word that leads a raise on, or that is any; a cas mostly is not taken.
fn rewritten(random: &mut Random, stage: Stage) -> u32 {
    let any = word(random);
    match (stage, random.below(6)) {
        (Stage::R1 | Stage::R2, 0..=4) => any & !(LINKED | MASKED),
        (Stage::R3 { .. } | Stage::R4 { .. } | Stage::SetBusy { .. }, 0..=4) => any | LINKED,
        (Stage::R4 { old, .. }, _) if random.once_in(2) => old,
        _ => any,
    }
}

/// A guest that keeps rewriting the tail's word: raises, and services and clear_masks with any
/// words.
fn rewriting_history(seed: u64, length: usize) -> Largest {
    let mut random = Random::new(seed);
    let mut world = begun(&mut random);
    world.ledger = vec![Entry::from_bits(0x0107); 10];
    let mut largest = [0; 3];
    for at in 0..length {
        let port = 1 + random.below(9);
        let step = match (world.domain.call, random.below(8)) {
            (_, 0) => random.pick(&[Step::Service, Step::ClearMask(port)]),
            (_, 1..=2) => Step::HandBack(Side::Guest, word(&mut random)),
            (None, _) => Step::Raise(port),
            (Some(call), _) => Step::HandBack(Side::Hypervisor, rewritten(&mut random, call.stage)),
        };
        let clearing = world.guest.clearing.is_some();
        let next = world.step(step).next;
        check(seed, at, &world, step);
        note(&mut largest, clearing, step, next);
    }
    largest
}

#[test]
fn the_most_accesses_are_met() {
    let mut largest = [0; 3];
    for seed in 1..=2_000 {
        let met = rewriting_history(seed, 300);
        largest = std::array::from_fn(|maker| largest[maker].max(met[maker]));
    }
    println!("largest counts {largest:?}");
    assert_eq!(largest, [12, 5, 2]);
}
