//! Each seeded fault is caught: by document 01's cases, by the readings' cases, by comparison
//! with the right model on random honest histories and on arbitrary records, and by demand 3's
//! parts and the account alone.

use crate::histories::Judged;
use crate::support::Case;
use evtchn_fifo_host::model::arbitrary::{hostile_step, world};
use evtchn_fifo_host::model::histories::Honest;
use evtchn_fifo_host::model::{Faults, Model, Next, World};
use evtchn_fifo_host::random::Random;

const COLUMNS: [&str; 6] = [
    "fault",
    "C1 to C12",
    "readings and edges",
    "honest histories",
    "arbitrary records",
    "four parts, account, counts",
];

/// The names of the cases that fail.
fn failing(model: Model, cases: &[(&'static str, Case)]) -> Vec<&'static str> {
    let failed = cases.iter().filter(|(_, case)| case(model).is_err());
    failed.map(|(name, _)| *name).collect()
}

fn reading_cases() -> Vec<(&'static str, Case)> {
    [
        crate::edges::CASES,
        crate::refusal_order::CASES,
        crate::readings_refusals::CASES,
        crate::readings_counts::CASES,
        crate::readings_steps::CASES,
        crate::readings_guest::CASES,
        crate::readings_records::CASES,
        crate::busy::CASES,
        crate::clear_mask::CASES,
        crate::latency::CASES,
    ]
    .concat()
}

/// Two worlds give and hold the same, but for their models.
fn agree(right: &World, faulty: &World, gave: (Next, Next)) -> bool {
    let dues = |w: &World| (w.model.due(&w.domain), w.model.guest_due(&w.guest));
    gave.0 == gave.1
        && dues(right) == dues(faulty)
        && right.domain == faulty.domain
        && right.guest == faulty.guest
        && right.ledger == faulty.ledger
        && right.memory == faulty.memory
}

/// The first seed and step at which the faulty model differs on an honest history.
fn honest_difference(fault: Faults) -> Option<(u64, usize)> {
    (1..=40).find_map(|seed| {
        let mut random = Random::new(seed);
        let mut right = World::fresh(Model::default(), 4096, 1100);
        let mut faulty = World::fresh(Model::new(fault), 4096, 1100);
        let honest = Honest::new(&mut random);
        let mut steps = honest.prologue().into_iter();
        (0..300).find_map(|at| {
            let next = steps.next();
            let step = next.unwrap_or_else(|| honest.step(&mut random, &right));
            let gave = (right.step(step).next, faulty.step(step).next);
            (!agree(&right, &faulty, gave)).then_some((seed, at))
        })
    })
}

/// The first seed and step at which the faulty model differs on arbitrary records.
fn arbitrary_difference(fault: Faults) -> Option<(u64, usize)> {
    (1..=20_000).find_map(|seed| {
        let mut random = Random::new(seed);
        let mut right = world(&mut random, Model::default());
        let mut faulty = World {
            model: Model::new(fault),
            ..right.clone()
        };
        (0..8).find_map(|at| {
            let step = hostile_step(&mut random, &right);
            let gave = (right.step(step).next, faulty.step(step).next);
            (!agree(&right, &faulty, gave)).then_some((seed, at))
        })
    })
}

/// What demand 3's parts and the account say of the faulty model alone: on honest histories,
/// else in the small world.
fn broken_claim(fault: Faults) -> Option<String> {
    let small_world = || crate::exhaustive::visit(Model::new(fault), 60_000).err();
    broken_on_histories(fault).or_else(small_world)
}

fn broken_on_histories(fault: Faults) -> Option<String> {
    (1..=300).find_map(|seed| {
        let mut random = Random::new(seed);
        let mut judged = Judged::new(Model::new(fault), &mut random);
        let honest = Honest::new(&mut random);
        let mut steps = honest.prologue().into_iter();
        (0..300).find_map(|_| {
            let next = steps.next();
            let step = next.unwrap_or_else(|| honest.step(&mut random, &judged.world));
            judged.step(step).err()
        })
    })
}

fn seed_text(found: Option<(u64, usize)>) -> String {
    found.map_or("-".to_string(), |(seed, at)| {
        format!("seed {seed} step {at}")
    })
}

fn names(cases: &[&str]) -> String {
    match cases {
        [] => "-".to_string(),
        [one] => one.to_string(),
        [first, .., last] => format!("{first}..{last} ({})", cases.len()),
    }
}

#[test]
fn every_fault_is_caught() {
    let right = Model::default();
    assert!(failing(right, crate::cases::CASES).is_empty());
    assert!(failing(right, &reading_cases()).is_empty());
    assert_eq!(honest_difference(Faults::None), None);
    assert_eq!(broken_claim(Faults::None), None);
    println!("{}", COLUMNS.join(" | "));
    for (fault, what) in Faults::ALL {
        let model = Model::new(fault);
        let small = failing(model, crate::cases::CASES);
        let readings = failing(model, &reading_cases());
        let honest = honest_difference(fault);
        let arbitrary = arbitrary_difference(fault);
        let claim = broken_claim(fault).unwrap_or("-".to_string());
        println!(
            "{what} | {} | {} | {} | {} | {claim}",
            names(&small),
            names(&readings),
            seed_text(honest),
            seed_text(arbitrary),
        );
        let scripted = small.len() + readings.len();
        assert!(scripted > 0, "{what}: no scripted run differs");
        assert!(
            honest.is_some() || arbitrary.is_some(),
            "{what}: no random run differs"
        );
    }
}

#[test]
fn every_cut_is_caught() {
    for (fault, what) in Faults::CUTS {
        let readings = failing(Model::new(fault), &reading_cases());
        assert!(!readings.is_empty(), "{what}: no scripted run differs");
        let arbitrary = arbitrary_difference(fault);
        assert!(arbitrary.is_some(), "{what}: no random run differs");
    }
}
