//! Random histories in which the guest keeps the rules: demand 3's four parts, where BUSY stands
//! and the account of PENDING after every step, and the count of every answer.

use evtchn_fifo_host::model::claims::Judge;
use evtchn_fifo_host::model::histories::Honest;
use evtchn_fifo_host::model::machine::Events;
use evtchn_fifo_host::model::{Event, Model, Step, World};
use evtchn_fifo_host::random::Random;
use std::collections::BTreeMap;

/// A world with its judge.
pub struct Judged {
    pub world: World,
    judge: Judge,
}

impl Judged {
    pub fn new(model: Model, random: &mut Random) -> Self {
        let world = Honest::world(model, random);
        let judge = Judge::default();
        Judged { world, judge }
    }

    /// One step, then what the judge says of it.
    pub fn step(&mut self, step: Step) -> Result<Events, String> {
        let stepped = self.world.step(step);
        self.judge.after(&self.world, &stepped)?;
        Ok(stepped.events)
    }
}

/// A history of `length` steps from a seed; counts answers by number.
fn history(seed: u64, length: usize, met: &mut BTreeMap<String, u64>) -> Result<(), String> {
    let mut random = Random::new(seed);
    let mut judged = Judged::new(Model::default(), &mut random);
    let honest = Honest::new(&mut random);
    let begun = if random.once_in(8) {
        vec![]
    } else {
        honest.prologue()
    };
    let mut steps = begun.into_iter();
    for at in 0..length {
        let next = steps.next();
        let step = next.unwrap_or_else(|| honest.step(&mut random, &judged.world));
        let events = judged.step(step);
        let events = events.map_err(|text| format!("seed {seed} step {at} {step:?}: {text}"))?;
        for event in events.iter() {
            if let Event::Answered(side, answer, count) = event {
                *met.entry(format!("{side:?} {:02} n{count}", answer.number()))
                    .or_default() += 1;
            }
        }
    }
    Ok(())
}

#[test]
fn random_honest_histories() {
    let mut met = BTreeMap::new();
    let (first, histories, length) = (1, 1500, 400);
    println!(
        "seeds {first} to {}, {length} steps each",
        first + histories - 1
    );
    for seed in first..first + histories {
        if let Err(text) = history(seed, length, &mut met) {
            panic!("{text}");
        }
    }
    for (answer, times) in &met {
        println!("{answer}: {times}");
    }
    for never in ["Hypervisor 02", "Guest 18"] {
        assert!(
            !met.keys().any(|k| k.starts_with(never)),
            "{never} on an honest history"
        );
    }
    for wanted in [0, 1, 3, 4, 5, 6, 7, 8, 9, 10, 11, 14, 15, 16, 17] {
        let name = format!("Hypervisor {wanted:02}");
        assert!(met.keys().any(|k| k.starts_with(&name)), "{name} never met");
    }
    for wanted in [0, 3, 6, 15, 16, 19, 20, 21, 35] {
        let name = format!("Guest {wanted:02}");
        assert!(met.keys().any(|k| k.starts_with(&name)), "{name} never met");
    }
}
