//! Random steps on arbitrary records: nothing traps, refusals change nothing, the access named
//! is the one due, a second run gives the same, and flat records keep the calls.

use evtchn_fifo_host::model::arbitrary::{hostile_step, world};
use evtchn_fifo_host::model::{FlatCall, FlatClear, FlatService, Model, Next, Step, World};
use evtchn_fifo_host::random::Random;

/// Numbers of refusals that change nothing.
fn is_refusal(number: u32) -> bool {
    matches!(number, 3..=6 | 8..=17)
}

fn check(seed: u64, step: Step, before: &World, after: &World, next: Next) {
    match next {
        Next::Answer(answer, count) if is_refusal(answer.number()) => {
            assert_eq!(count, 0, "seed {seed} {step:?}");
            let records = (&before.domain, &before.ledger, &before.guest);
            let unchanged = records == (&after.domain, &after.ledger, &after.guest);
            assert!(unchanged, "seed {seed} {step:?}");
        }
        Next::Answer(..) => {}
        Next::Access(access) => {
            let due = [
                after.model.due(&after.domain),
                after.model.guest_due(&after.guest),
            ];
            assert!(due.contains(&Some(access)), "seed {seed} {step:?}");
        }
    }
}

#[test]
fn random_records_do_not_trap() {
    let (first, worlds, length) = (1_u64, 20_000, 12);
    println!(
        "seeds {first} to {}, {length} steps each",
        first + worlds - 1
    );
    for seed in first..first + worlds {
        let mut random = Random::new(seed);
        let mut world = world(&mut random, Model::default());
        let (call, service) = (world.domain.call, world.guest.call);
        assert_eq!(FlatCall::from(call).call(), call, "seed {seed}");
        assert_eq!(FlatService::from(service).service(), service, "seed {seed}");
        let clearing = world.guest.clearing;
        let flat = FlatClear::from(clearing);
        assert_eq!(flat.clear_mask(), clearing, "seed {seed}");
        for _ in 0..length {
            let step = hostile_step(&mut random, &world);
            let before = world.clone();
            let stepped = world.step(step);
            check(seed, step, &before, &world, stepped.next);
            assert_eq!(before.clone().step(step), stepped, "seed {seed} {step:?}");
        }
    }
}
