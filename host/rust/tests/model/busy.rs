//! T-05: BUSY and the five tries of a link.

use crate::support::{Outcome, Run, G, X};
use evtchn_fifo_host::model::claims::{misplaced_busy, part2, Broken, Queues};
use evtchn_fifo_host::model::{Faults, Model, Next, Port, Queue, Stage, Step, World};

cases! { a_first_cas_sets_busy, every_cas_clears_busy, the_or_loses_linked, each_cas_is_taken,
each_cas_loses_linked, five_tries, the_and_is_ignored, the_tail_moves_with_the_last_reply,
masked_once, ten_within_the_rules, unmask_too, records }

const P: u32 = 0x8000_0000;
const L: u32 = 0x2000_0000;

/// A raise of 9 behind tail 5, up to R3's reply.
fn behind_5(model: Model, seen: u32) -> Run {
    let mut run = Run::bound(model, &[5, 9]);
    run.world.domain.tails[7] = 5;
    run.step(Step::Raise(9));
    run.replies(&[0, P, seen]);
    run
}

/// A first cas and the or, after which word 5 is B0000001.
fn busy(model: Model) -> Run {
    let mut run = behind_5(model, 0xA000_0000);
    run.replies(&[0xA000_0001, 0xA000_0001]);
    run
}

/// So many cas after the or that are not taken and keep LINKED and BUSY.
fn tried(model: Model, cas: u32) -> Run {
    let mut run = busy(model);
    let words: Vec<u32> = (0..cas).map(|at| 0xB000_0010 + at).collect();
    run.replies(&words);
    run
}

/// BUSY follows a first cas that was not taken and kept LINKED; without LINKED R5 does.
fn a_first_cas_sets_busy(model: Model) -> Outcome {
    let first = |seen| behind_5(model, 0xA000_0000).replies(&[seen]);
    same!(first(0xE000_0000), ["or w5 10000000"]);
    same!(first(0xA000_0009), ["or w5 10000000"]);
    same!(first(0xB000_0000), ["or w5 10000000"]);
    same!(first(0x8000_0000), ["store h7 00000009"]);
    same!(first(0x9000_0000), ["store h7 00000009"]);
    same!(first(0xA000_0000), ["0 n4"]);
    let mut run = behind_5(model, 0xA000_0000);
    run.replies(&[0xE000_0000]);
    let given = run.replies(&[0x6FFE_0003, 0x7FFE_0003]);
    same!(given, ["cas w5 7FFE0003 6FFE0009", "0 n6"]);
    Ok(())
}

/// Every cas's new word clears BUSY, the first one's and the last one's too.
fn every_cas_clears_busy(model: Model) -> Outcome {
    let mut run = Run::bound(model, &[5, 9]);
    run.world.domain.tails[7] = 5;
    run.step(Step::Raise(9));
    same!(
        run.replies(&[0, P, 0xBFFE_0003])[2],
        "cas w5 BFFE0003 AFFE0009"
    );
    same!(run.replies(&[0xB000_0000]), ["or w5 10000000"]);
    same!(run.replies(&[0xB000_0000]), ["cas w5 B0000000 A0000009"]);
    for seen in [0xB000_0001, 0xF000_0001, 0xBFFE_0001] {
        let new = seen & 0xEFFE_0000 | 9;
        same!(
            run.replies(&[seen]),
            [format!("cas w5 {seen:08X} {new:08X}")]
        );
    }
    let mut run = tried(model, 0);
    same!(run.replies(&[0xA000_0000]), ["cas w5 A0000000 A0000009"]);
    Ok(())
}

/// The or's word has BUSY from then on; without LINKED the and follows, then HEAD.
fn the_or_loses_linked(model: Model) -> Outcome {
    let mut run = behind_5(model, 0xA000_0000);
    run.replies(&[0xE000_0000]);
    let given = run.replies(&[0xC000_0000, 0xD000_0000, 0, 0]);
    let wanted = [
        "and w5 EFFFFFFF",
        "store h7 00000009",
        "or ready 00000080",
        "1 n8",
    ];
    same!(given, wanted);
    same!(run.world.domain.tails[7], 9);
    Ok(())
}

fn each_cas_is_taken(model: Model) -> Outcome {
    same!(busy(model).replies(&[0xB000_0001]), ["0 n6"]);
    for cas in 1..=3 {
        let mut run = tried(model, cas);
        same!(
            run.replies(&[0xB000_000F + cas]),
            [format!("0 n{}", 6 + cas)]
        );
        same!(run.world.domain.tails[7], 9);
    }
    Ok(())
}

fn each_cas_loses_linked(model: Model) -> Outcome {
    for cas in 0..=3 {
        let mut run = tried(model, cas);
        let given = run.replies(&[0x9000_0000, 0x9000_0000, 0, 0x80]);
        let wanted = [
            "and w5 EFFFFFFF".to_string(),
            "store h7 00000009".to_string(),
            "or ready 00000080".to_string(),
            format!("0 n{}", 9 + cas),
        ];
        same!(given, wanted);
    }
    Ok(())
}

/// After the fifth cas that is not taken and keeps LINKED: the and, then 2 with ten accesses.
fn five_tries(model: Model) -> Outcome {
    let mut run = tried(model, 3);
    let given = run.replies(&[0xB000_0020, 0xB000_0020]);
    same!(given, ["and w5 EFFFFFFF", "2 n10"]);
    let mut run = tried(model, 2);
    let given = run.replies(&[0xB000_0020]);
    same!(given, ["cas w5 B0000020 A0000009"]);
    Ok(())
}

/// What follows the and goes by the word seen before it.
fn the_and_is_ignored(model: Model) -> Outcome {
    for seen in [0, L, 0x9000_0000, u32::MAX] {
        let mut run = tried(model, 4);
        same!(run.replies(&[seen]), ["2 n10"]);
        let mut run = tried(model, 1);
        run.replies(&[P]);
        same!(run.replies(&[seen]), ["store h7 00000009"]);
    }
    Ok(())
}

fn the_tail_moves_with_the_last_reply(model: Model) -> Outcome {
    let mut run = tried(model, 4);
    same!(run.world.domain.tails[7], 5);
    run.replies(&[0xB000_0000]);
    same!(run.world.domain.tails[7], 9);
    let mut run = tried(model, 0);
    run.replies(&[P, P]);
    same!(run.world.domain.tails[7], 5);
    run.replies(&[0]);
    same!(run.world.domain.tails[7], 9);
    Ok(())
}

/// Port 5 is masked between R3 and the cas: the second cas is taken, and BUSY is gone with it.
fn masked_once(model: Model) -> Outcome {
    let mut run = Run::bound(model, &[5, 9]);
    run.call(Step::Raise(5));
    run.step(Step::Raise(9));
    for _ in 0..3 {
        run.step(Step::Access(X));
    }
    run.call(Step::Mask(5));
    run.step(Step::Access(X));
    run.step(Step::Access(X));
    same!(run.word(5), 0xF000_0000);
    same!(run.finish(X), (0, 6));
    same!(run.word(5), 0xE000_0009);
    Ok(())
}

/// The longest raise with a guest that keeps the rules: its port is closed while linked, so that
/// it is the tail and not pending.
fn ten_within_the_rules(model: Model) -> Outcome {
    let mut run = Run::bound(model, &[5, 9]);
    run.call(Step::Raise(5));
    run.call(Step::Close(5));
    run.call(Step::Mask(5));
    run.step(Step::Service);
    run.step(Step::Access(G));
    run.step(Step::Access(G));
    run.step(Step::Raise(9));
    for _ in 0..3 {
        run.step(Step::Access(X));
    }
    run.step(Step::ClearMask(5));
    same!(run.finish(G), (0, 2));
    run.step(Step::Access(X));
    run.step(Step::Access(X));
    same!(run.word(5), 0x3000_0000);
    run.call(Step::Mask(5));
    run.step(Step::Access(X));
    run.step(Step::Access(G));
    run.step(Step::Access(X));
    same!(run.finish(X), (1, 10));
    same!(run.word(5), 0x4000_0000);
    same!(run.finish(G), (21, 4));
    same!(run.call(Step::Service), (19, 5));
    Ok(())
}

fn unmask_too(model: Model) -> Outcome {
    let mut run = Run::bound(model, &[5, 9]);
    run.world.domain.tails[7] = 5;
    run.step(Step::Unmask(9));
    let given = run.replies(&[0xC000_0000, P, 0xA000_0000, 0xE000_0000, 0xE000_0000]);
    same!(given[3], "or w5 10000000");
    same!(given[4], "cas w5 F0000000 E0000009");
    same!(run.replies(&[0xF000_0000]), ["0 n6"]);
    Ok(())
}

/// What the record keeps: the word that the or left, and for the and the word seen before it.
fn records(model: Model) -> Outcome {
    let stage = |run: &Run| run.world.domain.call.map(|call| call.stage);
    let queue = Queue(7);
    let mut run = behind_5(model, 0xA000_0000);
    run.replies(&[0xE000_0000]);
    same!(stage(&run), Some(Stage::SetBusy { queue }));
    run.replies(&[0xA000_0003]);
    let (old, tries) = (0xB000_0003, 2);
    same!(stage(&run), Some(Stage::R4 { queue, old, tries }));
    run.replies(&[0x8000_0001]);
    let word = 0x8000_0001;
    same!(stage(&run), Some(Stage::ClearBusy { queue, word }));
    Ok(())
}

/// Port 5 is closed while linked, and 9 is raised behind it; before each access from the first cas
/// on the guest changes MASKED of 5, as far as it can. The raise's answer and count, and the world
/// after it.
fn raised_while_masked_and_cleared(model: Model) -> (u32, u32, World) {
    let mut run = Run::bound(model, &[5, 9]);
    run.call(Step::Raise(5));
    run.call(Step::Close(5));
    run.step(Step::Raise(9));
    for _ in 0..3 {
        run.step(Step::Access(X));
    }
    loop {
        let change = match run.word(5) & 0x4000_0000 {
            0 => Step::Mask(5),
            _ => Step::ClearMask(5),
        };
        run.call(change);
        if let Next::Answer(answer, count) = run.step(Step::Access(X)) {
            return (answer.number(), count, run.world);
        }
    }
}

fn stands_once(world: &World) -> Result<(), Broken> {
    part2(world, &Queues::of(world).map_err(Broken::Walk)?)
}

/// BUSY ends the changes: the raise gets through. Without it five tries are lost, and the port
/// with them.
#[test]
fn a_guest_that_keeps_changing_masked() {
    let (answer, count, world) = raised_while_masked_and_cleared(Model::default());
    assert_eq!((answer, count), (0, 7));
    assert_eq!(stands_once(&world), Ok(()));
    assert_eq!(misplaced_busy(&world), None);
    let (answer, count, world) = raised_while_masked_and_cleared(Model::new(Faults::BusyNever));
    assert_eq!((answer, count), (2, 8));
    assert_eq!(stands_once(&world), Err(Broken::Linked(Port(9), 0)));
}

/// Where BUSY stands is judged: on another word, on the tail too early, or left behind.
#[test]
fn busy_elsewhere_is_found() {
    let mut run = Run::bound(Model::default(), &[5, 9]);
    run.call(Step::Raise(5));
    run.step(Step::Raise(9));
    for _ in 0..3 {
        run.step(Step::Access(X));
    }
    assert_eq!(misplaced_busy(&run.world), None);
    run.call(Step::Mask(5));
    run.step(Step::Access(X));
    assert_eq!(misplaced_busy(&run.world), None);
    run.step(Step::Access(X));
    assert_eq!(misplaced_busy(&run.world), None);
    let mut early = run.world.clone();
    early.memory.words[9] |= 0x1000_0000;
    assert_eq!(misplaced_busy(&early), Some(Port(9)));
    let mut lost = run.world.clone();
    lost.memory.words[5] &= !0x1000_0000;
    assert_eq!(misplaced_busy(&lost), Some(Port(5)));
    let mut left = run.world.clone();
    left.domain.call = None;
    assert_eq!(misplaced_busy(&left), Some(Port(5)));
}
