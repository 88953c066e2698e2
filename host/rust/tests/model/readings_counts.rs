//! Readings A2: accesses and counts.

use crate::support::{expand, init, text, Outcome, Run, G, X};
use evtchn_fifo_host::model::{
    Access, Answer, Call, Masking, Model, Next, Op, Owner, Place, Port, Queue, Stage, Step,
};

cases! { a2_1, a2_2, a2_3, a2_4, a2_5, a2_6, a2_6_unmask, a2_6_refused_replies }

/// Counts of calls with at most one access.
fn a2_1(model: Model) -> Outcome {
    let mut run = Run::fresh(model);
    same!(run.call(init()), (0, 0));
    same!(run.call(expand()), (0, 0));
    same!(run.call(Step::Tell(1024)), (0, 0));
    same!(run.call(Step::Bind(5)), (0, 1));
    same!(run.call(Step::Bind(1999)), (0, 0));
    same!(run.call(Step::Close(5)), (0, 1));
    same!(run.call(Step::Close(1999)), (0, 0));
    same!(run.call(Step::Mask(5)), (0, 1));
    same!(run.call(Step::Mask(1999)), (6, 0));
    let access = Access::at(Place::Word(Port(5)), Op::Or(0x4000_0000));
    same!(model.mask(5, 6), Masking::Named(access));
    Ok(())
}

/// 7 and 18 count what was named; other refusals count 0.
fn a2_2(model: Model) -> Outcome {
    let mut run = Run::bound(model, &[5, 9]);
    run.step(Step::Raise(5));
    run.replies(&[0, 0x8000_0000, 0, 0]);
    run.step(Step::Raise(9));
    run.replies(&[0, 0x8000_0000, 0xA000_0000, 0x8000_0000]);
    same!(run.world.domain.call.map(|c| c.count), Some(5));
    same!(run.call(Step::Bind(6)), (15, 0));
    same!(run.replies(&[0, 0]), ["or ready 00000080", "1 n6"]);
    same!(text(run.step(Step::HandBack(X, 0))), "16 n0");
    same!(text(run.step(Step::HandBack(G, 0))), "16 n0");
    run.step(Step::Bind(6));
    same!(run.replies(&[0x2000_0000]), ["7 n1"]);
    run.step(Step::Service);
    same!(run.service_replies(&[0x80, 1024]), ["read h7", "18 n2"]);
    run.world.guest.heads[3] = 1024;
    run.step(Step::Service);
    same!(run.service_replies(&[0x08]), ["18 n1"]);
    Ok(())
}

fn at_stage(model: Model, stage: Stage, count: u32) -> Run {
    let mut run = Run::bound(model, &[5]);
    run.world.domain.call = Some(Call {
        owner: Owner::Raise,
        port: Port(5),
        stage,
        count,
    });
    run
}

/// The stored count stays at its top.
fn a2_3(model: Model) -> Outcome {
    let queue = Queue(7);
    let mut run = at_stage(model, Stage::R6 { queue }, u32::MAX);
    same!(
        run.step(Step::HandBack(X, 0)),
        Next::Answer(Answer::UpcallWanted, u32::MAX)
    );
    let mut run = at_stage(model, Stage::R5 { queue }, u32::MAX);
    same!(text(run.step(Step::HandBack(X, 0))), "or ready 00000080");
    same!(run.world.domain.call.map(|c| c.count), Some(u32::MAX));
    Ok(())
}

/// Counts of services.
fn a2_4(model: Model) -> Outcome {
    let counted = |first: u32, words: &[u32]| {
        let mut run = Run::begun(model);
        run.world.guest.heads[7] = first;
        run.step(Step::Service);
        let index: &[u32] = if first == 0 { &[0x80, 5] } else { &[0x80] };
        let given = run.service_replies(&[index, words].concat());
        given.last().cloned().unwrap_or_default()
    };
    let pending = 0x8000_0000;
    same!(counted(0, &[0, pending, pending]), "19 p5 n5");
    same!(counted(5, &[0, pending, pending]), "19 p5 n4");
    same!(counted(0, &[0, pending, 0]), "21 p5 n5");
    same!(counted(5, &[0, pending, 0]), "21 p5 n4");
    same!(counted(0, &[0, 0]), "21 p5 n4");
    same!(counted(5, &[0, 0]), "21 p5 n3");
    same!(Run::begun(model).call(Step::Service), (20, 1));
    Ok(())
}

/// The reply to a store is ignored.
fn a2_5(model: Model) -> Outcome {
    let queue = Queue(7);
    let mut first = at_stage(model, Stage::R5 { queue }, 3);
    let mut second = at_stage(model, Stage::R5 { queue }, 3);
    let given = first.step(Step::HandBack(X, 0));
    same!(second.step(Step::HandBack(X, u32::MAX)), given);
    same!(second.world.domain, first.world.domain);
    Ok(())
}

/// Twelve accesses at most: the fifth cas loses LINKED.
fn longest(run: &mut Run, first: u32) -> Vec<String> {
    run.world.domain.tails[7] = 9;
    let linked = [0xA000_0001, 0xA000_0002, 0xA000_0003];
    let busy = [0xB000_0004, 0xB000_0005, 0xB000_0006];
    let end = [0; 4];
    run.replies(&[&[first, 0x8000_0000], &linked[..], &busy, &end].concat())
}

fn a2_6(model: Model) -> Outcome {
    let mut run = Run::bound(model, &[5, 9]);
    run.step(Step::Raise(5));
    let wanted = [
        "or w5 20000000",
        "read w9",
        "cas w9 A0000001 A0000005",
        "or w9 10000000",
        "cas w9 B0000003 A0000005",
        "cas w9 B0000004 A0000005",
        "cas w9 B0000005 A0000005",
        "cas w9 B0000006 A0000005",
        "and w9 EFFFFFFF",
        "store h7 00000005",
        "or ready 00000080",
        "1 n12",
    ];
    same!(longest(&mut run, 0), wanted);
    same!(run.world.domain.tails[7], 5);
    Ok(())
}

fn a2_6_unmask(model: Model) -> Outcome {
    let mut run = Run::bound(model, &[5, 9]);
    same!(text(run.step(Step::Unmask(5))), "and w5 BFFFFFFF");
    same!(longest(&mut run, 0xC000_0000)[11], "1 n12");
    Ok(())
}

/// A reply refused with 14 names nothing and costs nothing; the log has its access once.
fn a2_6_refused_replies(model: Model) -> Outcome {
    let mut run = Run::bound(model, &[5]);
    run.step(Step::Raise(5));
    let ledger = run.world.ledger.clone();
    for _ in 0..4 {
        run.world.ledger.truncate(5);
        let access = run.world.due(X).ok_or("no access due")?.1;
        let seen = run.world.memory.words[5];
        same!(text(run.step(Step::Access(X))), "14 n0");
        run.world.ledger = ledger.clone();
        let seen = if access.place == Place::Word(Port(5)) {
            seen
        } else {
            0
        };
        run.step(Step::HandBack(X, seen));
    }
    same!(run.world.domain.call, None);
    let log = run.log();
    let count = |line: &str| log.matches(line).count();
    same!(count("X\tor\tw5\t-\t80000000\t00000000\n"), 1);
    same!(count("X\tor\tw5\t-\t20000000\t80000000\n"), 1);
    same!(count("X\tor\tready\t-\t00000080\t00000000\n"), 1);
    same!(count("X\tanswer\t14\t-\t-\t-\n"), 4);
    same!(log.ends_with("X\tanswer\t1\t-\t-\t-\n"), true);
    Ok(())
}
