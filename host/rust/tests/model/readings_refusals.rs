//! Readings A1: refusals and their order, case by case.

use crate::support::{expand, init, text, Outcome, Run, G, X};
use evtchn_fifo_host::model::{Answer, Call, Entry, Model, Next, Owner, Port, Queue, Stage, Step};

cases! { a1_1, a1_2, a1_3, a1_4, a1_5, a1_6, a1_7, a1_8, a1_9, a1_10, a1_11, a1_12, a1_13 }

fn set_priority(port: u64, priority: u64) -> Step {
    Step::SetPriority { port, priority }
}

/// set_priority: 14 before 8, no 4; bind leaves the priority.
fn a1_1(model: Model) -> Outcome {
    let mut run = Run::begun(model);
    run.world.ledger.truncate(5);
    same!(run.call(set_priority(7, 16)), (14, 0));
    let mut run = Run::begun(model);
    same!(run.call(set_priority(7, 16)), (8, 0));
    same!(run.call(set_priority(7, 15)), (0, 0));
    same!(run.call(set_priority(5, 3)), (0, 0));
    same!(run.entry(5), 0x0003);
    same!(run.call(Step::Bind(5)), (0, 1));
    same!(run.entry(5), 0x0103);
    same!(run.call(Step::Raise(5)), (1, 4));
    same!(run.world.memory.control.head[3], 5);
    Ok(())
}

/// bind and close have no 6.
fn a1_2(model: Model) -> Outcome {
    let mut run = Run::begun(model);
    same!(run.call(Step::Bind(1500)), (0, 0));
    same!(run.entry(1500), 0x0107);
    same!(run.call(set_priority(1500, 2)), (0, 0));
    same!(run.call(Step::Close(1500)), (0, 0));
    same!(run.entry(1500), 0x0007);
    Ok(())
}

fn init_with(vcpu: u64, frame: u64, offset: u64) -> Step {
    Step::InitControl {
        vcpu,
        frame,
        frames: 8,
        offset,
    }
}

/// init: 17, 9, 11, 12.
fn a1_3(model: Model) -> Outcome {
    let mut run = Run::begun(model);
    same!(run.call(init_with(1, 1, 0)), (17, 0));
    same!(run.call(init_with(0, 8, 0)), (9, 0));
    let mut run = Run::fresh(model);
    same!(run.call(init_with(0, 8, 1)), (11, 0));
    same!(run.call(init_with(0, 7, 1)), (12, 0));
    Ok(())
}

/// expand: 10, 13, 11.
fn a1_4(model: Model) -> Outcome {
    let mut run = Run::fresh(model);
    run.world.domain.pages = 128;
    let bad = Step::ExpandArray {
        frame: 8,
        frames: 8,
    };
    same!(run.call(bad), (10, 0));
    run.world.domain.given = true;
    same!(run.call(bad), (13, 0));
    run.world.domain.pages = 127;
    same!(run.call(bad), (11, 0));
    Ok(())
}

/// 15 first in all seven calls; the two sides are separate.
fn a1_5(model: Model) -> Outcome {
    let mut run = Run::bound(model, &[5]);
    run.step(Step::Raise(5));
    let bad = 1 << 40;
    let starts = [
        init_with(bad, bad, bad),
        expand(),
        Step::Bind(0),
        Step::Close(bad),
        set_priority(bad, bad),
        Step::Raise(0),
        Step::Unmask(0),
    ];
    for start in starts {
        same!(run.call(start), (15, 0));
    }
    same!(text(run.step(Step::Service)), "swap ready 00000000");
    same!(run.call(Step::Service), (15, 0));
    same!(run.finish(X), (1, 4));
    same!(text(run.step(Step::Raise(5))), "or w5 80000000");
    Ok(())
}

fn all_stages() -> Vec<(Owner, Stage)> {
    let queue = Queue(7);
    let r4 = Stage::R4 {
        queue,
        old: 0xA000_0000,
        tries: 1,
    };
    vec![
        (Owner::Bind, Stage::BindRead),
        (Owner::Close, Stage::CloseAnd),
        (Owner::Raise, Stage::R1),
        (Owner::Unmask, Stage::U1),
        (Owner::Raise, Stage::R2),
        (Owner::Raise, Stage::R3 { queue }),
        (Owner::Raise, r4),
        (Owner::Raise, Stage::SetBusy { queue }),
        (Owner::Raise, Stage::ClearBusy { queue, word: 0 }),
        (Owner::Raise, Stage::R5 { queue }),
        (Owner::Raise, Stage::R6 { queue }),
    ]
}

/// 14 at every reply of the hypervisor's calls; the call stays under way.
fn a1_6(model: Model) -> Outcome {
    for (owner, stage) in all_stages() {
        let mut run = Run::begun(model);
        let port = Port(9);
        run.world.domain.tails[7] = 5;
        run.world.domain.call = Some(Call {
            owner,
            port,
            stage,
            count: 3,
        });
        run.world.ledger.truncate(9);
        let before = run.world.clone();
        same!(text(run.step(Step::HandBack(X, 0xA000_0000))), "14 n0");
        same!(run.world == before, true);
        run.world.ledger.push(Entry::FRESH);
        let accepted = run.step(Step::HandBack(X, 0x8000_0000));
        same!(accepted == Next::Answer(Answer::NoEntry, 0), false);
    }
    let mut run = Run::bound(model, &[5]);
    run.step(Step::Raise(5));
    run.replies(&[0, 0x8000_0000, 0]);
    let ledger = run.world.ledger.clone();
    run.world.ledger.truncate(5);
    same!(text(run.step(Step::HandBack(X, 0))), "14 n0");
    run.world.ledger = ledger;
    same!(text(run.step(Step::HandBack(X, 0))), "1 n4");
    Ok(())
}

/// At a reply nothing else is tested again.
fn a1_7(model: Model) -> Outcome {
    let mut run = Run::bound(model, &[5]);
    run.step(Step::Close(5));
    run.set_entry(5, 0x0007);
    same!(run.finish(X), (0, 1));
    same!(run.entry(5), 0x0007);
    run.step(Step::Bind(5));
    run.set_entry(5, 0x0107);
    run.world.domain.given = false;
    run.world.domain.pages = 0;
    same!(run.finish(X), (0, 1));
    same!(run.entry(5), 0x0107);
    Ok(())
}

/// 3 before 14, at the port limit.
fn a1_8(model: Model) -> Outcome {
    let mut run = Run::begun(model);
    run.world.ledger = Entry::ledger(10);
    same!(run.call(Step::Bind(131_072)), (3, 0));
    run.world.ledger = Entry::ledger(131_071);
    same!(run.call(Step::Bind(131_071)), (14, 0));
    run.world.ledger = Entry::ledger(131_072);
    same!(run.call(Step::Bind(131_071)), (0, 0));
    run.world.ledger = Entry::ledger(131_080);
    same!(run.call(Step::Bind(131_072)), (3, 0));
    Ok(())
}

/// 6 is by the pages.
fn a1_9(model: Model) -> Outcome {
    let mut run = Run::bound(model, &[1023, 1024]);
    same!(run.call(Step::Raise(1024)), (6, 0));
    same!(run.call(Step::Unmask(1024)), (6, 0));
    same!(text(run.step(Step::Raise(1023))), "or w1023 80000000");
    let mut run = Run::fresh(model);
    run.step(init());
    run.call(Step::Bind(1));
    same!(run.call(Step::Raise(1)), (6, 0));
    Ok(())
}

/// 13 is 128 or more; frames are compared in 64 bits.
fn a1_10(model: Model) -> Outcome {
    let mut run = Run::begun(model);
    let with = |frame, frames| Step::ExpandArray { frame, frames };
    same!(run.call(with(1 << 32, (1 << 32) + 1)), (0, 0));
    same!(run.call(with(1 << 32, (1 << 32) + 1)), (0, 0));
    same!(run.call(with(7, 7)), (11, 0));
    same!(run.call(with(0, 0)), (11, 0));
    same!(run.world.domain.pages, 3);
    run.world.domain.pages = 200;
    same!(run.call(with(1, 8)), (13, 0));
    Ok(())
}

/// Offsets.
fn a1_11(model: Model) -> Outcome {
    for good in [0, 8, 4_016, 4_024] {
        same!(
            (good, Run::fresh(model).call(init_with(0, 1, good))),
            (good, (0, 0))
        );
    }
    for bad in [1, 4, 4_020, 4_028, 4_032, 4_096, 0xFFFF_FFF8, 1 << 32] {
        same!(
            (bad, Run::fresh(model).call(init_with(0, 1, bad))),
            (bad, (12, 0))
        );
    }
    Ok(())
}

/// init sets only `given`, expand only adds 1 to pages.
fn a1_12(model: Model) -> Outcome {
    let mut run = Run::fresh(model);
    let mut wanted = run.world.domain;
    let done = run.step(init());
    same!(done, Next::Answer(Answer::DoneLinkBits(17), 0));
    wanted.given = true;
    same!(run.world.domain, wanted);
    same!(run.step(expand()), Next::Answer(Answer::Done, 0));
    wanted.pages = 1;
    same!(run.world.domain, wanted);
    Ok(())
}

/// mask: 3 before 6, no record, also during a service.
fn a1_13(model: Model) -> Outcome {
    let mut run = Run::begun(model);
    run.step(Step::Tell(200_000));
    same!(run.call(Step::Mask(131_072)), (3, 0));
    same!(run.call(Step::Mask(0)), (3, 0));
    let mut run = Run::begun(model);
    same!(run.call(Step::Mask(1024)), (6, 0));
    run.step(Step::Service);
    let service = run.world.guest;
    same!(run.call(Step::Mask(1023)), (0, 1));
    same!(run.world.guest, service);
    same!(run.word(1023), 0x4000_0000);
    same!(run.finish(G), (20, 1));
    Ok(())
}
