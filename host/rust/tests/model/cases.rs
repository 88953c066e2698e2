//! Document 01's cases C1 to C12 (the small set): whole logs, counts and records.

use crate::support::{Outcome, Run, G, X};
use evtchn_fifo_host::model::{Model, Step};

const PROLOGUE: &str = include_str!("logs/prologue.log");
const C1: &str = include_str!("logs/c1.log");
const C2: &str = include_str!("logs/c2.log");
const C3: &str = include_str!("logs/c3.log");
const C4: &str = include_str!("logs/c4.log");
const C5: &str = include_str!("logs/c5.log");
const C6: &str = include_str!("logs/c6.log");
const C7: &str = include_str!("logs/c7.log");
const C8: &str = include_str!("logs/c8.log");
const C9: &str = include_str!("logs/c9.log");
const C10: &str = include_str!("logs/c10.log");
const C11: &str = include_str!("logs/c11.log");
const C12: &str = include_str!("logs/c12.log");
const BIND_9: &str = "X\tread\tw9\t-\t-\t00000000\nX\tanswer\t0\t-\t-\t-\n";
const BIND_12: &str = "X\tread\tw12\t-\t-\t00000000\nX\tanswer\t0\t-\t-\t-\n";

cases! { c1, c2, c3, c4, c5, c6, c7, c8, c8_after_c7, c9, c10, c11, c12 }

fn run_c1(run: &mut Run) -> Outcome {
    same!(run.call(Step::Bind(5)), (0, 1));
    same!(run.call(Step::Raise(5)), (1, 4));
    Ok(())
}

fn run_c2(run: &mut Run) -> Outcome {
    same!(run.call(Step::Bind(9)), (0, 1));
    same!(run.call(Step::Raise(9)), (0, 4));
    Ok(())
}

fn run_c3_c4(run: &mut Run) -> Outcome {
    same!(run.call(Step::Raise(5)), (0, 1));
    same!(run.call(Step::Service), (19, 5));
    Ok(())
}

fn after_c1(model: Model) -> Result<Run, String> {
    let mut run = Run::begun(model);
    run_c1(&mut run)?;
    Ok(run)
}

fn after_c2(model: Model) -> Result<Run, String> {
    let mut run = after_c1(model)?;
    run_c2(&mut run)?;
    Ok(run)
}

fn after_c5(model: Model) -> Result<Run, String> {
    let mut run = after_c2(model)?;
    run_c3_c4(&mut run)?;
    same!(run.call(Step::Service), (19, 4));
    Ok(run)
}

fn c1(model: Model) -> Outcome {
    let run = after_c1(model)?;
    same!(run.log(), [PROLOGUE, C1].concat());
    same!(run.entry(5), 0x0377);
    same!(run.world.domain.tails[7], 5);
    same!(run.word(5), 0xA000_0000);
    same!(run.world.memory.control.ready, 0x80);
    Ok(())
}

fn c2(model: Model) -> Outcome {
    let run = after_c2(model)?;
    same!(run.log(), [PROLOGUE, C1, C2].concat());
    same!(run.world.domain.tails[7], 9);
    same!(run.word(5), 0xA000_0009);
    Ok(())
}

fn c3(model: Model) -> Outcome {
    let mut run = after_c2(model)?;
    same!(run.call(Step::Raise(5)), (0, 1));
    same!(run.log(), [PROLOGUE, C1, C2, C3].concat());
    Ok(())
}

fn c4(model: Model) -> Outcome {
    let mut run = after_c2(model)?;
    run_c3_c4(&mut run)?;
    same!(run.log(), [PROLOGUE, C1, C2, C3, C4].concat());
    same!(run.world.guest.heads[7], 9);
    same!(run.world.guest.local, 0x80);
    same!(run.word(5), 0);
    Ok(())
}

fn c5(model: Model) -> Outcome {
    let run = after_c5(model)?;
    same!(run.log(), [PROLOGUE, C1, C2, C3, C4, C5].concat());
    same!(run.world.guest.heads[7], 0);
    same!(run.world.guest.local, 0);
    same!(run.world.domain.tails[7], 9);
    Ok(())
}

fn c6(model: Model) -> Outcome {
    let mut run = after_c5(model)?;
    same!(run.call(Step::Service), (20, 1));
    same!(run.log(), [PROLOGUE, C1, C2, C3, C4, C5, C6].concat());
    Ok(())
}

fn after_c7(model: Model) -> Result<Run, String> {
    let mut run = after_c5(model)?;
    same!(run.call(Step::Service), (20, 1));
    same!(run.call(Step::Raise(9)), (1, 4));
    Ok(run)
}

fn c7(model: Model) -> Outcome {
    let run = after_c7(model)?;
    let whole = [PROLOGUE, C1, C2, C3, C4, C5, C6, C7].concat();
    same!(run.log(), whole);
    same!(run.world.memory.control.head[7], 9);
    Ok(())
}

fn run_c8(run: &mut Run) -> Outcome {
    same!(run.call(Step::Bind(12)), (0, 1));
    same!(run.call(Step::Mask(12)), (0, 1));
    same!(run.call(Step::Raise(12)), (0, 1));
    same!(run.word(12), 0xC000_0000);
    Ok(())
}

fn c8(model: Model) -> Outcome {
    let mut run = Run::begun(model);
    run_c8(&mut run)?;
    same!(run.call(Step::Unmask(12)), (1, 4));
    same!(run.log(), [PROLOGUE, BIND_12, C8].concat());
    Ok(())
}

/// C8 continued after C7: the unmask links behind port 9.
fn c8_after_c7(model: Model) -> Outcome {
    let mut run = after_c7(model)?;
    run_c8(&mut run)?;
    same!(run.call(Step::Unmask(12)), (0, 4));
    let cas = "X\tread\tw9\t-\t-\tA0000000\nX\tcas\tw9\tA0000000\tA000000C\tA0000000\n";
    let end = format!("{cas}X\tanswer\t0\t-\t-\t-\n");
    same!(run.log().ends_with(&end), true);
    Ok(())
}

fn c9(model: Model) -> Outcome {
    let mut run = after_c1(model)?;
    same!(run.call(Step::Bind(9)), (0, 1));
    run.step(Step::Service);
    run.step(Step::Access(G));
    run.step(Step::Access(G));
    run.step(Step::Raise(9));
    for _ in 0..3 {
        run.step(Step::Access(X));
    }
    run.step(Step::Access(G));
    same!(run.finish(X), (1, 6));
    same!(run.finish(G), (19, 5));
    same!(run.log(), [PROLOGUE, C1, BIND_9, C9].concat());
    same!(run.world.domain.tails[7], 9);
    same!(run.world.guest.heads[7], 0);
    same!(run.world.guest.local, 0);
    Ok(())
}

fn c10(model: Model) -> Outcome {
    let mut run = after_c5(model)?;
    same!(run.entry(9), 0x0377);
    let lower = Step::SetPriority {
        port: 9,
        priority: 0,
    };
    same!(run.call(lower), (0, 0));
    same!(run.entry(9), 0x0370);
    run.step(Step::Raise(9));
    run.step(Step::Access(X));
    same!(run.world.domain.tails[7], 9);
    run.step(Step::Access(X));
    same!(run.world.domain.tails[7], 0);
    same!(run.entry(9), 0x0300);
    same!(run.finish(X), (1, 4));
    same!(run.call(Step::Raise(5)), (1, 4));
    same!(run.log(), [PROLOGUE, C1, C2, C3, C4, C5, C10].concat());
    same!(run.world.domain.tails[7], 5);
    same!(run.world.domain.tails[0], 9);
    same!(run.word(9), 0xA000_0000);
    Ok(())
}

fn c11(model: Model) -> Outcome {
    let mut run = after_c1(model)?;
    same!(run.call(Step::Close(5)), (0, 1));
    same!(run.entry(5), 0x0277);
    same!(run.word(5), 0x2000_0000);
    same!(run.call(Step::Bind(5)), (7, 1));
    same!(run.entry(5), 0x0277);
    same!(run.call(Step::Service), (21, 4));
    same!(run.call(Step::Bind(5)), (0, 1));
    same!(run.entry(5), 0x0377);
    same!(run.log(), [PROLOGUE, C1, C11].concat());
    Ok(())
}

fn c12(model: Model) -> Outcome {
    let mut run = after_c1(model)?;
    same!(run.call(Step::Bind(9)), (0, 1));
    run.step(Step::Raise(9));
    for _ in 0..3 {
        run.step(Step::Access(X));
    }
    run.replies(&[0xE000_0000, 0xA000_0000]);
    run.replies(&[0xF000_0000, 0xB000_0000, 0xF000_0000, 0xB000_0000]);
    same!(run.world.domain.tails[7], 5);
    same!(run.replies(&[0xB000_0000]), ["2 n10"]);
    same!(run.log(), [PROLOGUE, C1, BIND_9, C12].concat());
    same!(run.world.domain.tails[7], 9);
    same!(run.word(9), 0xA000_0000);
    same!(run.call(Step::Raise(9)), (0, 1));
    Ok(())
}
