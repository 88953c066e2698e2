//! Readings A3: the hypervisor's steps.

use crate::support::{text, Outcome, Run, G, X};
use evtchn_fifo_host::model::{Model, Step};

cases! { a3_1, a3_2, a3_3, a3_4, a3_5, a3_6, a3_7, a3_8, a3_9, a3_10, a3_11, a3_12, a3_13,
a3_14, a3_15, a3_16, reserved_bits_are_kept }

const P: u32 = 0x8000_0000;
const M: u32 = 0x4000_0000;
const L: u32 = 0x2000_0000;

fn set_priority(port: u64, priority: u64) -> Step {
    Step::SetPriority { port, priority }
}

fn raising(model: Model) -> Run {
    let mut run = Run::bound(model, &[5, 9]);
    run.step(Step::Raise(5));
    run
}

/// R1: PENDING already set does not end the call; MASKED or LINKED does.
fn a3_1(model: Model) -> Outcome {
    same!(raising(model).replies(&[P]), ["or w5 20000000"]);
    same!(raising(model).replies(&[0]), ["or w5 20000000"]);
    for seen in [M, L, M | L, P | M, P | L, P | M | L] {
        same!(raising(model).replies(&[seen]), ["0 n1"]);
    }
    Ok(())
}

/// U1: PENDING and not LINKED goes on; MASKED plays no part.
fn a3_2(model: Model) -> Outcome {
    let unmasking = |seen| {
        let mut run = Run::bound(model, &[5]);
        run.step(Step::Unmask(5));
        run.replies(&[seen])
    };
    for seen in [P, P | M] {
        same!(unmasking(seen), ["or w5 20000000"]);
    }
    for seen in [0, M, L, M | L, P | L, P | M | L] {
        same!(unmasking(seen), ["0 n1"]);
    }
    Ok(())
}

/// R2 reads the priority from the ledger lent at its reply; later ledgers play no part.
fn a3_3(model: Model) -> Outcome {
    let mut run = raising(model);
    run.replies(&[0]);
    run.set_entry(5, 0x0103);
    same!(run.replies(&[P]), ["store h3 00000005"]);
    run.set_entry(5, 0x0105);
    same!(run.replies(&[0, 0]), ["or ready 00000008", "1 n4"]);
    same!(run.entry(5), 0x0105);
    Ok(())
}

/// R2 that sees LINKED ends the call and changes nothing.
fn a3_4(model: Model) -> Outcome {
    let mut run = raising(model);
    run.replies(&[0]);
    let (tails, entry) = (run.world.domain.tails, run.entry(5));
    same!(run.replies(&[P | L]), ["0 n2"]);
    same!(run.world.domain.tails, tails);
    same!(run.entry(5), entry);
    Ok(())
}

/// R2's change of the ledger, at its reply; bits 10 to 15 are kept throughout.
fn a3_5(model: Model) -> Outcome {
    let mut run = Run::begun(model);
    run.set_entry(5, 0xFC07);
    run.call(Step::Bind(5));
    same!(run.entry(5), 0xFD07);
    run.step(Step::Raise(5));
    run.replies(&[0]);
    same!(run.entry(5), 0xFD07);
    run.replies(&[P]);
    same!(run.entry(5), 0xFF77);
    run.replies(&[0, 0]);
    run.call(Step::Close(5));
    same!(run.entry(5), 0xFE77);
    Ok(())
}

fn tail_5_after_r2(model: Model, entry: u16, tail: u32) -> u32 {
    let mut run = raising(model);
    run.set_entry(5, entry);
    run.world.domain.tails[5] = tail;
    run.replies(&[0, P]);
    run.world.domain.tails[5]
}

/// The tail left behind becomes 0: been linked, another queue, tail is p.
fn a3_6(model: Model) -> Outcome {
    same!(tail_5_after_r2(model, 0x0150, 5), 5);
    same!(tail_5_after_r2(model, 0x0350, 5), 0);
    same!(tail_5_after_r2(model, 0x0350, 6), 6);
    same!(tail_5_after_r2(model, 0x0355, 5), 5);
    let mut run = raising(model);
    run.set_entry(5, 0x0350);
    run.world.domain.tails[5] = 5;
    run.world.domain.tails[0] = 9;
    same!(run.replies(&[0, P]), ["or w5 20000000", "read w9"]);
    Ok(())
}

/// Close keeps bits 4 to 7 and 9, so that a tail left behind is found later.
fn a3_7(model: Model) -> Outcome {
    let mut run = Run::bound(model, &[5]);
    same!(run.call(Step::Raise(5)), (1, 4));
    same!(run.call(Step::Service), (19, 5));
    same!(run.entry(5), 0x0377);
    same!(run.call(Step::Close(5)), (0, 1));
    same!(run.entry(5), 0x0277);
    run.call(Step::Bind(5));
    run.call(set_priority(5, 0));
    same!(run.call(Step::Raise(5)), (1, 4));
    run.call(Step::Bind(6));
    run.step(Step::Raise(6));
    run.step(Step::Access(X));
    same!(text(run.step(Step::Access(X))), "store h7 00000006");
    same!(run.finish(X), (1, 4));
    Ok(())
}

/// Ledger changes of bind and close fall with the reply, or at once outside the array.
fn a3_8(model: Model) -> Outcome {
    let mut run = Run::begun(model);
    run.step(Step::Bind(5));
    same!(run.entry(5), 0x0007);
    run.replies(&[0]);
    same!(run.entry(5), 0x0107);
    run.call(set_priority(5, 3));
    run.world.memory.words[5] = u32::MAX;
    same!(text(run.step(Step::Close(5))), "and w5 7FFFFFFF");
    same!(run.entry(5), 0x0103);
    same!(run.finish(X), (0, 1));
    same!(run.entry(5), 0x0007);
    same!(run.word(5), 0x7FFF_FFFF);
    run.step(Step::Bind(1500));
    same!(run.entry(1500), 0x0107);
    run.step(Step::Close(1500));
    same!(run.entry(1500), 0x0007);
    Ok(())
}

/// A tail is none where it is 0; one at or beyond the array's end is a tail like any other.
fn a3_9(model: Model) -> Outcome {
    let with_tail = |tail| {
        let mut run = raising(model);
        run.world.domain.tails[7] = tail;
        run.replies(&[0, P])[1].clone()
    };
    same!(with_tail(1023), "read w1023");
    same!(with_tail(1024), "read w1024");
    same!(with_tail(u32::MAX), "read w4294967295");
    same!(with_tail(0), "store h7 00000005");
    same!(with_tail(5), "store h7 00000005");
    let mut run = Run::begun(model);
    run.world.domain.tails[7] = 2000;
    same!(run.call(Step::Raise(5)), (4, 0));
    same!(run.world.domain.tails[7], 2000);
    let mut run = raising(model);
    run.set_entry(5, 0x0350);
    run.world.domain.tails[5] = 5;
    run.world.domain.pages = 0;
    run.replies(&[0, P]);
    same!(run.world.domain.tails[5], 0);
    Ok(())
}

/// R3 that sees no LINKED goes to R5.
fn a3_10(model: Model) -> Outcome {
    let mut run = Run::bound(model, &[5, 9]);
    run.call(Step::Raise(5));
    run.call(Step::Raise(9));
    run.call(Step::Service);
    run.call(Step::Service);
    let before = run.log();
    same!(run.call(Step::Raise(5)), (1, 5));
    let wanted = "X\tor\tw5\t-\t80000000\t00000000\n\
        X\tor\tw5\t-\t20000000\t80000000\n\
        X\tread\tw9\t-\t-\t00000000\n\
        X\tstore\th7\t-\t00000005\t-\n\
        X\tor\tready\t-\t00000080\t00000000\n\
        X\tanswer\t1\t-\t-\t-\n";
    same!(run.log(), before + wanted);
    Ok(())
}

/// A raise of 9 with tail 5, up to R3's reply.
fn behind_5(model: Model, seen: u32) -> (Run, String) {
    let mut run = Run::bound(model, &[5, 9]);
    run.world.domain.tails[7] = 5;
    run.step(Step::Raise(9));
    let given = run.replies(&[0, P, seen])[2].clone();
    (run, given)
}

/// The cas replaces LINK and BUSY alone; each later try uses the word that the one before it saw.
fn a3_11(model: Model) -> Outcome {
    let (mut run, given) = behind_5(model, 0xAFFE_0003);
    same!(given, "cas w5 AFFE0003 AFFE0009");
    run.replies(&[0xE100_0003, 0xE100_0003]);
    same!(run.replies(&[0xB00E_0004]), ["cas w5 B00E0004 A00E0009"]);
    Ok(())
}

/// A taken cas answers 0 on any try.
fn a3_12(model: Model) -> Outcome {
    let (mut run, _) = behind_5(model, 0xA000_0000);
    same!(run.replies(&[0xA000_0000]), ["0 n4"]);
    same!(run.world.domain.tails[7], 9);
    let words = [0xB000_0000, 0xF000_0003, 0xB000_0003, 0xF000_0001];
    for tries in 2..=5 {
        let (mut run, _) = behind_5(model, 0xA000_0003);
        run.replies(&[0xE000_0000, 0xA000_0000]);
        run.replies(&words[1..tries - 1]);
        let given = run.replies(&[words[tries - 2]]);
        same!(given, [format!("0 n{}", 4 + tries)]);
        same!(run.world.domain.tails[7], 9);
    }
    Ok(())
}

/// Order at a cas's reply: taken, LINKED lost, fifth, next.
fn a3_13(model: Model) -> Outcome {
    let (mut run, _) = behind_5(model, 0xA000_0000);
    run.replies(&[0xA000_0001, 0xA000_0001]);
    let given = run.replies(&[0xB000_0002, 0xB000_0003, 0xB000_0004, 0xB000_0005]);
    same!(given[3], "and w5 EFFFFFFF");
    same!(run.replies(&[0xB000_0005]), ["2 n10"]);
    same!(run.world.domain.tails[7], 9);
    same!(run.entry(9), 0x0377);
    let (mut run, _) = behind_5(model, 0xA000_0000);
    same!(run.replies(&[P]), ["store h7 00000009"]);
    for tries in 2..=5 {
        let (mut run, _) = behind_5(model, 0xA000_0000);
        run.replies(&[0xA000_0001, 0xA000_0001]);
        let linked: Vec<u32> = (2..tries).map(|k| 0xB000_0000 + k).collect();
        run.replies(&linked);
        let given = run.replies(&[P, P]);
        same!(given, ["and w5 EFFFFFFF", "store h7 00000009"]);
    }
    Ok(())
}

/// The tail is set at the reply of R5, not earlier and not later.
fn a3_14(model: Model) -> Outcome {
    let mut run = raising(model);
    run.replies(&[0, P]);
    same!(run.world.domain.tails[7], 0);
    same!(run.replies(&[0]), ["or ready 00000080"]);
    same!(run.world.domain.tails[7], 5);
    let (mut run, _) = behind_5(model, 0xA000_0000);
    same!(run.world.domain.tails[7], 5);
    run.replies(&[0xA000_0000]);
    same!(run.world.domain.tails[7], 9);
    Ok(())
}

/// R6 looks at its own bit alone.
fn a3_15(model: Model) -> Outcome {
    let at_r6 = |seen| {
        let mut run = raising(model);
        run.replies(&[0, P, 0, seen])[3].clone()
    };
    same!(at_r6(0xFFFF_FF7F), "1 n4");
    same!(at_r6(0x0000_0080), "0 n4");
    same!(at_r6(0xFFFF_0000), "1 n4");
    same!(at_r6(0x0000_0100), "1 n4");
    Ok(())
}

/// An abandoned link is not repaired: the next raise sees LINKED.
fn a3_16(model: Model) -> Outcome {
    let mut run = Run::bound(model, &[5, 9]);
    run.call(Step::Raise(5));
    run.step(Step::Raise(9));
    for _ in 0..3 {
        run.step(Step::Access(X));
    }
    run.replies(&[0xA000_0001, 0xA000_0002, 0xB000_0003, 0xB000_0004]);
    same!(run.replies(&[0xB000_0005, 0xB000_0006, 0])[2], "2 n10");
    same!(run.call(Step::Raise(9)), (0, 1));
    same!(run.word(9), 0xA000_0000);
    Ok(())
}

/// Reserved bits stay through a whole life of an event. A BUSY that the guest has set stays until
/// a cas on the word is taken.
fn reserved_bits_are_kept(model: Model) -> Outcome {
    let mut run = Run::bound(model, &[5, 9]);
    run.world.memory.words[5] = 0x1FFE_0000;
    run.call(Step::Raise(5));
    same!(run.word(5), 0xBFFE_0000);
    run.call(Step::Raise(9));
    same!(run.word(5), 0xAFFE_0009);
    run.call(Step::Mask(5));
    run.step(Step::Service);
    same!(run.finish(G), (21, 4));
    same!(run.word(5), 0xCFFE_0000);
    run.call(Step::Unmask(5));
    run.call(Step::Close(5));
    same!(run.word(5), 0x2FFE_0000);
    run.world.memory.words[5] = 0x4FFE_0003;
    same!(run.call(Step::ClearMask(5)), (0, 2));
    same!(run.word(5), 0x0FFE_0003);
    Ok(())
}
