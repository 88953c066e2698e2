//! T-05: clear_mask, and the guest's other calls while one is under way.

use crate::support::{text, Outcome, Run, G};
use evtchn_fifo_host::model::{Model, Step};

cases! { answers_by_the_word_read, the_cas, counts, refusals, during_a_service, a_service_during_it,
the_service_stands, what_is_due, a_raise_between, mask_and_tell_during_it, waits_while_busy }

const P: u32 = 0x8000_0000;
const M: u32 = 0x4000_0000;
const L: u32 = 0x2000_0000;
const B: u32 = 0x1000_0000;

fn clearing(model: Model) -> Run {
    let mut run = Run::bound(model, &[5, 9]);
    run.step(Step::ClearMask(5));
    run
}

/// 0 unless MASKED, 35 if PENDING or BUSY; LINKED, LINK and reserved bits play no part.
fn answers_by_the_word_read(model: Model) -> Outcome {
    for rest in [0, L, L | 9, 0x0FFE_0000] {
        for word in [0, P, B, P | B] {
            same!(clearing(model).service_replies(&[word | rest]), ["0 n1"]);
        }
        for word in [P, B, P | B] {
            let given = clearing(model).service_replies(&[M | word | rest]);
            same!(given, ["35 n1"]);
        }
        let (old, new) = (M | rest, rest);
        let given = clearing(model).service_replies(&[old]);
        same!(given, [format!("cas w5 {old:08X} {new:08X}")]);
    }
    Ok(())
}

/// One cas: 0 where it is taken, else 35, whatever the word seen.
fn the_cas(model: Model) -> Outcome {
    let ending = |seen| {
        let mut run = clearing(model);
        run.service_replies(&[M | L, seen])[1].clone()
    };
    same!(ending(M | L), "0 n2");
    for seen in [0, L, M, P | M | L, B | M | L, M | L | 9] {
        same!(ending(seen), "35 n2");
    }
    Ok(())
}

fn counts(model: Model) -> Outcome {
    let mut run = Run::begun(model);
    same!(text(run.step(Step::ClearMask(5))), "read w5");
    same!(run.world.guest.clearing.map(|c| c.count), Some(1));
    same!(run.finish(G), (0, 1));
    run.call(Step::Mask(5));
    same!(run.call(Step::ClearMask(5)), (0, 2));
    same!(run.word(5), 0);
    run.step(Step::ClearMask(5));
    if let Some(clearing) = &mut run.world.guest.clearing {
        clearing.count = u32::MAX;
    }
    run.service_replies(&[M]);
    same!(run.world.guest.clearing.map(|c| c.count), Some(u32::MAX));
    same!(run.service_replies(&[M]), [format!("0 n{}", u32::MAX)]);
    Ok(())
}

/// 15, 3, then 6 by the number of words.
fn refusals(model: Model) -> Outcome {
    let mut run = Run::begun(model);
    let before = run.world.guest;
    for (port, number) in [
        (0, 3),
        (131_072, 3),
        (1 << 32 | 5, 3),
        (1024, 6),
        (131_071, 6),
    ] {
        same!((port, run.call(Step::ClearMask(port))), (port, (number, 0)));
    }
    same!(run.world.guest, before);
    run.step(Step::ClearMask(1023));
    let before = run.world.guest;
    for port in [0, 5, 1023, 1024, 131_072] {
        same!(
            (port, text(run.step(Step::ClearMask(port)))),
            (port, "15 n0".into())
        );
    }
    same!(run.world.guest, before);
    same!(run.finish(G), (0, 1));
    same!(text(run.step(Step::HandBack(G, M))), "16 n0");
    let mut run = Run::fresh(model);
    same!(run.call(Step::ClearMask(1)), (6, 0));
    Ok(())
}

/// It may begin during a service, which then gets no reply until the answer.
fn during_a_service(model: Model) -> Outcome {
    let mut run = Run::bound(model, &[5]);
    run.call(Step::Raise(5));
    run.call(Step::Mask(9));
    run.step(Step::Service);
    for at in 0..5 {
        let service = run.world.guest.call;
        same!(text(run.step(Step::ClearMask(9))), "read w9");
        same!(
            text(run.step(Step::Access(G))),
            match at {
                0 => "cas w9 40000000 00000000",
                _ => "0 n1",
            }
        );
        if at == 0 {
            same!(text(run.step(Step::Access(G))), "0 n2");
        }
        same!(run.world.guest.call, service);
        run.step(Step::Access(G));
    }
    same!(run.world.guest.call, None);
    same!(run.word(5), 0);
    Ok(())
}

/// 15 until the answer, whether or not a service is under way.
fn a_service_during_it(model: Model) -> Outcome {
    let mut run = clearing(model);
    same!(text(run.step(Step::Service)), "15 n0");
    run.service_replies(&[M]);
    same!(text(run.step(Step::Service)), "15 n0");
    run.service_replies(&[M]);
    same!(text(run.step(Step::Service)), "swap ready 00000000");
    run.step(Step::ClearMask(5));
    same!(text(run.step(Step::Service)), "15 n0");
    run.service_replies(&[0]);
    same!(text(run.step(Step::Service)), "15 n0");
    same!(run.finish(G), (20, 1));
    Ok(())
}

/// A service whose next reply would be its last: the clear_mask takes the words, then the service
/// goes on.
fn the_service_stands(model: Model) -> Outcome {
    let mut run = Run::bound(model, &[5, 9]);
    run.step(Step::Service);
    run.service_replies(&[0x80, 5, L]);
    let service = run.world.guest.call;
    run.step(Step::ClearMask(9));
    same!(
        run.service_replies(&[M, P | M]),
        ["cas w9 40000000 00000000", "35 n2"]
    );
    same!(run.world.guest.call, service);
    same!(
        run.service_replies(&[P, P]),
        ["and w5 7FFFFFFF", "19 p5 n5"]
    );
    same!(run.world.guest.local, 0);
    Ok(())
}

/// What is due is the clear_mask's, then the service's, then nothing.
fn what_is_due(model: Model) -> Outcome {
    let due = |run: &Run| {
        let access = run.world.due(G).map(|(_, access)| access);
        access.map(|access| text(evtchn_fifo_host::model::Next::Access(access)))
    };
    let mut run = Run::begun(model);
    same!(due(&run), None);
    run.step(Step::Service);
    same!(due(&run), Some("swap ready 00000000".to_string()));
    run.step(Step::ClearMask(5));
    same!(due(&run), Some("read w5".to_string()));
    run.service_replies(&[M]);
    same!(due(&run), Some("cas w5 40000000 00000000".to_string()));
    run.service_replies(&[0]);
    same!(due(&run), Some("swap ready 00000000".to_string()));
    run.service_replies(&[0]);
    same!(due(&run), None);
    Ok(())
}

/// A raise between read and cas finds the port masked; the cas finds it pending, and unmask links
/// it.
fn a_raise_between(model: Model) -> Outcome {
    let mut run = Run::bound(model, &[5]);
    run.call(Step::Mask(5));
    run.step(Step::ClearMask(5));
    run.step(Step::Access(G));
    same!(run.call(Step::Raise(5)), (0, 1));
    same!(run.finish(G), (35, 2));
    same!(run.word(5), P | M);
    same!(run.call(Step::ClearMask(5)), (35, 1));
    same!(run.call(Step::Unmask(5)), (1, 4));
    same!(run.call(Step::Service), (19, 5));
    Ok(())
}

/// A mask is no change of a masked word; after an unmask the cas is not taken.
fn mask_and_tell_during_it(model: Model) -> Outcome {
    let mut run = Run::bound(model, &[5]);
    run.call(Step::Mask(5));
    run.step(Step::ClearMask(5));
    run.step(Step::Access(G));
    same!(run.call(Step::Mask(5)), (0, 1));
    same!(run.call(Step::Tell(2048)), (0, 0));
    same!(run.finish(G), (0, 2));
    same!(run.word(5), 0);
    run.call(Step::Mask(5));
    run.step(Step::ClearMask(5));
    run.step(Step::Access(G));
    same!(run.call(Step::Unmask(5)), (0, 1));
    same!(run.call(Step::Mask(5)), (0, 1));
    run.world.memory.words[5] |= L;
    same!(run.finish(G), (35, 2));
    same!(run.word(5), M | L);
    Ok(())
}

/// While BUSY stands every clear_mask of the tail gives 35, and its word stays; then one is done.
fn waits_while_busy(model: Model) -> Outcome {
    use crate::support::X;
    let mut run = Run::bound(model, &[5, 9]);
    run.call(Step::Raise(5));
    run.call(Step::Close(5));
    run.step(Step::Raise(9));
    for _ in 0..3 {
        run.step(Step::Access(X));
    }
    run.call(Step::Mask(5));
    run.step(Step::Access(X));
    run.step(Step::ClearMask(5));
    run.step(Step::Access(G));
    run.step(Step::Access(X));
    same!(run.finish(G), (35, 2));
    for _ in 0..3 {
        same!(run.call(Step::ClearMask(5)), (35, 1));
        same!(run.word(5), 0x7000_0000);
    }
    same!(run.finish(X), (0, 6));
    same!(run.call(Step::ClearMask(5)), (0, 2));
    same!(run.word(5), 0x2000_0009);
    Ok(())
}
