//! Readings A4: the guest's steps.

use crate::support::{text, Outcome, Run, G, X};
use evtchn_fifo_host::model::{Answer, Masking, Model, Next, Step};

cases! { a4_1, a4_2, a4_3, a4_4, a4_5, a4_6, a4_7, a4_8, a4_9, two_ready_queues }

const P: u32 = 0x8000_0000;
const M: u32 = 0x4000_0000;

fn serving(model: Model) -> Run {
    let mut run = Run::begun(model);
    run.step(Step::Service);
    run
}

/// G0 merges, then chooses the lowest bit.
fn a4_1(model: Model) -> Outcome {
    let mut run = serving(model);
    run.world.guest.local = 0x0080;
    run.world.guest.heads[7] = 9;
    same!(run.service_replies(&[0xFFFF_0001]), ["read h0"]);
    same!(run.world.guest.local, 0x0081);
    same!(run.world.guest.heads[7], 9);
    let mut run = serving(model);
    same!(run.service_replies(&[0xFFFF_0000]), ["20 n1"]);
    same!(run.world.guest.local, 0);
    Ok(())
}

/// The index is compared in full 32 bits before G2.
fn a4_2(model: Model) -> Outcome {
    for bad in [0, 1024, 0x0002_0005, u32::MAX] {
        let mut run = serving(model);
        same!(run.service_replies(&[0x80, bad]), ["read h7", "18 n2"]);
        same!(run.world.guest.local, 0);
        same!(run.world.guest.call, None);
    }
    let mut run = serving(model);
    same!(run.service_replies(&[0x80, 1023])[1], "and w1023 DFFE0000");
    Ok(())
}

/// 18 at G0's reply: the merge stands, H and the local bit of that queue are 0.
fn a4_3(model: Model) -> Outcome {
    let mut run = serving(model);
    run.world.guest.local = 0x0080;
    run.world.guest.heads[7] = 2000;
    run.world.guest.heads[8] = 3000;
    same!(run.service_replies(&[0x0180]), ["18 n1"]);
    let mut heads = [0; 16];
    heads[8] = 3000;
    same!(run.world.guest.heads, heads);
    same!(run.world.guest.local, 0x0100);
    same!(run.world.guest.call, None);
    Ok(())
}

/// H is unmoved at G1.
fn a4_4(model: Model) -> Outcome {
    let mut run = serving(model);
    run.service_replies(&[0x80, 5]);
    same!(run.world.guest.heads[7], 0);
    same!(run.world.guest.local, 0x80);
    Ok(())
}

/// G2: H becomes the LINK seen whatever the flags; a bad LINK is refused by the next service.
fn a4_5(model: Model) -> Outcome {
    for flags in 0..8_u32 {
        let mut run = serving(model);
        let given = run.service_replies(&[0x80, 5, flags << 29 | 0x1FFE_0000]);
        same!(given[2], "read w5");
        same!(run.world.guest.local, 0);
        let mut run = serving(model);
        run.service_replies(&[0x80, 5, flags << 29 | 0x1FFF_FFFF]);
        same!(run.world.guest.heads[7], 0x1_FFFF);
        same!(run.world.guest.local, 0x80);
        run.service_replies(&[0]);
        same!(text(run.step(Step::Service)), "swap ready 00000000");
        same!(run.service_replies(&[0]), ["18 n1"]);
        same!(run.world.guest.heads[7], 0);
        same!(run.world.guest.local, 0);
    }
    Ok(())
}

/// G3 wants PENDING and not MASKED; G4 looks at PENDING alone.
fn a4_6(model: Model) -> Outcome {
    let ending = |words: &[u32]| {
        let mut run = serving(model);
        let given = run.service_replies(&[&[0x80, 5, 0], words].concat());
        given.last().cloned().unwrap_or_default()
    };
    for seen in [0, M, P | M, 0x2000_0000] {
        same!(ending(&[seen]), "21 p5 n4");
    }
    same!(ending(&[P]), "and w5 7FFFFFFF");
    same!(ending(&[P | 0x3FFF_FFFF]), "and w5 7FFFFFFF");
    same!(ending(&[P, 0]), "21 p5 n5");
    same!(ending(&[P, M]), "21 p5 n5");
    same!(ending(&[P, P | M]), "19 p5 n5");
    let mut run = Run::bound(model, &[5]);
    run.call(Step::Raise(5));
    run.step(Step::Service);
    for _ in 0..4 {
        run.step(Step::Access(G));
    }
    run.call(Step::Close(5));
    same!(run.finish(G), (21, 5));
    Ok(())
}

/// tell: the larger number, no refusal, at any step.
fn a4_7(model: Model) -> Outcome {
    let mut run = serving(model);
    run.service_replies(&[0x80]);
    let call = run.world.guest.call;
    same!(run.step(Step::Tell(2048)), Next::Answer(Answer::Done, 0));
    same!(run.world.guest.call, call);
    same!(run.service_replies(&[1500]), ["and w1500 DFFE0000"]);
    for (told, words) in [
        (100, 2048),
        (2047, 2048),
        (2049, 2049),
        (0, 2049),
        (200_000, 200_000),
    ] {
        same!(run.call(Step::Tell(told)), (0, 0));
        same!(run.world.guest.words, words);
    }
    Ok(())
}

/// A service needs no init.
fn a4_8(model: Model) -> Outcome {
    let mut run = Run::fresh(model);
    same!(text(run.step(Step::Service)), "swap ready 00000000");
    same!(run.finish(G), (20, 1));
    Ok(())
}

/// Above 131,072 words the reach is the number of words alone; mask keeps its 3.
fn a4_9(model: Model) -> Outcome {
    let mut run = serving(model);
    run.step(Step::Tell(200_000));
    same!(
        run.service_replies(&[0x80, 199_999])[1],
        "and w199999 DFFE0000"
    );
    same!(
        model.mask(131_072, 200_000),
        Masking::Refused(Answer::BadPort)
    );
    Ok(())
}

/// Two ready queues: the lower one is served first, the other stays ready.
fn two_ready_queues(model: Model) -> Outcome {
    let mut run = Run::bound(model, &[5, 9]);
    run.call(Step::SetPriority {
        port: 9,
        priority: 3,
    });
    same!(run.call(Step::Raise(5)), (1, 4));
    same!(run.call(Step::Raise(9)), (1, 4));
    run.step(Step::Service);
    same!(run.world.memory.control.ready, 0x88);
    same!(run.finish(G), (19, 5));
    same!(run.world.guest.local, 0x80);
    same!(run.word(9), 0);
    run.step(Step::Service);
    same!(run.finish(G), (19, 5));
    same!(run.word(5), 0);
    same!(run.call(Step::Service), (20, 1));
    same!(text(run.step(Step::HandBack(X, 0))), "16 n0");
    Ok(())
}
