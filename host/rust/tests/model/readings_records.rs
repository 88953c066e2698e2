//! Readings A5: arbitrary records.

use crate::support::{expand, text, Outcome, Run, G, X};
use evtchn_fifo_host::model::{
    ClearTag, Entry, FlatCall, FlatClear, FlatService, Model, Owner, ServiceTag, StageTag, Step,
};

cases! { a5_1, a5_2_queue, a5_2_tries, a5_2_link, a5_3, a5_4, a5_5, a5_8, a5_9, a5_10, a5_12,
a5_13, flat_fields_not_needed, clear_mask_fields_not_needed }

const FLAT: FlatCall = FlatCall {
    owner: Some(Owner::Raise),
    stage: StageTag::R1,
    port: 5,
    queue: 7,
    word: 0xA000_0000,
    tries: 1,
    count: 3,
};

fn at(model: Model, flat: FlatCall) -> Run {
    let mut run = Run::bound(model, &[5, 9]);
    run.world.domain.call = flat.call();
    run
}

fn due(run: &Run) -> String {
    let access = run.world.model.due(&run.world.domain);
    access.map_or("none".to_string(), |a| {
        text(evtchn_fifo_host::model::Next::Access(a))
    })
}

/// No overflow for any number of pages.
fn a5_1(model: Model) -> Outcome {
    let mut run = Run::begun(model);
    run.world.ledger = Entry::ledger(131_072);
    run.world.domain.pages = u32::MAX;
    run.set_entry(131_071, 0x0107);
    same!(text(run.step(Step::Raise(131_071))), "or w131071 80000000");
    run.world.domain.call = None;
    same!(run.call(expand()), (13, 0));
    Ok(())
}

/// A queue above 15 has no tail; READY's bit is modulo 16, HEAD as stored.
fn a5_2_queue(model: Model) -> Outcome {
    let stage = StageTag::R5;
    let mut run = at(
        model,
        FlatCall {
            stage,
            queue: 23,
            ..FLAT
        },
    );
    same!(due(&run), "store h23 00000005");
    same!(run.replies(&[0, 0x80]), ["or ready 00000080", "0 n4"]);
    same!(run.world.domain.tails, [0; 16]);
    let stage = StageTag::R3;
    let mut run = at(
        model,
        FlatCall {
            stage,
            queue: 23,
            ..FLAT
        },
    );
    run.world.domain.tails[7] = 9;
    same!(due(&run), "read w0");
    Ok(())
}

/// Tries of 5 or more: no cas follows one that is not taken. Tries of 0 or 1: it is the first.
fn a5_2_tries(model: Model) -> Outcome {
    let tried = |tries| {
        let stage = StageTag::R4;
        let flat = FlatCall {
            stage,
            tries,
            ..FLAT
        };
        let mut run = at(model, flat);
        run.world.domain.tails[7] = 9;
        run
    };
    for tries in [5, 6, u32::MAX] {
        let mut run = tried(tries);
        same!(run.replies(&[0xE000_0000, 0]), ["and w9 EFFFFFFF", "2 n4"]);
        same!(run.world.domain.tails[7], 5);
    }
    for tries in [0, 1] {
        let mut run = tried(tries);
        let given = run.replies(&[0xE000_0000, 0xE000_0000]);
        same!(given, ["or w9 10000000", "cas w9 F0000000 E0000005"]);
        same!(tried(tries).replies(&[0xC000_0000]), ["store h7 00000005"]);
    }
    Ok(())
}

/// A port of more than 17 bits: LINK is the port modulo 2^17, R5 stores the port.
fn a5_2_link(model: Model) -> Outcome {
    let port = 0x0002_0005;
    let mut run = at(
        model,
        FlatCall {
            stage: StageTag::R4,
            port,
            ..FLAT
        },
    );
    run.world.domain.tails[7] = 9;
    same!(due(&run), "cas w9 A0000000 A0000005");
    run.world.domain.call = FlatCall {
        stage: StageTag::R5,
        port,
        ..FLAT
    }
    .call();
    same!(due(&run), "store h7 00020005");
    Ok(())
}

/// The place of R3 and R4 is the record's tail as it stands.
fn a5_3(model: Model) -> Outcome {
    let mut run = at(
        model,
        FlatCall {
            stage: StageTag::R4,
            ..FLAT
        },
    );
    run.world.domain.tails[7] = 9;
    same!(due(&run), "cas w9 A0000000 A0000005");
    run.world.domain.tails[7] = 11;
    same!(due(&run), "cas w11 A0000000 A0000005");
    Ok(())
}

/// Local bits above 15 are dropped at G0.
fn a5_4(model: Model) -> Outcome {
    let mut run = Run::begun(model);
    run.world.guest.local = 0xFFFF_0000;
    same!(run.call(Step::Service), (20, 1));
    same!(run.world.guest.local, 0);
    Ok(())
}

/// A flat call without an owner is no call under way.
fn a5_5(model: Model) -> Outcome {
    let mut run = at(
        model,
        FlatCall {
            owner: None,
            ..FLAT
        },
    );
    same!(text(run.step(Step::HandBack(X, 0))), "16 n0");
    same!(text(run.step(Step::Raise(5))), "or w5 80000000");
    let flat = FlatService {
        stage: None,
        port: 5,
        queue: 7,
        count: 3,
    };
    same!(flat.service(), None);
    let mut run = Run::begun(model);
    run.world.guest.call = FlatService {
        stage: Some(ServiceTag::G1),
        ..flat
    }
    .service();
    same!(run.service_replies(&[9]), ["and w9 DFFE0000"]);
    let flat = FlatClear {
        stage: None,
        port: 5,
        word: 7,
        count: 2,
    };
    same!(flat.clear_mask(), None);
    Ok(())
}

/// Every entry is the same after decoding and encoding; fresh is 7.
fn a5_8(_: Model) -> Outcome {
    for bits in 0..=u16::MAX {
        same!(Entry::from_bits(bits).bits(), bits);
    }
    same!(Entry::FRESH.bits(), 7);
    same!(Entry::from_bits(7), Entry::FRESH);
    Ok(())
}

/// Wide numbers are tested before they are narrowed.
fn a5_9(model: Model) -> Outcome {
    let wide = 1 << 32;
    let mut run = Run::bound(model, &[5]);
    let starts = [
        Step::Bind(wide + 6),
        Step::Close(wide + 5),
        Step::Raise(wide + 5),
    ];
    for start in starts {
        same!(run.call(start), (3, 0));
    }
    same!(run.call(Step::Mask(wide + 5)), (3, 0));
    let priority = wide + 3;
    same!(run.call(Step::SetPriority { port: 5, priority }), (8, 0));
    let init = |vcpu, frame, frames, offset| Step::InitControl {
        vcpu,
        frame,
        frames,
        offset,
    };
    same!(Run::fresh(model).call(init(wide, 1, 8, 0)), (17, 0));
    same!(Run::fresh(model).call(init(0, wide + 1, 8, 0)), (11, 0));
    same!(Run::fresh(model).call(init(0, 1, wide + 1, wide)), (12, 0));
    let (port, words) = (5, wide + 5);
    same!(run.call(Step::MaskWithin { port, words }), (0, 1));
    run.call(Step::Tell(wide + 7));
    same!(run.world.guest.words, u32::MAX);
    Ok(())
}

/// Stages that the rest of the record contradicts follow their own rule.
fn a5_10(model: Model) -> Outcome {
    let word = 0x8000_0001;
    let mut run = at(
        model,
        FlatCall {
            stage: StageTag::R4,
            word,
            ..FLAT
        },
    );
    run.world.domain.tails[7] = 0;
    same!(due(&run), "cas w0 80000001 80000005");
    same!(run.replies(&[word]), ["0 n3"]);
    same!(run.world.domain.tails[7], 5);
    let owner = Some(Owner::Bind);
    let mut run = at(
        model,
        FlatCall {
            owner,
            stage: StageTag::CloseAnd,
            ..FLAT
        },
    );
    same!(due(&run), "and w5 7FFFFFFF");
    same!(run.replies(&[0x2000_0000]), ["0 n3"]);
    same!(run.entry(5), 0x0007);
    let owner = Some(Owner::Close);
    let mut run = at(
        model,
        FlatCall {
            owner,
            stage: StageTag::R2,
            ..FLAT
        },
    );
    same!(run.replies(&[0]), ["store h7 00000005"]);
    Ok(())
}

/// R3 and R4 with a tail outside the array.
fn a5_12(model: Model) -> Outcome {
    let mut run = at(
        model,
        FlatCall {
            stage: StageTag::R3,
            ..FLAT
        },
    );
    run.world.domain.tails[7] = 5000;
    same!(due(&run), "read w5000");
    run.replies(&[0xA000_0000]);
    same!(due(&run), "cas w5000 A0000000 A0000005");
    Ok(())
}

/// After 14 at a reply the same word is handed back, without a second access.
fn a5_13(model: Model) -> Outcome {
    let mut run = Run::bound(model, &[5]);
    run.step(Step::Raise(5));
    run.step(Step::Access(X));
    let ledger = run.world.ledger.clone();
    run.world.ledger.truncate(2);
    same!(text(run.step(Step::Access(X))), "14 n0");
    same!(run.word(5), 0xA000_0000);
    run.world.ledger = ledger;
    same!(
        text(run.step(Step::HandBack(X, 0x8000_0000))),
        "store h7 00000005"
    );
    same!(run.finish(X), (1, 4));
    same!(run.call(Step::Service), (19, 5));
    same!(text(run.step(Step::HandBack(G, 0))), "16 n0");
    Ok(())
}

/// Fields that a stage does not need play no part.
fn flat_fields_not_needed(_: Model) -> Outcome {
    let other = FlatCall {
        queue: 99,
        word: 1,
        tries: 77,
        ..FLAT
    };
    for stage in [
        StageTag::BindRead,
        StageTag::CloseAnd,
        StageTag::R1,
        StageTag::U1,
        StageTag::R2,
    ] {
        same!(
            FlatCall { stage, ..other }.call(),
            FlatCall { stage, ..FLAT }.call()
        );
    }
    let other = FlatCall { queue: 7, ..other };
    for stage in [StageTag::R3, StageTag::R5, StageTag::R6, StageTag::SetBusy] {
        same!(
            FlatCall { stage, ..other }.call(),
            FlatCall { stage, ..FLAT }.call()
        );
    }
    let stage = StageTag::ClearBusy;
    let kept = FlatCall { tries: 77, ..FLAT };
    same!(
        FlatCall { stage, ..kept }.call(),
        FlatCall { stage, ..FLAT }.call()
    );
    Ok(())
}

/// A clear_mask's read has no use for the word.
fn clear_mask_fields_not_needed(_: Model) -> Outcome {
    let read = FlatClear {
        stage: Some(ClearTag::Read),
        port: 5,
        word: 0,
        count: 1,
    };
    let other = FlatClear { word: 77, ..read };
    same!(other.clear_mask(), read.clear_mask());
    Ok(())
}
