//! Document 01's edges: ports, offsets, pages, priorities, words of the event word.

use crate::support::{expand, init, Outcome, Run};
use evtchn_fifo_host::model::{Entry, EventWord, Model, Op, Port, Step, World};

cases! { last_port, offsets, pages, priorities, event_word_codec, cas_effect, page_is_zeroed }

/// Port 131,071 is valid and can be raised in a full array; 131,072 is not.
fn last_port(model: Model) -> Outcome {
    let mut run = Run::fresh(model);
    run.world = World::fresh(model, 131_072, 131_072);
    run.step(init());
    for _ in 0..128 {
        same!(run.call(expand()), (0, 0));
    }
    run.step(Step::Tell(131_072));
    same!(run.call(Step::Bind(131_071)), (0, 1));
    same!(run.call(Step::Raise(131_071)), (1, 4));
    same!(run.call(Step::Service), (19, 5));
    same!(run.call(Step::Mask(131_071)), (0, 1));
    same!(run.call(Step::ClearMask(131_071)), (0, 2));
    for step in [
        Step::Bind(131_072),
        Step::Close(131_072),
        Step::Raise(131_072),
    ] {
        same!(run.call(step), (3, 0));
    }
    same!(run.call(Step::Unmask(131_072)), (3, 0));
    same!(run.call(Step::Mask(131_072)), (3, 0));
    same!(run.call(Step::ClearMask(131_072)), (3, 0));
    Ok(())
}

fn offsets(model: Model) -> Outcome {
    for (offset, number) in [(0, 0), (4_024, 0), (4_020, 12), (4_032, 12)] {
        let step = Step::InitControl {
            vcpu: 0,
            frame: 0,
            frames: 1,
            offset,
        };
        same!(
            (offset, Run::fresh(model).call(step)),
            (offset, (number, 0))
        );
    }
    Ok(())
}

/// Page 128 is accepted, the next is 13.
fn pages(model: Model) -> Outcome {
    let mut run = Run::fresh(model);
    run.step(init());
    for _ in 1..=128 {
        same!(run.call(expand()), (0, 0));
    }
    same!(run.call(expand()), (13, 0));
    same!(run.world.domain.pages, 128);
    Ok(())
}

fn priorities(model: Model) -> Outcome {
    for (priority, number) in [(0, 0), (15, 0), (16, 8)] {
        let mut run = Run::bound(model, &[5]);
        let step = Step::SetPriority { port: 5, priority };
        same!(run.call(step), (number, 0));
    }
    for priority in 0..16_u64 {
        let mut run = Run::bound(model, &[5]);
        run.call(Step::SetPriority { port: 5, priority });
        same!(run.call(Step::Raise(5)), (1, 4));
        same!(run.world.memory.control.ready, 1 << priority);
        same!(run.world.memory.control.head[priority as usize], 5);
        same!(run.call(Step::Service), (19, 5));
    }
    Ok(())
}

fn event_word_codec(_: Model) -> Outcome {
    for bit in 0..32 {
        for bits in [1_u32 << bit, !(1_u32 << bit)] {
            same!(EventWord::from_bits(bits).bits(), bits);
        }
    }
    let word = EventWord::from_bits(0xBFFE_0003).with_link(Port(9));
    same!(word.bits(), 0xBFFE_0009);
    same!(word.with_busy(false).bits(), 0xAFFE_0009);
    same!(
        EventWord::from_bits(0xEFFE_0003).unmasked().bits(),
        0xAFFE_0003
    );
    same!(Entry::FRESH.bits(), 7);
    Ok(())
}

fn cas_effect(_: Model) -> Outcome {
    let cas = Op::Cas { old: 3, new: 8 };
    same!(cas.effect(3), 8);
    same!(cas.effect(4), 4);
    same!(Op::Swap(0).effect(5), 0);
    same!(Op::And(0xDFFE_0000).effect(0xFFFF_FFFF), 0xDFFE_0000);
    Ok(())
}

/// An expand that adds a page zeroes its words and no others; a refused one none.
fn page_is_zeroed(model: Model) -> Outcome {
    let mut run = Run::fresh(model);
    run.world.memory.words.fill(1);
    run.call(expand());
    same!(run.word(0), 1);
    run.call(init());
    run.call(expand());
    same!((run.word(0), run.word(1023), run.word(1024)), (0, 0, 1));
    run.world.memory.words[5] = 1;
    run.call(expand());
    same!(
        (run.word(5), run.word(1024), run.word(2047), run.word(2048)),
        (1, 0, 0, 1)
    );
    Ok(())
}
