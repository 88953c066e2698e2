//! The edges that document 01 names.

use super::run::{expand, init, set_priority, Run};
use super::small_set::begun;
use super::Script;
use crate::model::Step::{Bind, Mask, Raise, Tell, Unmask};

pub const SCRIPTS: &[Script] = &[
    ("Offsets 4020, 4032 and 4024", offsets),
    ("Priorities 16 and 15", priorities),
];

/// Those that need the whole array.
pub const LARGE: &[Script] = &[("Page 128 and the next, ports 131071 and 131072", last_page)];

fn offsets(run: &mut Run) {
    run.calls(&[4020, 4032, 4024, 4024].map(|offset| init(0, 1, 8, offset)));
}

fn priorities(run: &mut Run) {
    begun(run);
    run.calls(&[Bind(5), set_priority(5, 16), set_priority(5, 15), Raise(5)]);
    run.service();
}

/// Page 128 is accepted and the next is not; port 131,071 is the last.
fn last_page(run: &mut Run) {
    run.calls(&[init(0, 1, 8, 0)]).calls(&[expand(2, 8); 129]);
    run.step(Tell(131_072));
    run.calls(&[Bind(131_071), Raise(131_071)]);
    run.step(Mask(131_071)).calls(&[Unmask(131_071)]).service();
    run.calls(&[Bind(131_072), Raise(131_072)]);
    run.step(Mask(131_072));
}
