//! The table of cables: which slots hold one, look-up with a hint, and which slot is free.

use evtchn_fifo_host::model::cables::{End, Slot, Table, SLOTS};

const NO_HINT: u32 = SLOTS as u32;

fn end(domain: u64, port: u64) -> End {
    End::of(domain, port).expect("an end")
}

#[test]
fn an_end_is_a_port_of_one_of_forty_domains() {
    let there = [(0, 1), (39, 1), (39, (1 << 20) - 1), (0, 131_072)];
    assert!(there.iter().all(|(d, p)| End::of(*d, *p).is_some()));
    let not = [
        (40, 1),
        (0, 0),
        (0, 1 << 20),
        (1 << 32, 1),
        (u64::MAX, 5),
        (3, u64::MAX),
    ];
    assert!(not.iter().all(|(d, p)| End::of(*d, *p).is_none()));
    assert_eq!(end(39, 5).number(), 39 * 1_048_576 + 5);
    assert_eq!(End::from_number(39 << 20 | 5), Some(end(39, 5)));
    let none = [0, 1 << 20, 39 << 20, 40 << 20 | 5, u32::MAX];
    assert!(none.iter().all(|n| End::from_number(*n).is_none()));
}

#[test]
fn a_slot_holds_a_cable_exactly_if_both_numbers_are_ends() {
    let (a, b) = (end(1, 5), end(2, 6));
    assert_eq!(Slot::of(a, b).cable(), Some([a, b]));
    let free = [[0, 0], [a.number(), 0], [0, b.number()]];
    let junk = [[40 << 20 | 5, b.number()], [a.number(), 1 << 20]];
    for numbers in free.into_iter().chain(junk) {
        assert_eq!(Slot(numbers).cable(), None);
        assert!(!Slot(numbers).has(a) && !Slot(numbers).has(b));
    }
}

#[test]
fn across_a_cable() {
    let (a, b) = (end(1, 5), end(2, 5));
    let there = [Slot::of(a, b).across(a), Slot::of(a, b).across(b)];
    assert_eq!(there, [Some(b), Some(a)]);
    assert_eq!(Slot::of(a, b).across(end(3, 5)), None);
    assert_eq!(Slot::of(a, a).across(a), Some(a));
}

#[test]
fn the_hinted_slot_if_it_has_the_end_else_the_lowest() {
    let (a, b, c) = (end(1, 5), end(2, 6), end(3, 7));
    let mut table = Table::default();
    table.put(3, Slot([a.number(), 0]));
    table.put(4, Slot::of(a, b));
    table.put(9, Slot::of(c, a));
    table.put(1023, Slot::of(b, c));
    let find = |end, hint| table.find(end, hint);
    let hints = [4, 9, 3, 1023, 0, NO_HINT, 1025, u32::MAX];
    let found = hints.map(|hint| find(a, hint));
    let lowest = Some(4);
    assert_eq!(found[..2], [Some(4), Some(9)]);
    assert!(found[2..].iter().all(|slot| *slot == lowest));
    assert_eq!(find(b, 1023), Some(1023));
    assert_eq!(find(end(1, 6), 4), None);
}

#[test]
fn every_slot_that_has_the_end_becomes_free() {
    let (a, b, c) = (end(1, 5), end(2, 6), end(3, 7));
    let half = Slot([a.number(), 40 << 20]);
    let mut table = Table::default();
    let slots = [
        Slot::of(a, b),
        Slot::of(b, c),
        half,
        Slot::of(c, a),
        Slot::of(a, a),
    ];
    slots
        .iter()
        .enumerate()
        .for_each(|(at, slot)| table.put(at, *slot));
    table.free_every(a);
    let wanted = [Slot::FRESH, Slot::of(b, c), half, Slot::FRESH, Slot::FRESH];
    assert_eq!(table.slots()[..5], wanted);
    assert_eq!(table.lowest_free(), Some(0));
}

#[test]
fn the_lowest_free_slot_may_have_other_numbers() {
    let mut table = Table::new([Slot::of(end(1, 5), end(2, 6)); SLOTS]);
    assert_eq!(table.lowest_free(), None);
    table.put(700, Slot([end(1, 5).number(), 0]));
    table.put(800, Slot::FRESH);
    assert_eq!(table.lowest_free(), Some(700));
}
