//! Cables of a system of forty domains: sends both ways, closes at once and under way, and what is
//! laid, cut and sent meanwhile.

use crate::support::{expand, init, X};
use evtchn_fifo_host::model::cables::{Cables, Refusal, System, Which, SLOTS};
use evtchn_fifo_host::model::{Answer, Entry, Next, Owner, Step};

const NO_HINT: u32 = SLOTS as u32;
/// In the array.
const A: (u64, u64) = (3, 5);
const B: (u64, u64) = (39, 9);
/// Outside the array.
const OUTSIDE: (u64, u64) = (0, 1500);

/// Domains 0, 3 and 39 with one page; the ports above and 7 of each are bound.
fn system() -> System {
    let mut system = System::fresh(Cables::default(), 2048, 2000);
    for domain in [0, 3, 39] {
        system.step(domain, init());
        system.step(domain, expand());
        system.step(domain, Step::Tell(1024));
        for port in [5, 7, 9, 1500] {
            system.step(domain, Step::Bind(port));
            system.step(domain, Step::Access(X));
        }
    }
    system
}

/// The same with a cable between A and B.
fn joined() -> System {
    let mut system = system();
    assert_eq!(system.lay(A, B), Ok(0));
    system
}

fn number(next: Next) -> Option<u32> {
    match next {
        Next::Answer(answer, _) => Some(answer.number()),
        Next::Access(_) => None,
    }
}

/// What a send comes to: the far raise's answer, none where it has begun.
fn send(system: &mut System, near: (u64, u64)) -> Result<Option<u32>, u32> {
    let sent = system.send(near, NO_HINT);
    sent.map(number).map_err(Refusal::number)
}

/// The domain's call to its answer.
fn finish(system: &mut System, domain: u64) -> Option<u32> {
    (0..12).find_map(|_| number(system.step(domain, Step::Access(X))))
}

#[test]
fn a_send_on_one_end_is_a_raise_of_the_other() {
    let mut system = joined();
    assert_eq!(send(&mut system, A), Ok(None));
    let call = system.worlds[39].domain.call.expect("a raise");
    assert_eq!((call.owner, u64::from(call.port.0)), (Owner::Raise, B.1));
    assert_eq!(send(&mut system, A), Ok(Some(15)));
    assert_eq!(finish(&mut system, 39), Some(1));
    assert_eq!(system.worlds[39].memory.words[9] >> 31, 1);
    assert_eq!(send(&mut system, B), Ok(None));
    assert_eq!(finish(&mut system, 3), Some(1));
    assert_eq!(send(&mut system, (3, 7)), Err(26));
}

#[test]
fn a_send_goes_through_while_the_near_domain_is_busy() {
    let mut system = joined();
    system.step(3, Step::Raise(7));
    assert_eq!(send(&mut system, A), Ok(None));
}

#[test]
fn beyond_the_array_a_cable_is_laid_and_a_send_gives_6() {
    let mut system = system();
    assert_eq!(system.lay(A, OUTSIDE), Ok(0));
    assert_eq!(send(&mut system, A), Ok(Some(6)));
    assert_eq!(send(&mut system, OUTSIDE), Ok(None));
}

#[test]
fn an_end_belongs_to_one_cable() {
    let mut system = joined();
    let taken = |which| Err(Refusal::Taken(which));
    assert_eq!(system.lay(A, (0, 5)), taken(Which::Near));
    assert_eq!(system.lay((0, 5), A), taken(Which::Far));
    assert_eq!(system.lay(B, A), taken(Which::Near));
    assert_eq!(system.lay((0, 5), (3, 7)), Ok(1));
    assert_eq!(system.lay((3, 9), (3, 7)), Err(Refusal::SameDomain));
}

#[test]
fn a_cut_from_either_end_frees_the_slot() {
    for end in [A, B] {
        let mut system = joined();
        assert_eq!(system.lay((0, 5), (3, 7)), Ok(1));
        assert_eq!(system.cut(end), Ok(()));
        assert_eq!(system.cut(end), Err(Refusal::NoCable));
        assert_eq!(
            (send(&mut system, A), send(&mut system, B)),
            (Err(26), Err(26))
        );
        assert_eq!(system.lay((0, 7), B), Ok(0));
    }
}

#[test]
fn a_full_table_and_slots_used_again() {
    let mut system = system();
    for domain in [1, 2] {
        system.step(domain, init());
        for port in 1..=1100 {
            system.step(domain, Step::Bind(port));
        }
    }
    for port in 1..=1024 {
        assert_eq!(system.lay((1, port), (2, port)), Ok(port as usize - 1));
    }
    assert_eq!(system.lay((1, 1025), (2, 1025)), Err(Refusal::TableFull));
    let taken = Err(Refusal::Taken(Which::Far));
    assert_eq!(system.lay((1, 1025), (2, 1024)), taken);
    assert_eq!(system.cut((2, 700)), Ok(()));
    assert_eq!(number(system.step(1, Step::Close(800))), Some(0));
    assert_eq!(system.lay((1, 1025), (2, 1025)), Ok(699));
    assert_eq!(system.lay((2, 800), (1, 1026)), Ok(799));
    assert_eq!(system.lay((1, 1027), (2, 1027)), Err(Refusal::TableFull));
}

#[test]
fn a_close_beyond_the_array_cuts_at_once() {
    let mut system = system();
    system.lay(A, OUTSIDE).expect("a cable");
    assert_eq!(number(system.step(0, Step::Close(1500))), Some(0));
    assert_eq!(send(&mut system, A), Err(26));
    assert_eq!(number(system.step(0, Step::Bind(1500))), Some(0));
    assert_eq!(send(&mut system, A), Err(26));
}

#[test]
fn a_close_in_the_array_cuts_at_its_reply() {
    let mut system = joined();
    assert_eq!(number(system.step(39, Step::Close(9))), None);
    assert_eq!(send(&mut system, A), Ok(Some(15)));
    assert_eq!(send(&mut system, B), Ok(None));
    assert_eq!(finish(&mut system, 39), Some(0));
    assert_eq!(send(&mut system, A), Err(26));
    assert_eq!(send(&mut system, B), Err(4));
}

#[test]
fn a_refused_close_cuts_nothing() {
    let mut system = joined();
    system.step(39, Step::Raise(7));
    assert_eq!(number(system.step(39, Step::Close(9))), Some(15));
    finish(&mut system, 39);
    assert_eq!(send(&mut system, A), Ok(None));
}

#[test]
fn laid_or_cut_while_the_close_is_under_way() {
    let mut system = joined();
    system.step(39, Step::Close(9));
    assert_eq!(system.cut(B), Ok(()));
    assert_eq!(system.lay(B, (0, 5)), Ok(0));
    assert_eq!(finish(&mut system, 39), Some(0));
    assert_eq!(send(&mut system, (0, 5)), Err(26));
    let mut system = joined();
    system.step(39, Step::Close(9));
    assert_eq!(system.cut(A), Ok(()));
    assert_eq!(finish(&mut system, 39), Some(0));
}

#[test]
fn a_reply_refused_with_14_cuts_only_when_it_is_handed_back() {
    let mut system = joined();
    system.step(39, Step::Close(9));
    let whole = system.worlds[39].ledger.clone();
    system.worlds[39].ledger.truncate(9);
    let back = Step::HandBack(X, 0);
    assert_eq!(number(system.step(39, back)), Some(14));
    assert_eq!(send(&mut system, A), Ok(Some(15)));
    system.worlds[39].ledger = whole;
    assert_eq!(number(system.step(39, back)), Some(0));
    assert_eq!(send(&mut system, A), Err(26));
}

#[test]
fn a_close_whose_entry_is_already_unbound_cuts() {
    let mut system = joined();
    system.step(39, Step::Close(9));
    system.worlds[39].ledger[9] = Entry::FRESH;
    assert_eq!(finish(&mut system, 39), Some(0));
    assert_eq!(send(&mut system, A), Err(26));
}

#[test]
fn a_send_that_has_come_through_is_the_far_domains_own() {
    let mut system = joined();
    assert_eq!(send(&mut system, A), Ok(None));
    system.step(3, Step::Close(5));
    assert_eq!(finish(&mut system, 3), Some(0));
    assert_eq!(send(&mut system, B), Err(26));
    assert_eq!(finish(&mut system, 39), Some(1));
}

#[test]
fn only_a_closes_reply_cuts() {
    let mut system = joined();
    for call in [Step::Raise(9), Step::Unmask(9)] {
        system.step(39, call);
        finish(&mut system, 39);
    }
    assert_eq!(number(system.step(39, Step::Bind(9))), Some(5));
    let priority = 3;
    system.step(39, Step::SetPriority { port: 9, priority });
    system.step(39, expand());
    assert_eq!(send(&mut system, A), Ok(None));
    let mut lone = system.table.slots().iter().filter_map(|slot| slot.cable());
    assert_eq!((lone.next().is_some(), lone.next()), (true, None));
}

#[test]
fn a_number_of_40_or_more_is_never_cut() {
    let mut system = joined();
    let before = system.worlds[39].domain;
    let (table, done) = (&mut system.table, Next::Answer(Answer::Done, 0));
    for number in [39 + 4096, 39 + (1 << 32), u64::MAX, 40] {
        let step = Step::Close(9);
        system.cables.follow(table, number, &before, step, done);
    }
    assert_eq!(send(&mut system, A), Ok(None));
}
