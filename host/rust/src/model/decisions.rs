//! What the documents leave undecided, decided in one place each.

// Decisions
//
// Records that no run from fresh records makes:
//  D1  `queue_value`, `set_queue_value`: a queue above 15 in a call under way has no tail and no
//      head: it reads 0 and nothing is changed.
//  D2  `ready_bit`: its bit in READY and in the local bits is bit (queue modulo 16).
//  D3  `head_place`: HEAD's queue is named as stored, not reduced.
//  D4  `link_of`: LINK of a port of more than 17 bits is the port modulo 2^17. R5 stores the
//      whole port.
//  D5  `tail_place`: R3, R4 and the accesses that set and clear BUSY are on word T[queue] of the
//      record as it stands, also where that is 0 or outside the array; no tail is kept in the
//      call.
//  D6  `last_try`, `first_try`: tries (number of cas named so far) are compared with >= 5; 0 and 1
//      are the first cas, after which BUSY is not yet set.
//  D7  `one_more`: the stored count is of accesses named so far, in 32 bits, and stays at 2^32-1.
//  D8  `local_bits`: local bits held in 32 bits are reduced modulo 65,536 at G0 and only there;
//      18 and G2 clear one bit and keep the others as found.
//  D9  `FlatCall::call`: a flat call whose owner is none is no call under way (reply gives 16, a
//      start is accepted); any other pair of owner and stage follows the stage; a stage reads the
//      fields that it needs, whatever the rest hold. The owner is carried along unchanged.
//  D10 `Model::tail`: a tail is none where it is 0 and nowhere else (document 02, T-11), both in
//      "T[q] is none or p" and in "that queue's tail is p"; one at or beyond the array's end is a
//      tail like any other.
//  D11 R4 on a record whose old word lacks LINKED, or from the second try on BUSY: the cas is
//      named and judged like any other. So is a clear_mask's cas whose old word lacks MASKED.
//  D12 A reply tests 16 and 14 and nothing else; a port of 0 or beyond the limit uses its entry
//      where the lent ledger has one.
//
// Readings of the text:
//  D13 14 is given at every reply of the hypervisor's calls whose port has no entry.
//  D14 At 18 in G0's reply the merge of READY into the local bits stands.
//  D15 The guest's reach is its number of words alone, also above 131,072; only mask and
//      clear_mask have a 3.
//  D16 `saturated`: tell takes a number of words above 2^32-1 as 2^32-1.
//  D17 Where an entry is missing, "port not bound" is not asked: 14 comes first.
//  D22 "Every cas's new word" clears BUSY: the first one's too, though only a guest can have set
//      it there.
//  D23 "The word then standing" after the or is the word that it saw, with BUSY. Where that lacks
//      LINKED no cas follows: the and, then R5.
//  D24 The word that the and sees is ignored. For answer 2 T[q] becomes p with the and's reply.
//  D25 A clear_mask may begin while a service is under way. Until its answer the guest's reply and
//      the access due are its own; 16 is given where neither is under way.
//
// The stepped machine:
//  D18 An access outside what is lent sees 0 and changes nothing.
//  D19 A step of a side that has no call under way is a reply of 0 (it gives 16).
//  D20 An access whose reply is refused with 14 has been made; the log has its line with the
//      reply that is accepted later, once.
//  D21 An expand that adds page k sets the words of it that are lent to 0.

use super::access::Place;
use super::domain::Domain;
use super::kinds::{Port, Queue, QUEUES};
use super::word::LINK_BITS;

/// Number of the first cas, which alone is made before BUSY is set.
pub const FIRST_TRY: u32 = 1;
/// Number of the first cas after BUSY is set.
pub const SECOND_TRY: u32 = 2;
/// Number of cas after which a link is abandoned.
pub const TRY_LIMIT: u32 = 5;

/// Sixteen numbers, one a queue: tails or heads.
pub type QueueValues = [u32; QUEUES as usize];

/// D1: the queue's number; 0 where the queue is none of the sixteen.
pub fn queue_value(values: &QueueValues, queue: Queue) -> u32 {
    values.get(queue.0 as usize).copied().unwrap_or(0)
}

/// D1: sets the queue's number, where the queue is one of the sixteen.
pub fn set_queue_value(values: &mut QueueValues, queue: Queue, value: u32) {
    if let Some(place) = values.get_mut(queue.0 as usize) {
        *place = value;
    }
}

/// D2: the queue's bit in READY and in the local bits.
pub fn ready_bit(queue: Queue) -> u32 {
    1 << (queue.0 % QUEUES)
}

/// D3: the place HEAD of a queue.
pub fn head_place(queue: Queue) -> Place {
    Place::Head(queue)
}

/// D4: the port as a LINK.
pub fn link_of(port: Port) -> Port {
    Port(port.0 % (1 << LINK_BITS))
}

/// D5: the place of R3, R4 and BUSY.
pub fn tail_place(domain: &Domain, queue: Queue) -> Place {
    Place::Word(Port(queue_value(&domain.tails, queue)))
}

/// D6: whether no further cas may be named.
pub fn last_try(tries: u32, limit: u32) -> bool {
    tries >= limit
}

/// D6: whether the cas just made was the first.
pub fn first_try(tries: u32) -> bool {
    tries <= FIRST_TRY
}

/// D7: the stored count after one access more.
pub fn one_more(count: u32) -> u32 {
    count.saturating_add(1)
}

/// D8: the local bits that G0 works with.
pub fn local_bits(bits: u32) -> u32 {
    bits % (1 << QUEUES)
}

/// D16: a number of words in 32 bits.
pub fn saturated(words: u64) -> u32 {
    u32::try_from(words).unwrap_or(u32::MAX)
}
