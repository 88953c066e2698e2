//! Every interleaving of a small world: two ports, two queues, one page. The four parts are
//! judged after every step, part 3 from one step to the next, and where BUSY stands; wherever no
//! call of the guest's is under way, the services that follow; and the longest call.

use evtchn_fifo_host::model::claims::{all_parts, misplaced_busy, served_in_turn, Flows, Queues};
use evtchn_fifo_host::model::{Event, Faults, Model, Next, Side, Step, World};
use std::collections::HashSet;
use std::hash::{Hash, Hasher};

/// Every step that can change the small world.
fn steps() -> Vec<Step> {
    let mut steps = vec![
        Step::Service,
        Step::Access(Side::Hypervisor),
        Step::Access(Side::Guest),
    ];
    for port in [1, 2] {
        steps.extend([
            Step::Raise(port),
            Step::Unmask(port),
            Step::Mask(port),
            Step::ClearMask(port),
            Step::Bind(port),
            Step::Close(port),
            Step::SetPriority { port, priority: 0 },
            Step::SetPriority { port, priority: 7 },
        ]);
    }
    steps
}

/// Block given, one page, told; nothing bound. Three words are lent.
fn start(model: Model) -> World {
    let mut world = World::fresh(model, 3, 3);
    world.step(crate::support::init());
    world.step(crate::support::expand());
    world.step(Step::Tell(1024));
    world
}

/// Two hashes of what is written, each of 64 bits.
struct TwoHashes([u64; 2]);

impl Hasher for TwoHashes {
    fn write(&mut self, bytes: &[u8]) {
        for part in bytes.chunks(8) {
            let mut number = [0; 8];
            number[..part.len()].copy_from_slice(part);
            self.write_u64(u64::from_le_bytes(number));
        }
    }

    fn write_u8(&mut self, number: u8) {
        self.write_u64(number.into());
    }

    fn write_u32(&mut self, number: u32) {
        self.write_u64(number.into());
    }

    fn write_u64(&mut self, number: u64) {
        let mix = |hash: u64, factor| {
            let mixed = (hash ^ number).wrapping_mul(factor);
            mixed ^ mixed >> 29
        };
        let [one, other] = self.0;
        self.0 = [
            mix(one, 0x9E37_79B9_7F4A_7C15),
            mix(other, 0xD6E8_FEB8_6659_FD93),
        ];
    }

    fn finish(&self) -> u64 {
        self.0[0]
    }
}

/// Two hashes of a world without its counts, but for that of the hypervisor's call.
fn key(world: &World) -> [u64; 2] {
    let domain = world.domain;
    let mut guest = world.guest;
    guest.call.iter_mut().for_each(|call| call.count = 0);
    let clearing = guest.clearing.iter_mut();
    clearing.for_each(|clearing| clearing.count = 0);
    let mut hashes = TwoHashes([1, 2]);
    (&world.memory, &world.ledger, domain, guest).hash(&mut hashes);
    hashes.0
}

/// Makes `after` the same world, which lends as much.
fn copy(world: &World, after: &mut World) {
    after.memory.words.copy_from_slice(&world.memory.words);
    after.memory.control.clone_from(&world.memory.control);
    after.ledger.copy_from_slice(&world.ledger);
    (after.domain, after.guest) = (world.domain, world.guest);
}

/// What a visit met.
#[derive(Debug, Default)]
pub struct Visited {
    pub worlds: usize,
    /// Most accesses of a call of the hypervisor's.
    longest: u32,
    /// Worlds from which services were followed.
    served: usize,
}

/// One step into `after`, with the four parts after it; whether the step changes anything.
fn judged(
    world: &World,
    before: &Queues,
    step: Step,
    after: &mut World,
    visited: &mut Visited,
) -> Result<bool, String> {
    copy(world, after);
    let stepped = after.step(step);
    let events = stepped.events;
    let accessed = |event: &Event| matches!(event, Event::Accessed(_));
    if !events.iter().any(accessed) && after == world {
        return Ok(false);
    }
    if let (Step::Access(Side::Hypervisor), Next::Answer(_, count)) = (step, stepped.next) {
        visited.longest = visited.longest.max(count);
    }
    let mut flows = Flows::standing(before);
    events.iter().for_each(|event| flows.note(event));
    all_parts(after, &flows).map_err(|broken| format!("{step:?}: {broken:?}"))?;
    match misplaced_busy(after) {
        Some(port) => Err(format!("{step:?}: BUSY of {port:?}")),
        None => Ok(true),
    }
}

/// Where no call of the guest's is under way, its services take the ports in turn.
fn follow(world: &World, after: &mut World, visited: &mut Visited) -> Result<(), String> {
    if world.guest.is_under_way() {
        return Ok(());
    }
    visited.served += 1;
    copy(world, after);
    served_in_turn(after)
}

/// Visits worlds until none is new or `limit` are met.
pub fn visit(model: Model, limit: usize) -> Result<Visited, String> {
    let steps = steps();
    let first = start(model);
    let mut after = first.clone();
    let mut met = HashSet::from([key(&first)]);
    let mut waiting = vec![first];
    let mut visited = Visited::default();
    while !waiting.is_empty() && met.len() < limit {
        let mut found = Vec::new();
        for world in &waiting {
            follow(world, &mut after, &mut visited)?;
            let before = Queues::of(world).map_err(|error| format!("{error:?}"))?;
            for step in &steps {
                let changes = judged(world, &before, *step, &mut after, &mut visited)?;
                if changes && met.insert(key(&after)) {
                    found.push(after.clone());
                }
            }
        }
        waiting = found;
    }
    visited.worlds = met.len();
    Ok(visited)
}

/// Ten accesses of a raise are met, and none takes more.
#[test]
fn small_world_keeps_the_claims() {
    let limit = 6_000_000;
    let visited = visit(Model::default(), limit);
    println!("{visited:?}");
    let visited = visited.unwrap_or_else(|text| panic!("{text}"));
    assert!(visited.worlds < limit);
    assert_eq!(visited.longest, 10);
    assert!(visited.served > 100_000);
}

#[test]
fn small_world_needs_the_lowest_queue() {
    for fault in [Faults::HighestQueue, Faults::NewBitsFirst] {
        let broken = visit(Model::new(fault), 1_000_000);
        println!("{fault:?}: {broken:?}");
        assert!(broken.is_err_and(|text| text.contains("takes Some")));
    }
}

#[test]
fn small_world_needs_the_rule_on_tails_left_behind() {
    for fault in [Faults::StaleTailTest, Faults::CloseClearsLinked] {
        let broken = visit(Model::new(fault), 1_000_000);
        println!("{fault:?}: {broken:?}");
        assert!(broken.is_err());
    }
}

#[test]
fn small_world_needs_busy_and_its_clearing() {
    for fault in [
        Faults::ClearIgnoresPending,
        Faults::ClearStores,
        Faults::ClearIgnoresBusy,
        Faults::ReplyToService,
        Faults::BusyLeftAtHead,
        Faults::CasKeepsBusy,
    ] {
        let broken = visit(Model::new(fault), 2_000_000);
        println!("{fault:?}: {broken:?}");
        assert!(broken.is_err());
    }
}
