//! Counts of what a run met, and which of them must be met.

use super::branches::{of_reply, of_service_reply, Point, POINTS};
use super::clearing::{of_clear_reply, of_guest_step};
use super::linking::of_refused;
use super::pair::Before;
use super::rows::{given, row, Ended, Row, GIVEN, NAMES_ACCESS, ROWS};
use crate::model::machine::Stepped;
use crate::model::{Answer, ClearMask, Next, Owner, Service, Side, Step};

/// How often each must be met.
pub const WANTED: u64 = 1_000;

/// Places where a stored count is at its top value.
const SATURATED: [&str; 6] = [
    "saturated count: in an answer of the hypervisor's",
    "saturated count: stays when its call names an access",
    "saturated count: in an answer of a service's",
    "saturated count: stays when a service names an access",
    "saturated count: in an answer of a clear_mask's",
    "saturated count: stays when a clear_mask names its cas",
];

/// The longest calls of runs from fresh records.
const LONGEST: [&str; 6] = [
    "from fresh records: an answer after twelve accesses",
    "from fresh records: answer 2 after ten accesses",
    "from fresh records: a call's answer after eleven",
    "from fresh records: a service's answer after five",
    "from fresh records: a clear_mask's answer after one",
    "from fresh records: a clear_mask's answer after two",
];

/// Of a guest that keeps the rules: how long a raise gets, and what its services alone go through.
#[derive(Clone, Copy, Debug, PartialEq, Eq)]
#[allow(missing_docs)]
pub enum Kept {
    Seven,
    Eight,
    Nine,
    Ten,
    NothingStands,
    SeveralQueues,
    SeveralPorts,
    LeftOver,
    Standing,
    Taken,
}

const KEPT: [&str; 10] = [
    "rules kept: a raise of seven accesses",
    "rules kept: a raise of eight",
    "rules kept: a raise of nine",
    "rules kept: a raise of ten",
    "services alone: nothing stands",
    "services alone: on two queues or more",
    "services alone: four ports or more",
    "services alone: a local bit below READY's lowest",
    "services alone: while a raise stands where it is",
    "services alone: 21 among their answers",
];

/// Slices that are longer than needed.
const LONGER: [&str; 6] = [
    "longer slice: a domain's record, in a step",
    "longer slice: a guest's record, in a step",
    "longer slice: a ledger's last odd byte, in a step",
    "longer slice: a domain's record, made fresh",
    "longer slice: a guest's record, made fresh",
    "longer slice: a ledger's last odd byte, made fresh",
];

/// What a run met.
#[derive(Clone, Debug)]
pub struct Coverage {
    /// Steps made.
    pub steps: u64,
    given: [[u64; GIVEN]; ROWS.len()],
    points: Vec<u64>,
    saturated: [u64; SATURATED.len()],
    longer: [u64; LONGER.len()],
    longest: [u64; LONGEST.len()],
    kept: [u64; KEPT.len()],
    /// For each row, how often a refusal was given while the next one's line held too.
    pairs: [[u64; 8]; ROWS.len()],
    ended: Ended,
    /// The service that stood while a clear_mask ended.
    waited: Option<Service>,
}

impl Default for Coverage {
    fn default() -> Self {
        Coverage {
            steps: 0,
            given: [[0; GIVEN]; ROWS.len()],
            points: vec![0; POINTS.len()],
            saturated: [0; SATURATED.len()],
            longer: [0; LONGER.len()],
            longest: [0; LONGEST.len()],
            kept: [0; KEPT.len()],
            pairs: [[0; 8]; ROWS.len()],
            ended: Ended {
                owner: Owner::Bind,
                clear_mask: false,
            },
            waited: None,
        }
    }
}

impl Coverage {
    /// Counts a step.
    pub fn note(&mut self, before: &Before, step: Step, seen: u32, stepped: &Stepped) {
        self.steps += 1;
        let row = row(before, step, self.ended);
        self.given[row as usize][given(stepped.next) as usize] += 1;
        match step {
            Step::Access(Side::Hypervisor) | Step::HandBack(Side::Hypervisor, _) => {
                self.note_reply(before, seen, stepped.next);
            }
            Step::Access(Side::Guest) | Step::HandBack(Side::Guest, _) => {
                self.note_guest_reply(before, seen, stepped.next);
            }
            _ => {
                let point = of_guest_step(&before.guest, step, stepped.next);
                point.into_iter().for_each(|p| self.meet(p));
            }
        }
    }

    /// Counts a step of a run from fresh records by how many accesses its call made.
    /// `clearing`: whether a clear_mask was under way before it.
    pub fn note_longest(&mut self, step: Step, clearing: bool, next: Next) {
        let Next::Answer(answer, count) = next else {
            return;
        };
        let guest = matches!(
            step,
            Step::Access(Side::Guest) | Step::HandBack(Side::Guest, _)
        );
        let met = match (guest, clearing, answer, count) {
            (false, _, _, 12) => 0,
            (false, _, Answer::LinkAbandoned, 10) => 1,
            (false, _, _, 11) => 2,
            (true, false, _, 5) => 3,
            (true, true, _, 1) => 4,
            (true, true, _, 2) => 5,
            _ => return,
        };
        self.longest[met] += 1;
    }

    /// Counts a raise of a guest that keeps the rules by how many accesses it made.
    pub fn note_kept_length(&mut self, count: u32) {
        match count {
            7 => self.meet_kept(Kept::Seven),
            8 => self.meet_kept(Kept::Eight),
            9 => self.meet_kept(Kept::Nine),
            10 => self.meet_kept(Kept::Ten),
            _ => {}
        }
    }

    /// Counts what was met with a guest that keeps the rules.
    pub fn meet_kept(&mut self, kept: Kept) {
        self.kept[kept as usize] += 1;
    }

    /// Counts a step's slices.
    pub fn note_step_slices(&mut self, longer: [bool; 3]) {
        add_all(&mut self.longer[..3], &longer.map(u64::from));
    }

    /// Counts the slices of records and a ledger made fresh.
    pub fn note_fresh_slices(&mut self, longer: [bool; 3]) {
        add_all(&mut self.longer[3..], &longer.map(u64::from));
    }

    fn note_reply(&mut self, before: &Before, seen: u32, next: Next) {
        let Some(call) = before.domain.call else {
            return;
        };
        let Some(entry) = before.entry else {
            of_refused(&call).into_iter().for_each(|p| self.meet(p));
            return;
        };
        let points = of_reply(before, &call, entry, seen);
        points.into_iter().flatten().for_each(|p| self.meet(p));
        if let Next::Answer(..) = next {
            self.ended.owner = call.owner;
        }
        if call.count == u32::MAX {
            self.saturated[usize::from(is_access(next))] += 1;
        }
    }

    fn note_guest_reply(&mut self, before: &Before, seen: u32, next: Next) {
        match (before.guest.clearing, before.guest.call) {
            (Some(clearing), service) => self.note_clear_reply(&clearing, service, seen, next),
            (None, Some(service)) => self.note_service_reply(before, service, seen, next),
            (None, None) => {}
        }
    }

    fn note_service_reply(&mut self, before: &Before, service: Service, seen: u32, next: Next) {
        self.meet(of_service_reply(&before.guest, service.stage, seen));
        if self.waited.take() == Some(service) {
            self.meet(Point::ServiceGoesOn);
        }
        if let Next::Answer(..) = next {
            self.ended.clear_mask = false;
        }
        if service.count == u32::MAX {
            self.saturated[2 + usize::from(is_access(next))] += 1;
        }
    }

    fn note_clear_reply(
        &mut self,
        clearing: &ClearMask,
        service: Option<Service>,
        seen: u32,
        next: Next,
    ) {
        self.meet(of_clear_reply(clearing, seen));
        if service.is_some() {
            self.meet(Point::ServiceWaits);
        }
        if let Next::Answer(..) = next {
            self.waited = service;
            self.ended.clear_mask = true;
        }
        if clearing.count == u32::MAX {
            self.saturated[4 + usize::from(is_access(next))] += 1;
        }
    }

    fn meet(&mut self, point: Point) {
        self.points[point as usize] += 1;
    }

    /// Counts an input for which the lines `at` and `at + 1` of a row both held and none before.
    pub fn note_pair(&mut self, row: Row, at: usize) {
        self.pairs[row as usize][at] += 1;
    }

    /// Adds the counts of another run.
    pub fn add(&mut self, other: &Coverage) {
        self.steps += other.steps;
        add_all(self.given.as_flattened_mut(), other.given.as_flattened());
        add_all(&mut self.points, &other.points);
        add_all(&mut self.saturated, &other.saturated);
        add_all(&mut self.longer, &other.longer);
        add_all(&mut self.longest, &other.longest);
        add_all(&mut self.kept, &other.kept);
        add_all(self.pairs.as_flattened_mut(), other.pairs.as_flattened());
    }

    /// Everything that must be met, with how often it was; the same order for every run.
    pub fn counts(&self) -> Vec<(String, u64)> {
        let mut counts = Vec::new();
        for (row, name, gives) in ROWS {
            for number in gives {
                let what = what_is_given(*number);
                let times = self.given[row as usize][*number as usize];
                counts.push((format!("{name}: {what}"), times));
            }
        }
        for (row, name, gives) in ROWS {
            for (at, pair) in refusals(gives).windows(2).enumerate() {
                let times = self.pairs[row as usize][at];
                counts.push((format!("{name}: {} before {}", pair[0], pair[1]), times));
            }
        }
        let points = POINTS.iter().map(|(_, name)| name.to_string());
        counts.extend(points.zip(self.points.iter().copied()));
        let saturated = SATURATED.iter().map(|name| name.to_string());
        counts.extend(saturated.zip(self.saturated));
        let longer = LONGER.iter().map(|name| name.to_string());
        counts.extend(longer.zip(self.longer));
        let longest = LONGEST.iter().map(|name| name.to_string());
        counts.extend(longest.zip(self.longest));
        let kept = KEPT.iter().map(|name| name.to_string());
        counts.extend(kept.zip(self.kept));
        counts
    }
}

/// The refusals of a row, in their order.
pub fn refusals(gives: &[u32]) -> Vec<u32> {
    let is_refusal = |number: &&u32| matches!(number, 3..=18);
    gives.iter().filter(is_refusal).copied().collect()
}

fn what_is_given(number: u32) -> String {
    match number {
        NAMES_ACCESS => "names an access".to_string(),
        _ => format!("answer {number}"),
    }
}

fn add_all(to: &mut [u64], from: &[u64]) {
    to.iter_mut().zip(from).for_each(|(a, b)| *a += b);
}

fn is_access(next: Next) -> bool {
    matches!(next, Next::Access(_))
}
