//! The table of cables: 1,024 slots with any contents, and the ends that they have.

/// Number of domains.
pub const DOMAINS: u64 = 40;
/// Number of slots.
pub const SLOTS: usize = 1024;
/// The least number that no end has as its port.
const PORTS: u64 = 1 << 20;

/// A port of a domain: the domain is below 40, the port is not 0 and below 2^20.
#[derive(Clone, Copy, Debug, PartialEq, Eq, PartialOrd, Ord, Hash)]
pub struct End {
    domain: u32,
    port: u32,
}

/// A slot as it stands: two numbers, each an end's or not.
#[derive(Clone, Copy, Debug, PartialEq, Eq)]
pub struct Slot(pub [u32; 2]);

/// The slots.
#[derive(Clone, Debug, PartialEq, Eq)]
pub struct Table {
    slots: [Slot; SLOTS],
}

impl End {
    /// The end of a port of a domain, where there is one.
    pub fn of(domain: u64, port: u64) -> Option<Self> {
        let is_end = domain < DOMAINS && port != 0 && port < PORTS;
        is_end.then_some(End {
            domain: domain as u32,
            port: port as u32,
        })
    }

    /// The end that a number stands for.
    pub fn from_number(number: u32) -> Option<Self> {
        let number = u64::from(number);
        End::of(number / PORTS, number % PORTS)
    }

    /// The end as one number.
    pub fn number(self) -> u32 {
        self.domain * PORTS as u32 + self.port
    }

    /// Its domain.
    pub fn domain(self) -> u32 {
        self.domain
    }

    /// Its port.
    pub fn port(self) -> u32 {
        self.port
    }
}

impl Slot {
    /// A slot of a fresh table.
    pub const FRESH: Slot = Slot([0; 2]);

    /// The slot of a cable.
    pub fn of(first: End, second: End) -> Self {
        Slot([first.number(), second.number()])
    }

    /// The cable: a slot holds one exactly if both its numbers are ends. Any other slot is free.
    pub fn cable(self) -> Option<[End; 2]> {
        let [first, second] = self.0;
        Some([End::from_number(first)?, End::from_number(second)?])
    }

    /// Whether its cable has the end.
    pub fn has(self, end: End) -> bool {
        self.across(end).is_some()
    }

    /// The other end of its cable: the second where the first is `end`, else the first.
    pub fn across(self, end: End) -> Option<End> {
        match self.cable()? {
            [first, second] if first == end => Some(second),
            [first, second] if second == end => Some(first),
            _ => None,
        }
    }
}

impl Default for Table {
    fn default() -> Self {
        Table::new([Slot::FRESH; SLOTS])
    }
}

impl Table {
    /// A table of these slots.
    pub fn new(slots: [Slot; SLOTS]) -> Self {
        Table { slots }
    }

    /// Every slot.
    pub fn slots(&self) -> &[Slot; SLOTS] {
        &self.slots
    }

    /// Changes one slot.
    pub fn put(&mut self, at: usize, slot: Slot) {
        self.slots[at] = slot;
    }

    /// The slot that has the end: the hinted one if it is a slot and has it, else the lowest.
    pub fn find(&self, end: End, hint: u32) -> Option<usize> {
        let hint = hint as usize;
        match self.slots.get(hint) {
            Some(slot) if slot.has(end) => Some(hint),
            _ => self.lowest(end),
        }
    }

    /// The lowest slot that has the end.
    pub fn lowest(&self, end: End) -> Option<usize> {
        self.slots.iter().position(|slot| slot.has(end))
    }

    /// The lowest free slot.
    pub fn lowest_free(&self) -> Option<usize> {
        let mut slots = self.slots.iter();
        slots.position(|slot| slot.cable().is_none())
    }

    /// Frees every slot that has the end.
    pub fn free_every(&mut self, end: End) {
        let slots = self.slots.iter_mut();
        slots
            .filter(|slot| slot.has(end))
            .for_each(|slot| *slot = Slot::FRESH);
    }
}
