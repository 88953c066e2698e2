//! Kinds of numbers that must not be mixed: port, queue, priority.

/// A port: the number of an event word.
#[derive(Clone, Copy, Debug, PartialEq, Eq, PartialOrd, Ord, Hash)]
pub struct Port(pub u32);

/// A queue. A call under way on an arbitrary record may hold one above 15.
#[derive(Clone, Copy, Debug, PartialEq, Eq, PartialOrd, Ord, Hash)]
pub struct Queue(pub u32);

/// A priority, 0 to 15; 0 is served first.
#[derive(Clone, Copy, Debug, PartialEq, Eq, PartialOrd, Ord, Hash)]
pub struct Priority(pub u8);

/// Number of queues of a control block.
pub const QUEUES: u32 = 16;

impl Priority {
    /// Queue number equals priority.
    pub fn queue(self) -> Queue {
        Queue(u32::from(self.0))
    }
}

impl Port {
    /// The port's place in a slice of event words or ledger entries.
    pub fn index(self) -> usize {
        self.0 as usize
    }
}
