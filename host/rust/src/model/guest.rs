//! The guest's record, its service under way and its clear_mask under way.

use super::kinds::{Port, Queue, QUEUES};

/// The access that a service waits for, with what the rest needs.
#[derive(Clone, Copy, Debug, PartialEq, Eq, Hash)]
pub enum ServiceStage {
    /// G0: swap READY with 0.
    G0,
    /// G1: read HEAD.
    G1 {
        /// The lowest set queue.
        queue: Queue,
    },
    /// G2: unlink the word.
    G2 {
        /// The lowest set queue.
        queue: Queue,
        /// The port taken.
        port: Port,
    },
    /// G3: read the word.
    G3 {
        /// The port taken.
        port: Port,
    },
    /// G4: clear PENDING.
    G4 {
        /// The port taken.
        port: Port,
    },
}

/// A service under way.
#[derive(Clone, Copy, Debug, PartialEq, Eq, Hash)]
pub struct Service {
    /// Where it stands.
    pub stage: ServiceStage,
    /// Number of accesses named so far.
    pub count: u32,
}

/// The access that a clear_mask waits for.
#[derive(Clone, Copy, Debug, PartialEq, Eq, Hash)]
pub enum ClearStage {
    /// Read the word.
    Read,
    /// The cas that clears MASKED.
    Cas {
        /// The word that the read saw.
        old: u32,
    },
}

/// A clear_mask under way.
#[derive(Clone, Copy, Debug, PartialEq, Eq, Hash)]
pub struct ClearMask {
    /// Its port.
    pub port: Port,
    /// Where it stands.
    pub stage: ClearStage,
    /// Number of accesses named so far.
    pub count: u32,
}

/// The guest's record.
#[derive(Clone, Copy, Debug, PartialEq, Eq, Hash)]
pub struct Guest {
    /// Heads H; 0 is none.
    pub heads: [u32; QUEUES as usize],
    /// Local ready bits.
    pub local: u32,
    /// Number of words.
    pub words: u32,
    /// The service under way.
    pub call: Option<Service>,
    /// The clear_mask under way: until its answer all the guest's replies are its own.
    pub clearing: Option<ClearMask>,
}

impl Guest {
    /// All 0.
    pub const FRESH: Guest = Guest {
        heads: [0; QUEUES as usize],
        local: 0,
        words: 0,
        call: None,
        clearing: None,
    };

    /// Whether a service or a clear_mask is under way.
    pub fn is_under_way(&self) -> bool {
        self.call.is_some() || self.clearing.is_some()
    }

    /// The port that a service holds: from G2 to its answer.
    pub fn held(&self) -> Option<Port> {
        match self.call?.stage {
            ServiceStage::G3 { port } | ServiceStage::G4 { port } => Some(port),
            ServiceStage::G0 | ServiceStage::G1 { .. } | ServiceStage::G2 { .. } => None,
        }
    }
}
