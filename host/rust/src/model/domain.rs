//! The hypervisor's record of a domain (document 01: house record) and its call under way.

use super::kinds::{Port, Queue, QUEUES};

/// Which call is under way.
#[derive(Clone, Copy, Debug, PartialEq, Eq, Hash)]
pub enum Owner {
    /// bind.
    Bind,
    /// close.
    Close,
    /// raise.
    Raise,
    /// unmask.
    Unmask,
}

/// The access that the call waits for, with what the rest of the call needs.
#[derive(Clone, Copy, Debug, PartialEq, Eq, Hash)]
pub enum Stage {
    /// bind's read of the word.
    BindRead,
    /// close's and of the word.
    CloseAnd,
    /// R1: or PENDING.
    R1,
    /// U1: and all but MASKED.
    U1,
    /// R2: or LINKED.
    R2,
    /// R3: read the tail's word.
    R3 {
        /// Kept from R2 on.
        queue: Queue,
    },
    /// R4: cas of the tail's word.
    R4 {
        /// Kept from R2 on.
        queue: Queue,
        /// The word compared with: the latest one seen; after SetBusy the one that it left.
        old: u32,
        /// Number of cas named so far.
        tries: u32,
    },
    /// Or BUSY into the tail's word, after a first cas that was not taken and kept LINKED.
    SetBusy {
        /// Kept from R2 on.
        queue: Queue,
    },
    /// And the tail's word with all but BUSY, before HEAD or before answer 2.
    ClearBusy {
        /// Kept from R2 on.
        queue: Queue,
        /// The latest word seen before: LINKED in it gives 2.
        word: u32,
    },
    /// R5: store HEAD.
    R5 {
        /// Kept from R2 on.
        queue: Queue,
    },
    /// R6: or READY.
    R6 {
        /// Kept from R2 on.
        queue: Queue,
    },
}

/// A call under way.
#[derive(Clone, Copy, Debug, PartialEq, Eq, Hash)]
pub struct Call {
    /// Which call.
    pub owner: Owner,
    /// Its port.
    pub port: Port,
    /// Where it stands.
    pub stage: Stage,
    /// Number of accesses named so far.
    pub count: u32,
}

/// The hypervisor's record of one domain.
#[derive(Clone, Copy, Debug, PartialEq, Eq, Hash)]
pub struct Domain {
    /// Whether the control block is given.
    pub given: bool,
    /// Number of array pages.
    pub pages: u32,
    /// Queue tails T; 0 is none.
    pub tails: [u32; QUEUES as usize],
    /// The call under way.
    pub call: Option<Call>,
}

/// Number of event words of an array page.
pub const PAGE_WORDS: u32 = 1024;

impl Domain {
    /// Not given, no pages, every tail 0, no call.
    pub const FRESH: Domain = Domain {
        given: false,
        pages: 0,
        tails: [0; QUEUES as usize],
        call: None,
    };

    /// Number of words that expands added.
    pub fn words(&self) -> u64 {
        u64::from(self.pages) * u64::from(PAGE_WORDS)
    }

    /// Whether the port is inside the present array.
    pub fn in_array(&self, port: Port) -> bool {
        u64::from(port.0) < self.words()
    }
}

impl Call {
    /// Whether the call is a raise or an unmask: it holds its port.
    pub fn holds(&self) -> bool {
        matches!(self.owner, Owner::Raise | Owner::Unmask)
    }

    /// Whether the call has linked its port (R2 is made) and holds it still.
    pub fn holds_linked(&self) -> bool {
        let linked = match self.stage {
            Stage::R3 { .. } | Stage::R4 { .. } | Stage::R5 { .. } | Stage::R6 { .. } => true,
            Stage::SetBusy { .. } | Stage::ClearBusy { .. } => true,
            Stage::BindRead | Stage::CloseAnd | Stage::R1 | Stage::U1 | Stage::R2 => false,
        };
        self.holds() && linked
    }

    /// The queue whose tail's word has BUSY by this call: from the or on, up to its clearing.
    pub fn busy_queue(&self) -> Option<Queue> {
        match self.stage {
            Stage::R4 { queue, tries, .. } if tries > 1 => Some(queue),
            Stage::ClearBusy { queue, .. } => Some(queue),
            _ => None,
        }
    }
}
