//! The calls under way as flat records: every field present, whatever the stage needs.

use super::domain::{Call, Owner, Stage};
use super::guest::{ClearMask, ClearStage, Service, ServiceStage};
use super::kinds::{Port, Queue};

/// The hypervisor's stages without data.
#[derive(Clone, Copy, Debug, PartialEq, Eq)]
#[allow(missing_docs)]
pub enum StageTag {
    BindRead,
    CloseAnd,
    R1,
    U1,
    R2,
    R3,
    R4,
    R5,
    R6,
    SetBusy,
    ClearBusy,
}

/// The service's stages without data.
#[derive(Clone, Copy, Debug, PartialEq, Eq)]
#[allow(missing_docs)]
pub enum ServiceTag {
    G0,
    G1,
    G2,
    G3,
    G4,
}

/// The clear_mask's stages without data.
#[derive(Clone, Copy, Debug, PartialEq, Eq)]
#[allow(missing_docs)]
pub enum ClearTag {
    Read,
    Cas,
}

/// A call under way as a flat record.
#[derive(Clone, Copy, Debug, PartialEq, Eq)]
pub struct FlatCall {
    /// None: no call under way.
    pub owner: Option<Owner>,
    /// The access that is due.
    pub stage: StageTag,
    /// Needed by every stage.
    pub port: u32,
    /// Needed from R3 on.
    pub queue: u32,
    /// Needed by R4: the word compared with; by ClearBusy: the latest word seen before it.
    pub word: u32,
    /// Needed by R4: number of cas named so far.
    pub tries: u32,
    /// Number of accesses named so far.
    pub count: u32,
}

/// A service under way as a flat record.
#[derive(Clone, Copy, Debug, PartialEq, Eq)]
pub struct FlatService {
    /// None: no service under way.
    pub stage: Option<ServiceTag>,
    /// Needed from G2 on.
    pub port: u32,
    /// Needed by G1 and G2.
    pub queue: u32,
    /// Number of accesses named so far.
    pub count: u32,
}

/// A clear_mask under way as a flat record.
#[derive(Clone, Copy, Debug, PartialEq, Eq)]
pub struct FlatClear {
    /// None: no clear_mask under way.
    pub stage: Option<ClearTag>,
    /// Needed by both stages.
    pub port: u32,
    /// Needed by the cas: the word compared with.
    pub word: u32,
    /// Number of accesses named so far.
    pub count: u32,
}

impl FlatCall {
    /// D9: the call that the flat record stands for.
    pub fn call(&self) -> Option<Call> {
        let queue = Queue(self.queue);
        let stage = match self.stage {
            StageTag::BindRead => Stage::BindRead,
            StageTag::CloseAnd => Stage::CloseAnd,
            StageTag::R1 => Stage::R1,
            StageTag::U1 => Stage::U1,
            StageTag::R2 => Stage::R2,
            StageTag::R3 => Stage::R3 { queue },
            StageTag::R4 => Stage::R4 {
                queue,
                old: self.word,
                tries: self.tries,
            },
            StageTag::R5 => Stage::R5 { queue },
            StageTag::R6 => Stage::R6 { queue },
            StageTag::SetBusy => Stage::SetBusy { queue },
            StageTag::ClearBusy => Stage::ClearBusy {
                queue,
                word: self.word,
            },
        };
        Some(Call {
            owner: self.owner?,
            port: Port(self.port),
            stage,
            count: self.count,
        })
    }
}

impl FlatService {
    /// The service that the flat record stands for.
    pub fn service(&self) -> Option<Service> {
        let queue = Queue(self.queue);
        let port = Port(self.port);
        let stage = match self.stage? {
            ServiceTag::G0 => ServiceStage::G0,
            ServiceTag::G1 => ServiceStage::G1 { queue },
            ServiceTag::G2 => ServiceStage::G2 { queue, port },
            ServiceTag::G3 => ServiceStage::G3 { port },
            ServiceTag::G4 => ServiceStage::G4 { port },
        };
        let count = self.count;
        Some(Service { stage, count })
    }
}

impl FlatClear {
    /// The clear_mask that the flat record stands for.
    pub fn clear_mask(&self) -> Option<ClearMask> {
        let stage = match self.stage? {
            ClearTag::Read => ClearStage::Read,
            ClearTag::Cas => ClearStage::Cas { old: self.word },
        };
        Some(ClearMask {
            port: Port(self.port),
            stage,
            count: self.count,
        })
    }
}

/// A stage without its data, then its queue, word and tries; 0 where it needs none.
fn parts(stage: Stage) -> (StageTag, Queue, u32, u32) {
    let none = Queue(0);
    match stage {
        Stage::BindRead => (StageTag::BindRead, none, 0, 0),
        Stage::CloseAnd => (StageTag::CloseAnd, none, 0, 0),
        Stage::R1 => (StageTag::R1, none, 0, 0),
        Stage::U1 => (StageTag::U1, none, 0, 0),
        Stage::R2 => (StageTag::R2, none, 0, 0),
        Stage::R3 { queue } => (StageTag::R3, queue, 0, 0),
        Stage::R4 { queue, old, tries } => (StageTag::R4, queue, old, tries),
        Stage::R5 { queue } => (StageTag::R5, queue, 0, 0),
        Stage::R6 { queue } => (StageTag::R6, queue, 0, 0),
        Stage::SetBusy { queue } => (StageTag::SetBusy, queue, 0, 0),
        Stage::ClearBusy { queue, word } => (StageTag::ClearBusy, queue, word, 0),
    }
}

impl From<Option<Call>> for FlatCall {
    /// The flat record of a call; the fields that its stage does not need are 0.
    fn from(call: Option<Call>) -> Self {
        let stage = call.map_or(Stage::BindRead, |call| call.stage);
        let (stage, queue, word, tries) = parts(stage);
        FlatCall {
            owner: call.map(|call| call.owner),
            stage,
            port: call.map_or(0, |call| call.port.0),
            queue: queue.0,
            word,
            tries,
            count: call.map_or(0, |call| call.count),
        }
    }
}

impl From<Option<Service>> for FlatService {
    /// The flat record of a service; the fields that its stage does not need are 0.
    fn from(service: Option<Service>) -> Self {
        let flat = |stage, port, queue, count| FlatService {
            stage,
            port,
            queue,
            count,
        };
        let Some(Service { stage, count }) = service else {
            return flat(None, 0, 0, 0);
        };
        match stage {
            ServiceStage::G0 => flat(Some(ServiceTag::G0), 0, 0, count),
            ServiceStage::G1 { queue } => flat(Some(ServiceTag::G1), 0, queue.0, count),
            ServiceStage::G2 { queue, port } => flat(Some(ServiceTag::G2), port.0, queue.0, count),
            ServiceStage::G3 { port } => flat(Some(ServiceTag::G3), port.0, 0, count),
            ServiceStage::G4 { port } => flat(Some(ServiceTag::G4), port.0, 0, count),
        }
    }
}

impl From<Option<ClearMask>> for FlatClear {
    /// The flat record of a clear_mask; the word of its read is 0.
    fn from(clearing: Option<ClearMask>) -> Self {
        let flat = |stage, port, word, count| FlatClear {
            stage,
            port,
            word,
            count,
        };
        let Some(ClearMask { port, stage, count }) = clearing else {
            return flat(None, 0, 0, 0);
        };
        match stage {
            ClearStage::Read => flat(Some(ClearTag::Read), port.0, 0, count),
            ClearStage::Cas { old } => flat(Some(ClearTag::Cas), port.0, old, count),
        }
    }
}
