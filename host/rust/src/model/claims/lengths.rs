//! T-10, how long a call may take: its accesses since its first one, on demand 3's terms, while it
//! is under way too.

use crate::model::domain::Stage;
use crate::model::guest::{ClearStage, ServiceStage};
use crate::model::machine::{Event, Maker};

/// Most accesses of a raise or unmask: document 02 asks eleven, and ten are met.
pub const MOST_OF_A_CALL: u32 = 10;
/// Most accesses of a service.
pub const MOST_OF_A_SERVICE: u32 = 5;
/// Most accesses of a clear_mask.
pub const MOST_OF_A_CLEAR_MASK: u32 = 2;

/// The accesses of the latest call of each kind.
#[derive(Clone, Copy, Debug, Default)]
pub struct Lengths {
    /// Of the hypervisor's.
    pub call: u32,
    /// Of the guest's services.
    pub service: u32,
    /// Of the guest's clear_masks.
    pub clear_mask: u32,
}

impl Lengths {
    /// Adds an event; the accesses of its call up to it, where it is an access of one.
    pub fn note(&mut self, event: &Event) -> Result<Option<u32>, String> {
        let Event::Accessed(accessed) = event else {
            return Ok(None);
        };
        let (made, most) = match accessed.maker {
            Maker::Call(_) => (&mut self.call, MOST_OF_A_CALL),
            Maker::Service(_) => (&mut self.service, MOST_OF_A_SERVICE),
            Maker::ClearMask(_) => (&mut self.clear_mask, MOST_OF_A_CLEAR_MASK),
            Maker::Mask(_) => return Ok(None),
        };
        *made = if is_first(&accessed.maker) {
            1
        } else {
            *made + 1
        };
        match *made > most {
            true => Err(format!("access {made} of {:?}", accessed.maker)),
            false => Ok(Some(*made)),
        }
    }
}

/// R1, U1, or the access of a bind or close; G0; a clear_mask's read.
fn is_first(maker: &Maker) -> bool {
    match maker {
        Maker::Call(call) => matches!(
            call.stage,
            Stage::R1 | Stage::U1 | Stage::BindRead | Stage::CloseAnd
        ),
        Maker::Service(service) => service.stage == ServiceStage::G0,
        Maker::ClearMask(clearing) => clearing.stage == ClearStage::Read,
        Maker::Mask(_) => true,
    }
}
