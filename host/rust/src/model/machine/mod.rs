//! The stepped machine: both sides' steps over lent memory, and their events.

pub mod event;
pub mod memory;
pub mod world;

pub use event::{Accessed, Event, Events, Maker, Side};
pub use memory::{ControlBlock, Memory};
pub use world::{Step, Stepped, World};
