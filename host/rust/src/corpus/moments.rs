//! Moments of a good log where calls meet.

use crate::model::log::{Line, LoggedCall};
use crate::model::{EventWord, Op, Side};

macro_rules! moments {
    ($($name:ident = $text:literal),* $(,)?) => {
        /// A moment.
        #[derive(Clone, Copy, Debug, PartialEq, Eq)]
        #[allow(missing_docs)]
        pub enum Moment { $($name),* }

        /// Every moment in words.
        pub const MOMENTS: &[(Moment, &str)] = &[$((Moment::$name, $text)),*];
    };
}

moments! {
    MaskInService = "mask during a service",
    MaskInClear = "mask during a clear_mask",
    ClearInService = "clear_mask during a service",
    ServiceInClear = "service refused during a clear_mask",
    HypervisorInService = "hypervisor's access during a service",
    HypervisorInClear = "hypervisor's access during a clear_mask",
    GuestInCall = "guest's access during a hypervisor's call",
    ServiceGoesOn = "service's access after a clear_mask in it",
    CasKept = "cas not taken, the word keeps LINKED",
    CasLost = "cas not taken, the word has lost LINKED",
    ClearLost = "clear_mask's cas not taken",
    BusySet = "BUSY set, the word is LINKED",
    BusySetLost = "BUSY set, the word has lost LINKED",
    BusyCleared = "BUSY cleared by an and",
}

/// Operands of the accesses that set and clear BUSY.
const BUSY: u32 = 1 << 28;

/// Which calls are under way, told from the lines.
#[derive(Clone, Copy, Debug, Default)]
pub struct UnderWay {
    hypervisor: bool,
    service: bool,
    clearing: bool,
    /// The guest's call of the line before, unless that was a mask: an answer to it is a refusal.
    begun: Option<LoggedCall>,
    /// A mask's answer is to come.
    masking: bool,
    /// A clear_mask ended during the service.
    waited: bool,
}

impl UnderWay {
    /// What a line is, and the calls under way after it.
    pub fn note(&mut self, line: &Line) -> Option<Moment> {
        let begun = self.begun.take();
        if let Line::Answer { side, number, .. } = *line {
            return self.answer(side, number, begun);
        }
        match begun {
            Some(LoggedCall::ClearMask(_)) => self.clearing = true,
            Some(_) => self.service = true,
            None => {}
        }
        match *line {
            Line::Call(call) => self.call(call),
            Line::Access { side, access, seen } => self.access(side, access.op, seen),
            Line::Header | Line::Answer { .. } => None,
        }
    }

    fn call(&mut self, call: LoggedCall) -> Option<Moment> {
        match call {
            LoggedCall::Mask(_) => {
                self.masking = true;
                let in_service = self.service.then_some(Moment::MaskInService);
                self.clearing.then_some(Moment::MaskInClear).or(in_service)
            }
            LoggedCall::Service | LoggedCall::ClearMask(_) => {
                self.begun = Some(call);
                let clears = matches!(call, LoggedCall::ClearMask(_));
                (clears && self.service && !self.clearing).then_some(Moment::ClearInService)
            }
            _ => {
                self.hypervisor = true;
                None
            }
        }
    }

    /// 15 leaves the hypervisor's call under way. An answer of the guest's is a mask's, a
    /// refusal's, the clear_mask's, or the service's.
    fn answer(&mut self, side: Side, number: u32, begun: Option<LoggedCall>) -> Option<Moment> {
        match (side, begun) {
            (Side::Hypervisor, _) => self.hypervisor &= number == 15,
            (Side::Guest, Some(LoggedCall::Service)) => {
                return self.clearing.then_some(Moment::ServiceInClear);
            }
            (Side::Guest, Some(_)) => {}
            (Side::Guest, None) if self.masking => self.masking = false,
            (Side::Guest, None) if self.clearing => {
                self.clearing = false;
                self.waited = self.service;
            }
            (Side::Guest, None) => self.service = false,
        }
        None
    }

    fn access(&mut self, side: Side, op: Op, seen: Option<u32>) -> Option<Moment> {
        let word = EventWord::from_bits(seen.unwrap_or(0));
        let taken = |old| seen == Some(old);
        match (side, op) {
            (Side::Hypervisor, Op::Cas { old, .. }) if !taken(old) => Some(match word.linked {
                true => Moment::CasKept,
                false => Moment::CasLost,
            }),
            (Side::Hypervisor, Op::Or(BUSY)) => Some(match word.linked {
                true => Moment::BusySet,
                false => Moment::BusySetLost,
            }),
            (Side::Hypervisor, Op::And(operand)) if operand == !BUSY => Some(Moment::BusyCleared),
            (Side::Hypervisor, _) if self.clearing => Some(Moment::HypervisorInClear),
            (Side::Hypervisor, _) => self.service.then_some(Moment::HypervisorInService),
            (Side::Guest, Op::Cas { old, .. }) if !taken(old) => Some(Moment::ClearLost),
            (Side::Guest, _) if self.goes_on() => Some(Moment::ServiceGoesOn),
            (Side::Guest, _) => self.hypervisor.then_some(Moment::GuestInCall),
        }
    }

    /// Whether a guest's access is the first of its service after a clear_mask.
    fn goes_on(&mut self) -> bool {
        let goes_on = self.waited && !self.masking && !self.clearing;
        self.waited &= !goes_on;
        goes_on
    }
}
