//! An event word decoded into its fields.

use super::kinds::Port;

/// Number of link bits, as init_control's answer tells it.
pub const LINK_BITS: u32 = 17;

/// Event word: PENDING 31, MASKED 30, LINKED 29, BUSY 28, reserved 27 to 17, LINK 16 to 0.
#[derive(Clone, Copy, Debug, PartialEq, Eq)]
pub struct EventWord {
    /// Bit 31.
    pub pending: bool,
    /// Bit 30.
    pub masked: bool,
    /// Bit 29.
    pub linked: bool,
    /// Bit 28.
    pub busy: bool,
    /// Bits 27 to 17, kept as found.
    pub reserved: u16,
    /// Bits 16 to 0; 0 ends a chain.
    pub link: Port,
}

impl EventWord {
    /// Decodes 32 bits.
    pub fn from_bits(bits: u32) -> Self {
        EventWord {
            pending: bits >> 31 & 1 == 1,
            masked: bits >> 30 & 1 == 1,
            linked: bits >> 29 & 1 == 1,
            busy: bits >> 28 & 1 == 1,
            reserved: (bits >> LINK_BITS & 0x7FF) as u16,
            link: Port(bits % (1 << LINK_BITS)),
        }
    }

    /// Encodes into 32 bits.
    pub fn bits(self) -> u32 {
        let link = self.link.0 % (1 << LINK_BITS);
        let reserved = u32::from(self.reserved & 0x7FF) << LINK_BITS;
        let busy = u32::from(self.busy) << 28;
        let linked = u32::from(self.linked) << 29;
        let masked = u32::from(self.masked) << 30;
        let pending = u32::from(self.pending) << 31;
        pending | masked | linked | busy | reserved | link
    }

    /// The same word with another LINK.
    pub fn with_link(self, link: Port) -> Self {
        EventWord { link, ..self }
    }

    /// The same word with BUSY set or clear.
    pub fn with_busy(self, busy: bool) -> Self {
        EventWord { busy, ..self }
    }

    /// The same word with MASKED clear.
    pub fn unmasked(self) -> Self {
        let masked = false;
        EventWord { masked, ..self }
    }
}
