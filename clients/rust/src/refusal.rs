//! The numbers that refuse a call (01, "Numbers returned").

/// Why a call was refused.
#[derive(Clone, Copy, Debug, PartialEq, Eq)]
#[repr(u8)]
pub enum Refusal {
    /// An op or an engine request's number that is not served.
    NotServed = 2,
    /// A field, an index, a mailbox's content, or a name in engine request 7.
    BadParameter = 3,
    /// INIT_HCA while open; any other command but NOP, and any engine request, while closed.
    BadSystemState = 4,
    /// Another command is uncollected, a slot is occupied, or the record is held.
    Busy = 0x81,
    /// All eight slots are occupied.
    Full = 0x82,
    /// A buffer of the wrong length, or too short.
    BadLength = 0x83,
    /// No such slot, or nothing in it to step or to collect.
    NoRequest = 0x84,
    /// An edge that is not permitted, or the wrong owner.
    NotPermitted = 0x85,
    /// A collection before the last burst.
    StillRunning = 0x86,
    /// The device's bytes are no possible state.
    Impossible = 0x87,
    /// An engine write that is permitted for another service type, but not for the queue pair's.
    NotForType = 0x88,
}

impl Refusal {
    /// The number that the interface returns.
    pub fn number(self) -> u32 {
        self as u32
    }

    /// The refusal with this number.
    pub fn from_number(number: u32) -> Option<Refusal> {
        Some(match number {
            2 => Refusal::NotServed,
            3 => Refusal::BadParameter,
            4 => Refusal::BadSystemState,
            0x81 => Refusal::Busy,
            0x82 => Refusal::Full,
            0x83 => Refusal::BadLength,
            0x84 => Refusal::NoRequest,
            0x85 => Refusal::NotPermitted,
            0x86 => Refusal::StillRunning,
            0x87 => Refusal::Impossible,
            0x88 => Refusal::NotForType,
            _ => return None,
        })
    }
}
