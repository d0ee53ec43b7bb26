//! Deliberate faults, planted to see that the tests find each. `FAULT` is a constant of the type, so the branches of a fault that
//! is not chosen are not compiled.

/// Names the faults and lists their numbers.
macro_rules! faults {
    ($($name:ident = $number:literal: $what:literal,)*) => {
        $(#[doc = $what] pub const $name: u32 = $number;)*
        /// Every fault, with what it does.
        pub const ALL: &[(u32, &str)] = &[$(($number, $what),)*];
    };
}

/// The rules as they are.
pub const NONE: u32 = 0;

faults! {
    STATE_BEFORE_HOLD = 1: "the record's state is tested before its hold",
    HOLD_TILL_COLLECTION = 2: "a hold is released at collection",
    SLOT_FREED_EARLY = 3: "the slot is freed at the last burst",
    STATE_FROM_MAILBOX = 4: "the state is taken from the mailbox",
    RNR_BYTE_CHANGED = 5: "request 5 changes the RNR byte",
    MAILBOX_LITTLE_ENDIAN = 6: "the mailbox is read little-endian",
    PSN_LIMIT = 7: "the PSN 0x1000000 is accepted",
    INDEX_LIMIT = 8: "the last index is refused",
    OP_MODIFIER_UNTESTED = 9: "op_modifier is not tested",
    EVENT_ACCEPTED = 10: "E is not refused at submission",
    RC_TO_SQE = 11: "a queue pair of type RC may go to SQE",
    BURST_COUNT = 12: "request 6 finishes a burst early",
    ALL_AT_ONCE = 13: "the first step makes the effects of all bursts",
    REFUSAL_WRITES = 14: "a refusal for the record's state leaves the mailbox in the room",
    HIGHEST_SLOT = 15: "the highest free slot is taken",
    ROOM_OFFSET = 16: "a slot's part of the room is 256 bytes",
    NAMES_OF_24_BITS = 17: "request 7 reads the low 24 bits of a name",
    CLOSE_WHILE_OCCUPIED = 18: "CLOSE_HCA is accepted while a slot is occupied",
    LONGER_STORE = 19: "a store longer than INIT_HCA's is accepted",
    OWNER_NOT_ZERO = 20: "any byte 63 but 0 is the hardware's",
    TOP_BYTE_KEPT = 21: "0x1a keeps the top byte of word 84h",
    QUERY_HOLDS_ALONE = 22: "QUERY_QP holds its record alone",
    NOP_WHILE_CLOSED = 23: "NOP is refused while closed",
    CODE_ABOVE_SIX = 24: "0x1e is permitted from a state code above 6",
    FULL_BEFORE_STATE = 25: "the full row is tested before the record's state",
    JOINED_NOT_HELD = 26: "request 7 does not hold its event queue",
    CLASH_UNJUDGED = 27: "running slots whose holds clash are not judged",
    RESET_TO_ERR = 28: "0x1e is permitted from RESET",
    TYPE_UNTOLD = 29: "an engine write that another service type permits gets 0x85",
    TYPE_FROM_RTR = 30: "RTR to SQE of RC gets 0x88",
}
