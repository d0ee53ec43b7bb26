//! The commands that take a slot, and the table of edges (01, "Commands").

use super::records::{Kind, State};

/// A command that takes a slot.
#[derive(Clone, Copy, Debug, PartialEq, Eq)]
#[repr(u16)]
pub enum Op {
    Sw2HwMpt = 0x0d,
    Hw2SwMpt = 0x0f,
    Sw2HwEq = 0x13,
    Hw2SwEq = 0x14,
    Sw2HwCq = 0x16,
    Hw2SwCq = 0x17,
    Rst2Init = 0x19,
    Init2Rtr = 0x1a,
    Rtr2Rts = 0x1b,
    Rts2Rts = 0x1c,
    Sqe2Rts = 0x1d,
    ToErr = 0x1e,
    Rts2Sqd = 0x1f,
    Sqd2Rts = 0x20,
    ToReset = 0x21,
    QueryQp = 0x22,
    ResizeCq = 0x2c,
    Init2Init = 0x2d,
    Sqd2Sqd = 0x38,
}

impl Op {
    /// The command with this number, if it is served and takes a slot.
    pub fn from_number(number: u16) -> Option<Op> {
        Some(match number {
            0x0d => Op::Sw2HwMpt,
            0x0f => Op::Hw2SwMpt,
            0x13 => Op::Sw2HwEq,
            0x14 => Op::Hw2SwEq,
            0x16 => Op::Sw2HwCq,
            0x17 => Op::Hw2SwCq,
            0x19 => Op::Rst2Init,
            0x1a => Op::Init2Rtr,
            0x1b => Op::Rtr2Rts,
            0x1c => Op::Rts2Rts,
            0x1d => Op::Sqe2Rts,
            0x1e => Op::ToErr,
            0x1f => Op::Rts2Sqd,
            0x20 => Op::Sqd2Rts,
            0x21 => Op::ToReset,
            0x22 => Op::QueryQp,
            0x2c => Op::ResizeCq,
            0x2d => Op::Init2Init,
            0x38 => Op::Sqd2Sqd,
            _ => return None,
        })
    }

    /// The op_modifier that it has to have.
    pub fn op_modifier(self) -> u8 {
        match self {
            Op::ToErr | Op::ToReset => 3,
            _ => 0,
        }
    }

    /// The kind of record that in_modifier numbers.
    #[inline]
    pub fn kind(self) -> Kind {
        match self {
            Op::Sw2HwMpt | Op::Hw2SwMpt => Kind::Mpt,
            Op::Sw2HwEq | Op::Hw2SwEq => Kind::Eq,
            Op::Sw2HwCq | Op::Hw2SwCq | Op::ResizeCq => Kind::Cq,
            _ => Kind::Qp,
        }
    }

    /// The mailbox bytes that it needs.
    pub fn mailbox_bytes(self) -> usize {
        match self {
            Op::Sw2HwMpt | Op::Sw2HwCq => 56,
            Op::Sw2HwEq => 48,
            Op::ResizeCq => 8,
            _ if self.words() != 0 => 164,
            _ => 0,
        }
    }

    /// Whether it holds its record alone.
    #[inline]
    pub fn writes(self) -> bool {
        self != Op::QueryQp
    }

    /// The words that an edge takes from the image: bit `n` for the word at `4 n`.
    #[inline]
    pub fn words(self) -> u64 {
        match self {
            Op::Rst2Init => words(0x00, 0xa0),
            Op::Init2Init => words(0x04, 0x4c),
            Op::Init2Rtr => words(0x04, 0x4c) | words(0x84, 0x84),
            Op::Rtr2Rts => words(0x20, 0x28) | words(0x6c, 0x6c) | words(0x7c, 0x7c),
            Op::Rts2Rts => words(0x20, 0x28),
            Op::Sqe2Rts => words(0x98, 0x98),
            Op::Sqd2Sqd | Op::Sqd2Rts => words(0x20, 0x4c) | words(0x98, 0x98),
            _ => 0,
        }
    }

    /// The state that an edge sets; none for a command that is no edge.
    #[inline]
    pub fn to(self) -> Option<State> {
        Some(match self {
            Op::Rst2Init | Op::Init2Init => State::Init,
            Op::Init2Rtr => State::Rtr,
            Op::Rtr2Rts | Op::Rts2Rts | Op::Sqe2Rts | Op::Sqd2Rts => State::Rts,
            Op::Rts2Sqd | Op::Sqd2Sqd => State::Sqd,
            Op::ToErr => State::Err,
            Op::ToReset => State::Reset,
            _ => return None,
        })
    }

    /// Whether the edge starts in this state; RESET is left for INIT alone (02, wish 1).
    #[inline]
    pub fn from(self, state: State) -> bool {
        match self {
            Op::Rst2Init => state == State::Reset,
            Op::Init2Init | Op::Init2Rtr => state == State::Init,
            Op::Rtr2Rts => state == State::Rtr,
            Op::Rts2Rts | Op::Rts2Sqd => state == State::Rts,
            Op::Sqe2Rts => state == State::Sqe,
            Op::Sqd2Sqd | Op::Sqd2Rts => state == State::Sqd,
            Op::ToErr => !matches!(state, State::Reset | State::Err),
            Op::ToReset => state != State::Reset,
            _ => false,
        }
    }
}

/// The words from one offset to another, both taken.
const fn words(first: u32, last: u32) -> u64 {
    let count = (last - first) / 4 + 1;
    ((1 << count) - 1) << (first / 4)
}
