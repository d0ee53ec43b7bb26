//! Requests under way and the slots that hold them (01, "Engine requests" and "Bursts, slots and holds").

use super::commands::Op;
use super::fault;
use super::records::{Kind, Record, State};

/// The PSN that an engine write sets, by its word's offset in the queue pair's record.
#[derive(Clone, Copy, Debug, PartialEq, Eq)]
pub enum PsnWord {
    Next = 0x6c,
    LastAcked = 0x7c,
    Expected = 0x84,
}

/// An engine request.
#[derive(Clone, Copy, Debug, PartialEq, Eq)]
pub enum Engine {
    /// Request 1.
    ReadState { qp: u32 },
    /// Request 2.
    ReadNextPsn { qp: u32 },
    /// Requests 3 to 5.
    Write {
        word: PsnWord,
        qp: u32,
        psn: u32,
        state: State,
    },
    /// Request 6.
    ReadAll { qp: u32 },
    /// Request 7, with the names that its submission read.
    ReadJoined { qp: u32, cq: u32, eq: u32 },
}

/// A request that takes a slot.
#[derive(Clone, Copy, Debug, PartialEq, Eq)]
pub enum Request {
    Command { op: Op, number: u32 },
    Engine(Engine),
}

/// A slot of the row.
#[derive(Clone, Copy, Debug, PartialEq, Eq)]
pub enum Slot {
    Free,
    Running {
        request: Request,
        moved: u8,
    },
    Finished {
        request: Request,
    },
    /// Bytes that are no slot: every call but reset refuses them with 0x87.
    Impossible,
}

/// The greatest PSN.
pub const PSN_GREATEST: u32 = 0xff_ffff;

impl Request {
    /// The bursts that it moves in all.
    #[inline]
    pub fn bursts(&self) -> u8 {
        match self {
            Request::Command { op, .. } => match op.kind() {
                Kind::Qp => 16,
                _ => 4,
            },
            Request::Engine(Engine::ReadState { .. }) => 1,
            Request::Engine(Engine::ReadNextPsn { .. } | Engine::Write { .. }) => 2,
            Request::Engine(Engine::ReadAll { .. }) => 16,
            Request::Engine(Engine::ReadJoined { .. }) => 24,
        }
    }

    /// The record that it writes, and so holds alone; none for a reader.
    #[inline]
    pub fn written(&self) -> Option<Record> {
        match *self {
            Request::Command { op, number } if op.writes() => Some(Record {
                kind: op.kind(),
                number,
            }),
            Request::Engine(Engine::Write { qp, .. }) => Some(Record::qp(qp)),
            _ => None,
        }
    }

    /// Whether it names this record. Request 7 names three, any other request one.
    #[inline]
    pub fn names<const FAULT: u32>(&self, record: Record) -> bool {
        match *self {
            Request::Command { op, number } => record.kind == op.kind() && record.number == number,
            Request::Engine(engine) => match engine {
                Engine::ReadState { qp }
                | Engine::ReadNextPsn { qp }
                | Engine::Write { qp, .. }
                | Engine::ReadAll { qp } => record == Record::qp(qp),
                Engine::ReadJoined { qp, cq, eq } => match record.kind {
                    Kind::Qp => record.number == qp,
                    Kind::Cq => record.number == cq,
                    Kind::Eq => record.number == eq && FAULT != fault::JOINED_NOT_HELD,
                    Kind::Mpt => false,
                },
            },
        }
    }

    /// The bytes of its answer (01: collecting).
    #[inline]
    pub fn answer_bytes(&self) -> usize {
        match self {
            Request::Command {
                op: Op::QueryQp, ..
            } => 256,
            Request::Command { .. } => 0,
            Request::Engine(Engine::ReadState { .. }) => 1,
            Request::Engine(Engine::ReadNextPsn { .. }) => 4,
            Request::Engine(Engine::Write { .. }) => 0,
            Request::Engine(Engine::ReadAll { .. }) => 256,
            Request::Engine(Engine::ReadJoined { .. }) => 384,
        }
    }
}

impl Slot {
    #[inline]
    pub fn is_free(&self) -> bool {
        matches!(self, Slot::Free)
    }

    /// Its request, running or finished.
    #[inline]
    pub fn request(&self) -> Option<&Request> {
        match self {
            Slot::Running { request, .. } | Slot::Finished { request } => Some(request),
            Slot::Free | Slot::Impossible => None,
        }
    }
}
