//! An independent implementation of the rules of document 01, with engine request 7, in plain safe Rust. It is typed: [`Hca`] is
//! the adapter's state and the row is a lent slice of [`Slot`]. [`bytes`] runs it on the interface's device bytes, and [`book`] is
//! the plain book of demand 3.
//!
//! `FAULT` chooses a deliberate fault of [`fault`]; 0, the default, has none.

pub mod book;
pub mod bytes;
pub mod commands;
pub mod fault;
mod judge;
mod permits;
pub mod records;
pub mod register;
pub mod request;
mod step;
mod submit;

pub use records::Logs;
pub use request::{Request, Slot};

/// The adapter's state beside the row. While closed, counts and length are kept and not judged.
#[derive(Clone, Copy, Debug, PartialEq, Eq)]
pub struct Hca<const FAULT: u32 = { fault::NONE }> {
    pub open: bool,
    pub logs: Logs,
    /// The store's length at INIT_HCA.
    pub store_len: u64,
}

impl<const FAULT: u32> Hca<FAULT> {
    /// A closed adapter.
    pub fn closed() -> Self {
        Hca {
            open: false,
            logs: Logs([0; 4]),
            store_len: 0,
        }
    }

    /// Where a slot's part of the room starts.
    #[inline]
    fn room_offset(slot: usize) -> usize {
        match FAULT {
            fault::ROOM_OFFSET => 256 * slot,
            _ => crate::SLOT_ROOM_BYTES * slot,
        }
    }
}
