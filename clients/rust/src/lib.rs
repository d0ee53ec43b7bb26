//! Ecgslope from Rust: safe wrappers of the C interface ([`Device`], [`Lent`]), and beside them an independent implementation of
//! the rules ([`reference`]) that the tests and the benchmark hold the library against.

#![deny(unsafe_op_in_unsafe_fn)]
#![deny(unsafe_code)]

mod device;
#[allow(unsafe_code)]
mod ffi;
pub mod reference;
mod refusal;

pub use device::{Device, Fields, Lent};
pub use refusal::Refusal;

/// The device's bytes: the header and the row of eight slots.
pub const DEVICE_BYTES: usize = 288;
/// Slots in the row.
pub const SLOTS: usize = 8;
/// A slot's part of the room.
pub const SLOT_ROOM_BYTES: usize = 384;
/// The whole working room.
pub const ROOM_BYTES: usize = SLOTS * SLOT_ROOM_BYTES;
/// The command register (HCR).
pub const REGISTER_BYTES: usize = 28;
/// The register's fields, as the register's reader gives them.
pub const FIELDS_BYTES: usize = 32;
/// The longest answer of a collection, that of engine request 7.
pub const ANSWER_BYTES: usize = 384;
/// The mailbox of an edge that takes words.
pub const QP_MAILBOX_BYTES: usize = 164;
/// The mailbox of INIT_HCA.
pub const INIT_MAILBOX_BYTES: usize = 64;
