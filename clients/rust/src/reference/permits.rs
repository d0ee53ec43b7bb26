//! What a submission tests of records and of the row: index, mailbox content, hold, state or owner, and a free slot.

use super::commands::Op;
use super::records::{
    is_service_type, service_type, state_code, word, Record, State, HARDWARE, OWNER_BYTE, RC,
    SERVICE_TYPES,
};
use super::{fault, Hca, Request, Slot};
use crate::{Refusal, SLOTS};

impl<const FAULT: u32> Hca<FAULT> {
    pub(super) fn index_right(&self, record: Record) -> bool {
        match FAULT {
            fault::INDEX_LIMIT => record.number < self.logs.count(record.kind) - 1,
            _ => self.logs.has(record),
        }
    }

    /// Mailbox content: 0x19's service type, and the number in SW2HW_CQ's word 2Ch.
    pub(super) fn content_right(op: Op, record: Record, front: &[u8]) -> bool {
        match op {
            Op::Rst2Init => is_service_type(service_type(front)),
            Op::Sw2HwCq if FAULT == fault::MAILBOX_LITTLE_ENDIAN => {
                word(front, 0x2c).swap_bytes() == record.number
            }
            Op::Sw2HwCq => word(front, 0x2c) == record.number,
            _ => true,
        }
    }

    /// Whether a command's edge is permitted by the record's state, or its owner is the right one.
    #[inline]
    pub(super) fn permits(op: Op, record: &[u8]) -> bool {
        let hardware = || match FAULT {
            fault::OWNER_NOT_ZERO => record[OWNER_BYTE] != 0,
            _ => record[OWNER_BYTE] == HARDWARE,
        };
        match op {
            Op::QueryQp => true,
            Op::Sw2HwMpt | Op::Sw2HwEq | Op::Sw2HwCq => !hardware(),
            Op::Hw2SwMpt | Op::Hw2SwEq | Op::Hw2SwCq | Op::ResizeCq => hardware(),
            _ => match State::from_code(state_code(record)) {
                Some(State::Reset) if FAULT == fault::RESET_TO_ERR && op == Op::ToErr => true,
                Some(state) => op.from(state),
                None => FAULT == fault::CODE_ABOVE_SIX && op == Op::ToErr,
            },
        }
    }

    /// Whether an engine write may set this state for a service type (01, "Engine requests").
    #[inline]
    fn engine_permits(record: &[u8], service_type: u8, to: State) -> bool {
        let Some(from @ (State::Rtr | State::Rts | State::Sqd | State::Sqe)) =
            State::from_code(state_code(record))
        else {
            return false;
        };
        let to_sqe = matches!(from, State::Rts | State::Sqd)
            && (service_type != RC || FAULT == fault::RC_TO_SQE);
        to == from || to == State::Err || to == State::Sqe && to_sqe
    }

    /// Why the record's state refuses an engine write: one that is permitted for another service type but not for this one gets
    /// 0x88 (02, wish 5).
    #[inline]
    pub(super) fn engine_denial(record: &[u8], to: State) -> Option<Refusal> {
        let permitted = |service_type| Self::engine_permits(record, service_type, to);
        if permitted(service_type(record)) {
            return None;
        }
        let rtr_to_sqe = state_code(record) == State::Rtr as u8 && to == State::Sqe;
        let for_type = match FAULT {
            fault::TYPE_UNTOLD => false,
            fault::TYPE_FROM_RTR if rtr_to_sqe => service_type(record) == RC,
            _ => SERVICE_TYPES.into_iter().any(permitted),
        };
        Some(match for_type {
            true => Refusal::NotForType,
            false => Refusal::NotPermitted,
        })
    }

    /// 0x81 before 0x85 and 0x88: the state of a record that is held may be half written.
    #[inline]
    pub(super) fn hold_then_state(
        &self,
        row: &[Slot; SLOTS],
        record: Record,
        alone: bool,
        denial: Option<Refusal>,
    ) -> Result<(), Refusal> {
        let state = denial.map_or(Ok(()), Err);
        if FAULT == fault::STATE_BEFORE_HOLD {
            state?;
        }
        require(!Self::held(row, record, alone), Refusal::Busy)?;
        if FAULT == fault::FULL_BEFORE_STATE {
            free_slot::<FAULT>(row)?;
        }
        state
    }

    /// Whether a running request holds the record against a reader, or against a writer that needs it alone.
    #[inline]
    pub(super) fn held(row: &[Slot; SLOTS], record: Record, alone: bool) -> bool {
        row.iter().any(|slot| match slot {
            Slot::Running { request, .. } => {
                (alone || request.written().is_some()) && request.names::<FAULT>(record)
            }
            Slot::Finished { request } if FAULT == fault::HOLD_TILL_COLLECTION => {
                (alone || request.written().is_some()) && request.names::<FAULT>(record)
            }
            _ => false,
        })
    }
}

/// Whether a slot has a command, running or finished.
#[inline]
pub(super) fn command_uncollected(row: &[Slot; SLOTS]) -> bool {
    row.iter()
        .any(|slot| matches!(slot.request(), Some(Request::Command { .. })))
}

/// The lowest free slot.
#[inline]
pub(super) fn free_slot<const FAULT: u32>(row: &[Slot; SLOTS]) -> Result<usize, Refusal> {
    let slot = match FAULT {
        fault::HIGHEST_SLOT => row.iter().rposition(Slot::is_free),
        _ => row.iter().position(Slot::is_free),
    };
    slot.ok_or(Refusal::Full)
}

#[inline]
pub(super) fn require(condition: bool, refusal: Refusal) -> Result<(), Refusal> {
    match condition {
        true => Ok(()),
        false => Err(refusal),
    }
}
