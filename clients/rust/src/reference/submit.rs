//! Submission of commands and of engine requests, in the order of checks of 01's table.

use super::commands::Op;
use super::permits::{command_uncollected, free_slot, require};
use super::records::{word, Record, State};
use super::request::{Engine, PsnWord, PSN_GREATEST};
use super::{fault, register, Hca, Logs, Request, Slot};
use crate::{Fields, Refusal, INIT_MAILBOX_BYTES, SLOTS};

const INIT_HCA: u16 = 0x07;
const CLOSE_HCA: u16 = 0x08;
const NOP: u16 = 0x31;

impl<const FAULT: u32> Hca<FAULT> {
    /// Submits a command. Gives the slot that it took, or none where it is done at once.
    #[inline(never)]
    pub fn submit_command(
        &mut self,
        row: &mut [Slot],
        store: &mut [u8],
        room: &mut [u8],
        hcr: &[u8],
        mailbox: &[u8],
    ) -> Result<Option<usize>, Refusal> {
        let row = self.lent(row, store.len(), room.len())?;
        let hcr = hcr.first_chunk().ok_or(Refusal::BadLength)?;
        self.judge(row, store.len())?;
        let fields = register::read(hcr)?;
        require(
            !fields.event || FAULT == fault::EVENT_ACCEPTED,
            Refusal::BadParameter,
        )?;
        match fields.op {
            INIT_HCA => self.init_hca(store, &fields, mailbox).map(|()| None),
            CLOSE_HCA => self.close_hca(row, &fields).map(|()| None),
            NOP => self.nop(row, &fields).map(|()| None),
            number => {
                let op = Op::from_number(number).ok_or(Refusal::NotServed)?;
                self.on_record(op, row, store, room, &fields, mailbox)
                    .map(Some)
            }
        }
    }

    /// While closed no slot is occupied, so no command can be uncollected.
    fn init_hca(
        &mut self,
        store: &mut [u8],
        fields: &Fields,
        mailbox: &[u8],
    ) -> Result<(), Refusal> {
        require(!self.open, Refusal::BadSystemState)?;
        self.no_modifiers(fields)?;
        let front = mailbox.get(..INIT_MAILBOX_BYTES);
        let logs = Logs::from_mailbox(front.ok_or(Refusal::BadLength)?);
        require(
            logs.in_range() && logs.bytes() <= store.len(),
            Refusal::BadParameter,
        )?;
        store[..logs.bytes()].fill(0);
        self.open = true;
        self.logs = logs;
        self.store_len = store.len() as u64;
        Ok(())
    }

    fn close_hca(&mut self, row: &[Slot; SLOTS], fields: &Fields) -> Result<(), Refusal> {
        require(self.open, Refusal::BadSystemState)?;
        let empty = row.iter().all(Slot::is_free) || FAULT == fault::CLOSE_WHILE_OCCUPIED;
        require(empty, Refusal::Busy)?;
        self.no_modifiers(fields)?;
        self.open = false;
        Ok(())
    }

    fn nop(&self, row: &[Slot; SLOTS], fields: &Fields) -> Result<(), Refusal> {
        require(
            self.open || FAULT != fault::NOP_WHILE_CLOSED,
            Refusal::BadSystemState,
        )?;
        require(!command_uncollected(row), Refusal::Busy)?;
        self.no_modifiers(fields)
    }

    /// A command without a record has 0 in both modifiers.
    fn no_modifiers(&self, fields: &Fields) -> Result<(), Refusal> {
        let op_modifier_right = fields.op_modifier == 0 || FAULT == fault::OP_MODIFIER_UNTESTED;
        require(
            op_modifier_right && fields.in_modifier == 0,
            Refusal::BadParameter,
        )
    }

    #[inline]
    fn on_record(
        &self,
        op: Op,
        row: &mut [Slot; SLOTS],
        store: &[u8],
        room: &mut [u8],
        fields: &Fields,
        mailbox: &[u8],
    ) -> Result<usize, Refusal> {
        require(self.open, Refusal::BadSystemState)?;
        require(!command_uncollected(row), Refusal::Busy)?;
        let record = Record {
            kind: op.kind(),
            number: fields.in_modifier,
        };
        let op_modifier_right =
            fields.op_modifier == op.op_modifier() || FAULT == fault::OP_MODIFIER_UNTESTED;
        require(
            op_modifier_right && self.index_right(record),
            Refusal::BadParameter,
        )?;
        let front = mailbox.get(..op.mailbox_bytes());
        let front = front.ok_or(Refusal::BadLength)?;
        require(
            Self::content_right(op, record, front),
            Refusal::BadParameter,
        )?;
        let alone = op.writes() || FAULT == fault::QUERY_HOLDS_ALONE;
        let permitted = Self::permits(op, &store[self.logs.offset(record)..]);
        let denial = (!permitted).then_some(Refusal::NotPermitted);
        self.hold_then_state(row, record, alone, denial)
            .inspect_err(|refusal| {
                if FAULT == fault::REFUSAL_WRITES && *refusal == Refusal::NotPermitted {
                    room[..front.len()].copy_from_slice(front);
                }
            })?;
        let slot = free_slot::<FAULT>(row)?;
        let at = Self::room_offset(slot);
        room[at..at + front.len()].copy_from_slice(front);
        row[slot] = Slot::Running {
            request: Request::Command {
                op,
                number: record.number,
            },
            moved: 0,
        };
        Ok(slot)
    }

    /// Submits an engine request. Gives the slot that it took.
    #[inline(never)]
    #[allow(clippy::too_many_arguments)]
    pub fn submit_engine(
        &self,
        row: &mut [Slot],
        store: &[u8],
        room: &[u8],
        number: u32,
        index: u32,
        psn: u32,
        state: u8,
    ) -> Result<usize, Refusal> {
        let row = self.lent(row, store.len(), room.len())?;
        self.judge(row, store.len())?;
        require((1..=7).contains(&number), Refusal::NotServed)?;
        require(self.open, Refusal::BadSystemState)?;
        let record = Record::qp(index);
        require(self.index_right(record), Refusal::BadParameter)?;
        let qp = index;
        let engine = match number {
            1 => Engine::ReadState { qp },
            2 => Engine::ReadNextPsn { qp },
            6 => Engine::ReadAll { qp },
            7 => self.joined(row, store, qp)?,
            _ => {
                let word = match number {
                    3 => PsnWord::Next,
                    4 => PsnWord::LastAcked,
                    _ => PsnWord::Expected,
                };
                let psn_right = psn <= PSN_GREATEST || FAULT == fault::PSN_LIMIT && psn == 1 << 24;
                require(psn_right, Refusal::BadParameter)?;
                let state = State::from_code(state).ok_or(Refusal::BadParameter)?;
                Engine::Write {
                    word,
                    qp,
                    psn,
                    state,
                }
            }
        };
        match engine {
            Engine::Write { state, .. } => {
                let bytes = &store[self.logs.offset(record)..];
                let denial = Self::engine_denial(bytes, state);
                self.hold_then_state(row, record, true, denial)?;
            }
            Engine::ReadJoined { .. } => {}
            _ => require(!Self::held(row, record, false), Refusal::Busy)?,
        }
        let slot = free_slot::<FAULT>(row)?;
        row[slot] = Slot::Running {
            request: Request::Engine(engine),
            moved: 0,
        };
        Ok(slot)
    }

    /// Request 7's names (02, wish 2): the queue pair's hold, then for the CQ and after it the EQ its range and its hold.
    fn joined(&self, row: &[Slot; SLOTS], store: &[u8], qp: u32) -> Result<Engine, Refusal> {
        let name = |record, at| {
            let name = word(&store[self.logs.offset(record)..], at);
            match FAULT {
                fault::NAMES_OF_24_BITS => name & 0xff_ffff,
                _ => name,
            }
        };
        let named = |record| {
            require(self.logs.has(record), Refusal::BadParameter)?;
            require(!Self::held(row, record, false), Refusal::Busy)
        };
        named(Record::qp(qp))?;
        let cq = name(Record::qp(qp), 0x70);
        named(Record::cq(cq))?;
        let eq = name(Record::cq(cq), 0x10);
        named(Record::eq(eq))?;
        Ok(Engine::ReadJoined { qp, cq, eq })
    }
}
