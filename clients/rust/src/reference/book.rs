//! The plain book of demand 3 (01): every record as bytes, whole requests at once, no bursts and no holds.

use super::commands::Op;
use super::records::{
    service_type, set_state, state_code, word, Record, State, HARDWARE, OTHER_BYTES, OWNER_BYTE,
    QP_BYTES, RC,
};
use super::Logs;
use crate::{Refusal, ANSWER_BYTES, QP_MAILBOX_BYTES};

/// A request as it was submitted: what the book is fed.
#[derive(Clone, Debug)]
pub enum Fed {
    CloseHca,
    Nop,
    /// A command on a record, with the needed front of its mailbox.
    Command {
        op: Op,
        number: u32,
        front: [u8; QP_MAILBOX_BYTES],
    },
    Engine {
        number: u32,
        qp: u32,
        psn: u32,
        state: u8,
    },
}

/// The bytes of an answer.
pub type Answer = Vec<u8>;

/// The book.
#[derive(Clone)]
pub struct Book {
    open: bool,
    logs: Logs,
    records: Vec<u8>,
}

impl Book {
    /// The book as an INIT_HCA leaves it: open, all records zero.
    pub fn initialised(logs: Logs) -> Book {
        Book {
            open: true,
            logs,
            records: vec![0; logs.bytes()],
        }
    }

    /// A record's bytes.
    pub fn record(&self, record: Record) -> &[u8] {
        let at = self.logs.offset(record);
        &self.records[at..at + size(record)]
    }

    fn record_mut(&mut self, record: Record) -> &mut [u8] {
        let at = self.logs.offset(record);
        &mut self.records[at..at + size(record)]
    }

    /// Feeds the book a request. It answers, or gives a number and stays as it is.
    pub fn feed(&mut self, request: &Fed) -> Result<Answer, Refusal> {
        if !self.open && !matches!(request, Fed::Nop) {
            return Err(Refusal::BadSystemState);
        }
        match *request {
            Fed::Nop => Ok(Vec::new()),
            Fed::CloseHca => {
                self.open = false;
                Ok(Vec::new())
            }
            Fed::Command {
                op,
                number,
                ref front,
            } => self.command(op, number, front),
            Fed::Engine {
                number,
                qp,
                psn,
                state,
            } => match number {
                3 => self.engine_write(qp, 0x6c, psn, state),
                4 => self.engine_write(qp, 0x7c, psn, state),
                5 => self.engine_write(qp, 0x84, psn, state),
                7 => self.joined(qp),
                _ => Ok(self.engine_read(number, self.record(Record::qp(qp)))),
            },
        }
    }

    fn command(
        &mut self,
        op: Op,
        number: u32,
        front: &[u8; QP_MAILBOX_BYTES],
    ) -> Result<Answer, Refusal> {
        let kind = op.kind();
        let record = self.record_mut(Record { kind, number });
        if op == Op::QueryQp {
            return Ok(record.to_vec());
        }
        let permitted = match op {
            Op::Sw2HwMpt | Op::Sw2HwEq | Op::Sw2HwCq => record[OWNER_BYTE] != HARDWARE,
            Op::Hw2SwMpt | Op::Hw2SwEq | Op::Hw2SwCq | Op::ResizeCq => {
                record[OWNER_BYTE] == HARDWARE
            }
            _ => State::from_code(state_code(record)).is_some_and(|state| op.from(state)),
        };
        if !permitted {
            return Err(Refusal::NotPermitted);
        }
        match op {
            Op::Sw2HwMpt | Op::Sw2HwEq | Op::Sw2HwCq => {
                let stored = op.mailbox_bytes();
                record.fill(0);
                record[..stored].copy_from_slice(&front[..stored]);
                record[OWNER_BYTE] = HARDWARE;
            }
            Op::Hw2SwMpt | Op::Hw2SwEq | Op::Hw2SwCq | Op::ToReset => record.fill(0),
            Op::ResizeCq => {
                record[0x0c] = front[0];
                record[0x18..0x1c].copy_from_slice(&front[4..8]);
            }
            _ => {
                for at in (0..QP_MAILBOX_BYTES).step_by(4) {
                    if op.words() >> (at / 4) & 1 == 1 {
                        record[at..at + 4].copy_from_slice(&front[at..at + 4]);
                    }
                }
                set_state(record, op.to().expect("every other command is an edge"));
            }
        }
        Ok(Vec::new())
    }

    fn engine_write(&mut self, qp: u32, at: usize, psn: u32, to: u8) -> Result<Answer, Refusal> {
        const KEPT: [State; 4] = [State::Rtr, State::Rts, State::Sqd, State::Sqe];
        let record = self.record_mut(Record::qp(qp));
        let from = State::from_code(state_code(record));
        let to = State::from_code(to).expect("an accepted write has a state");
        let starts = from.is_some_and(|from| KEPT.contains(&from));
        let ends = match to {
            State::Err => true,
            State::Sqe => from != Some(State::Rtr),
            _ => from == Some(to),
        };
        if !starts || !ends {
            return Err(Refusal::NotPermitted);
        }
        // Every other type than RC may leave RTS and SQD for SQE (02, wish 5).
        if to == State::Sqe && from != Some(to) && service_type(record) == RC {
            return Err(Refusal::NotForType);
        }
        set_state(record, to);
        record[at + 1..at + 4].copy_from_slice(&psn.to_be_bytes()[1..]);
        Ok(Vec::new())
    }

    fn engine_read(&self, number: u32, record: &[u8]) -> Answer {
        match number {
            1 => vec![state_code(record)],
            2 => {
                let [_, high, middle, low] = word(record, 0x6c).to_be_bytes();
                vec![state_code(record), high, middle, low]
            }
            _ => record.to_vec(),
        }
    }

    /// Request 7. A name out of range is refused with 3, which counts as a refusal for the record's state (02, wish 2).
    fn joined(&self, qp: u32) -> Result<Answer, Refusal> {
        let named = |record: Record| match self.logs.has(record) {
            true => Ok(self.record(record)),
            false => Err(Refusal::BadParameter),
        };
        let qp = named(Record::qp(qp))?;
        let cq = named(Record::cq(word(qp, 0x70)))?;
        let eq = named(Record::eq(word(cq, 0x10)))?;
        let mut answer = Vec::with_capacity(ANSWER_BYTES);
        answer.extend_from_slice(qp);
        answer.extend_from_slice(cq);
        answer.extend_from_slice(eq);
        Ok(answer)
    }
}

fn size(record: Record) -> usize {
    match record.kind {
        super::records::Kind::Qp => QP_BYTES,
        _ => OTHER_BYTES,
    }
}
