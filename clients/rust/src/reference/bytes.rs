//! The reference on the interface's bytes: the device decoded, the typed call made, and what it changed encoded. The layout is the
//! one in the comment of `include/ecgslope.h`. Decoding is total: bytes that are no slot become [`Slot::Impossible`].

use super::commands::Op;
use super::records::State;
use super::request::{Engine, PsnWord};
use super::{Hca, Logs, Request, Slot};
use crate::{Refusal, DEVICE_BYTES, SLOTS};

const PART: usize = 32;
const RUNNING: u8 = 1;
const FINISHED: u8 = 2;
const COMMAND: u8 = 0;
const ENGINE: u8 = 1;

type Row = [Slot; SLOTS];

/// The state and the row of a device's bytes.
pub fn decode<const FAULT: u32>(device: &[u8; DEVICE_BYTES]) -> (Hca<FAULT>, Row) {
    let (header, slots) = device.split_at(PART);
    let hca = Hca {
        open: header[0] == 1,
        logs: Logs([header[1], header[2], header[3], header[4]]),
        store_len: u64::from_le_bytes(header[8..16].try_into().expect("8 bytes")),
    };
    let mut row = [Slot::Free; SLOTS];
    for (slot, bytes) in row.iter_mut().zip(slots.chunks_exact(PART)) {
        // An open flag above 1 is no possible state either. Reset accepts it.
        *slot = match header[0] {
            0 | 1 => decode_slot(bytes).unwrap_or(Slot::Impossible),
            _ => Slot::Impossible,
        };
    }
    (hca, row)
}

fn number(bytes: &[u8], at: usize) -> u32 {
    u32::from_le_bytes(bytes[at..at + 4].try_into().expect("4 bytes"))
}

fn decode_slot(bytes: &[u8]) -> Option<Slot> {
    if bytes[0] == 0 {
        return Some(Slot::Free);
    }
    let request = decode_request(bytes)?;
    let moved = bytes[2];
    match bytes[0] {
        RUNNING => Some(Slot::Running { request, moved }),
        FINISHED if moved == request.bursts() => Some(Slot::Finished { request }),
        _ => None,
    }
}

fn decode_request(bytes: &[u8]) -> Option<Request> {
    let op = u16::from_le_bytes([bytes[4], bytes[5]]);
    let index = number(bytes, 8);
    match bytes[1] {
        COMMAND => {
            let op = Op::from_number(op)?;
            (bytes[3] == op.op_modifier()).then_some(Request::Command { op, number: index })
        }
        ENGINE => {
            let qp = index;
            let write = |word| {
                Some(Engine::Write {
                    word,
                    qp,
                    psn: number(bytes, 20),
                    state: State::from_code(bytes[24])?,
                })
            };
            Some(Request::Engine(match op {
                1 => Engine::ReadState { qp },
                2 => Engine::ReadNextPsn { qp },
                3 => write(PsnWord::Next)?,
                4 => write(PsnWord::LastAcked)?,
                5 => write(PsnWord::Expected)?,
                6 => Engine::ReadAll { qp },
                7 => Engine::ReadJoined {
                    qp,
                    cq: number(bytes, 12),
                    eq: number(bytes, 16),
                },
                _ => return None,
            }))
        }
        _ => None,
    }
}

/// Writes the header's 32 bytes.
fn encode_header<const FAULT: u32>(hca: &Hca<FAULT>, device: &mut [u8; DEVICE_BYTES]) {
    let header = &mut device[..PART];
    header.fill(0);
    header[0] = hca.open.into();
    header[1..5].copy_from_slice(&hca.logs.0);
    header[8..16].copy_from_slice(&hca.store_len.to_le_bytes());
}

/// Writes a slot's status and bursts moved, all that a step changes.
fn encode_progress(row: &Row, slot: usize, device: &mut [u8; DEVICE_BYTES]) {
    let bytes = &mut device[PART + PART * slot..][..PART];
    (bytes[0], bytes[2]) = match &row[slot] {
        Slot::Running { moved, .. } => (RUNNING, *moved),
        Slot::Finished { request } => (FINISHED, request.bursts()),
        Slot::Free | Slot::Impossible => (0, 0),
    };
}

/// Writes a slot's 32 bytes.
fn encode_slot(row: &Row, slot: usize, device: &mut [u8; DEVICE_BYTES]) {
    device[PART + PART * slot..][..PART].fill(0);
    encode_progress(row, slot, device);
    let bytes = &mut device[PART + PART * slot..][..PART];
    let Some(&request) = row[slot].request() else {
        return;
    };
    let mut put = |at: usize, number: u32| {
        bytes[at..at + 4].copy_from_slice(&number.to_le_bytes());
    };
    match request {
        Request::Command { op, number } => {
            put(4, op as u32);
            put(8, number);
            bytes[1] = COMMAND;
            bytes[3] = op.op_modifier();
        }
        Request::Engine(engine) => {
            let (number, index) = match engine {
                Engine::ReadState { qp } => (1, qp),
                Engine::ReadNextPsn { qp } => (2, qp),
                Engine::ReadAll { qp } => (6, qp),
                Engine::ReadJoined { qp, cq, eq } => {
                    put(12, cq);
                    put(16, eq);
                    (7, qp)
                }
                Engine::Write {
                    word,
                    qp,
                    psn,
                    state,
                } => {
                    put(20, psn);
                    put(24, state as u32);
                    let number = match word {
                        PsnWord::Next => 3,
                        PsnWord::LastAcked => 4,
                        PsnWord::Expected => 5,
                    };
                    (number, qp)
                }
            };
            put(4, number);
            put(8, index);
            bytes[1] = ENGINE;
        }
    }
}

/// The interface's answer: the number returned, or the value above it.
fn answer(result: Result<usize, Refusal>) -> u32 {
    match result {
        Ok(value) => (value as u32) << 8,
        Err(refusal) => refusal.number(),
    }
}

/// The five calls on lent bytes, as the interface has them.
pub struct Lent<'a, const FAULT: u32> {
    pub device: &'a mut [u8],
    pub store: &'a mut [u8],
    pub room: &'a mut [u8],
}

impl<const FAULT: u32> Lent<'_, FAULT> {
    pub fn submit_command(&mut self, hcr: &[u8], mailbox: &[u8]) -> u32 {
        self.call(|hca, row, device, store, room| {
            let taken = hca.submit_command(row, store, room, hcr, mailbox)?;
            match taken {
                Some(slot) => encode_slot(row, slot, device),
                None => encode_header(hca, device),
            }
            Ok(taken.map_or(0, |slot| slot + 1))
        })
    }

    pub fn submit_engine(&mut self, number: u32, index: u32, psn: u32, state: u8) -> u32 {
        self.call(|hca, row, device, store, room| {
            let slot = hca.submit_engine(row, store, room, number, index, psn, state)?;
            encode_slot(row, slot, device);
            Ok(slot + 1)
        })
    }

    pub fn step(&mut self, slot: usize) -> u32 {
        self.call(|hca, row, device, store, room| {
            let left = hca.step(row, store, room, slot)?;
            encode_progress(row, slot, device);
            Ok(left.into())
        })
    }

    pub fn collect(&mut self, slot: usize, out: &mut [u8]) -> u32 {
        self.call(|hca, row, device, store, room| {
            let written = hca.collect(row, store, room, slot, out)?;
            encode_slot(row, slot, device);
            Ok(written)
        })
    }

    pub fn reset(&mut self) -> u32 {
        self.call(|hca, row, device, _, room| {
            hca.reset(row, room)?;
            encode_header(hca, device);
            (0..SLOTS).for_each(|slot| encode_slot(row, slot, device));
            Ok(0)
        })
    }

    /// Decodes for a call. A device of another length is refused first.
    fn call<F>(&mut self, call: F) -> u32
    where
        F: FnOnce(
            &mut Hca<FAULT>,
            &mut Row,
            &mut [u8; DEVICE_BYTES],
            &mut [u8],
            &mut [u8],
        ) -> Result<usize, Refusal>,
    {
        let Ok(device) = <&mut [u8; DEVICE_BYTES]>::try_from(&mut *self.device) else {
            return Refusal::BadLength.number();
        };
        let (mut hca, mut row) = decode(device);
        answer(call(&mut hca, &mut row, device, self.store, self.room))
    }
}
