//! Step, collect and reset (01, "Bursts, slots and holds").

use super::commands::Op;
use super::records::{set_state, state_code, Record, BURST_BYTES, HARDWARE};
use super::request::{Engine, PsnWord};
use super::{fault, Hca, Request, Slot};
use crate::{Refusal, ROOM_BYTES, SLOTS, SLOT_ROOM_BYTES};

impl<const FAULT: u32> Hca<FAULT> {
    /// Moves one burst of a slot's request. Gives the bursts still to move.
    #[inline(never)]
    pub fn step(
        &self,
        row: &mut [Slot],
        store: &mut [u8],
        room: &mut [u8],
        slot: usize,
    ) -> Result<u8, Refusal> {
        let row = self.lent(row, store.len(), room.len())?;
        self.judge(row, store.len())?;
        let Some(&Slot::Running { request, moved }) = row.get(slot) else {
            return Err(Refusal::NoRequest);
        };
        let total = match (FAULT, request) {
            (fault::BURST_COUNT, Request::Engine(Engine::ReadAll { .. })) => 15,
            _ => request.bursts(),
        };
        let at = Self::room_offset(slot);
        let part = &mut room[at..at + SLOT_ROOM_BYTES];
        if FAULT != fault::ALL_AT_ONCE {
            self.burst(&request, usize::from(moved), store, part);
        } else if moved == 0 {
            for burst in 0..total {
                self.burst(&request, burst.into(), store, part);
            }
        }
        let moved = moved + 1;
        row[slot] = if moved < total {
            Slot::Running { request, moved }
        } else if FAULT == fault::SLOT_FREED_EARLY {
            Slot::Free
        } else {
            Slot::Finished { request }
        };
        Ok(total.saturating_sub(moved))
    }

    /// The effect of one burst on the record or on the slot's part of the room.
    #[inline]
    fn burst(&self, request: &Request, burst: usize, store: &mut [u8], part: &mut [u8]) {
        match *request {
            Request::Command { op, number } => {
                let kind = op.kind();
                let target = self.target(store, Record { kind, number }, burst);
                match op {
                    Op::QueryQp => read(target, burst, part),
                    Op::Sw2HwMpt | Op::Sw2HwEq | Op::Sw2HwCq => {
                        hand_over(target, burst, &part[..op.mailbox_bytes()])
                    }
                    Op::Hw2SwMpt | Op::Hw2SwEq | Op::Hw2SwCq | Op::ToReset => target.fill(0),
                    Op::ResizeCq => resize(target, burst, part),
                    _ => Self::edge(op, target, burst, part),
                }
            }
            Request::Engine(engine) => match engine {
                Engine::ReadState { qp } | Engine::ReadAll { qp } => {
                    read(self.target(store, Record::qp(qp), burst), burst, part)
                }
                Engine::ReadNextPsn { qp } => {
                    let burst = state_or_psn(burst, PsnWord::Next);
                    read(self.target(store, Record::qp(qp), burst), burst, part)
                }
                Engine::Write {
                    word,
                    qp,
                    psn,
                    state,
                } => {
                    let at = state_or_psn(burst, word);
                    let target = self.target(store, Record::qp(qp), at);
                    match burst {
                        0 => set_state(target, state),
                        _ => Self::write_psn(target, word, psn),
                    }
                }
                Engine::ReadJoined { qp, cq, eq } => {
                    let (record, first) = match burst {
                        0..16 => (Record::qp(qp), 0),
                        16..20 => (Record::cq(cq), 16),
                        _ => (Record::eq(eq), 20),
                    };
                    read(self.target(store, record, burst - first), burst, part)
                }
            },
        }
    }

    /// A burst of a record in the store.
    #[inline]
    fn target<'a>(
        &self,
        store: &'a mut [u8],
        record: Record,
        burst: usize,
    ) -> &'a mut [u8; BURST_BYTES] {
        let at = self.logs.offset(record) + BURST_BYTES * burst;
        store[at..].first_chunk_mut().expect("a record in use")
    }

    /// Takes the words named from the image and sets the state, whose burst is the first.
    #[inline]
    fn edge(op: Op, target: &mut [u8; BURST_BYTES], burst: usize, image: &[u8]) {
        let taken = op.words() >> (4 * burst);
        let image = &image[BURST_BYTES * burst..][..BURST_BYTES];
        for (n, (to, from)) in target
            .chunks_exact_mut(4)
            .zip(image.chunks_exact(4))
            .enumerate()
        {
            if taken >> n & 1 == 1 {
                let top = to[0];
                to.copy_from_slice(from);
                let expected = burst == 0x84 / BURST_BYTES && n == 0x84 % BURST_BYTES / 4;
                if FAULT == fault::TOP_BYTE_KEPT && op == Op::Init2Rtr && expected {
                    to[0] = top;
                }
            }
        }
        if let (0, Some(state)) = (burst, op.to()) {
            if FAULT != fault::STATE_FROM_MAILBOX || taken & 1 == 0 {
                set_state(target, state);
            }
        }
    }

    /// Writes the PSN, the low 24 bits of its word, and keeps the top byte.
    #[inline]
    fn write_psn(target: &mut [u8; BURST_BYTES], word: PsnWord, psn: u32) {
        let at = word as usize % BURST_BYTES;
        let bytes = psn.to_be_bytes();
        target[at + 1..at + 4].copy_from_slice(&bytes[1..]);
        if FAULT == fault::RNR_BYTE_CHANGED && word == PsnWord::Expected {
            target[at] = bytes[0];
        }
    }

    /// Frees a finished slot and writes its answer at the front of `out`. Gives the bytes written.
    #[inline(never)]
    pub fn collect(
        &self,
        row: &mut [Slot],
        store: &[u8],
        room: &[u8],
        slot: usize,
        out: &mut [u8],
    ) -> Result<usize, Refusal> {
        let row = self.lent(row, store.len(), room.len())?;
        self.judge(row, store.len())?;
        let request = match row.get(slot) {
            Some(Slot::Finished { request }) => *request,
            Some(Slot::Running { .. }) => return Err(Refusal::StillRunning),
            _ => return Err(Refusal::NoRequest),
        };
        let len = request.answer_bytes();
        let out = out.get_mut(..len).ok_or(Refusal::BadLength)?;
        let part = &room[Self::room_offset(slot)..][..SLOT_ROOM_BYTES];
        match request {
            Request::Engine(Engine::ReadState { .. }) => out[0] = state_code(part),
            Request::Engine(Engine::ReadNextPsn { .. }) => {
                out[0] = state_code(part);
                out[1..].copy_from_slice(&part[0x6d..0x70]);
            }
            _ => out.copy_from_slice(&part[..len]),
        }
        row[slot] = Slot::Free;
        Ok(len)
    }

    /// Empties the row and closes. Tests row and room alone; store and room stay.
    #[inline(never)]
    pub fn reset(&mut self, row: &mut [Slot], room: &[u8]) -> Result<(), Refusal> {
        if row.len() != SLOTS || room.len() < ROOM_BYTES {
            return Err(Refusal::BadLength);
        }
        row.fill(Slot::Free);
        self.open = false;
        Ok(())
    }
}

/// Copies a burst to its offset in the slot's part of the room.
#[inline]
fn read(target: &[u8; BURST_BYTES], burst: usize, part: &mut [u8]) {
    part[BURST_BYTES * burst..][..BURST_BYTES].copy_from_slice(target);
}

/// SW2HW: the mailbox bytes, then zeros, and the owner byte last.
#[inline]
fn hand_over(target: &mut [u8; BURST_BYTES], burst: usize, mailbox: &[u8]) {
    let from = &mailbox[BURST_BYTES * burst..];
    let len = from.len().min(BURST_BYTES);
    target[..len].copy_from_slice(&from[..len]);
    target[len..].fill(0);
    if burst == 3 {
        target[BURST_BYTES - 1] = HARDWARE;
    }
}

/// RESIZE_CQ: mailbox byte 00h becomes byte 0Ch, mailbox word 04h becomes word 18h.
#[inline]
fn resize(target: &mut [u8; BURST_BYTES], burst: usize, mailbox: &[u8]) {
    match burst {
        0 => target[0x0c] = mailbox[0],
        1 => target[0x18 - BURST_BYTES..][..4].copy_from_slice(&mailbox[4..8]),
        _ => {}
    }
}

/// Requests 2 to 5 move the state's burst, then the PSN's.
#[inline]
fn state_or_psn(burst: usize, word: PsnWord) -> usize {
    match burst {
        0 => 0,
        _ => word as usize / BURST_BYTES,
    }
}
