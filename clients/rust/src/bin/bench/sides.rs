//! The two sides of the benchmark. Both pay a call for every operation and give the same 32-bit answers.

use ecgslope::reference::{Hca, Slot};
use ecgslope::{Device, Refusal, ANSWER_BYTES, ROOM_BYTES, SLOTS};

/// An adapter, with the answer and the output of its last call.
pub trait Side {
    fn new(store_len: usize) -> Self;
    fn submit_command(&mut self, hcr: &[u8; 28], mailbox: &[u8]) -> u32;
    fn submit_engine(&mut self, number: u32, index: u32, psn: u32, state: u8) -> u32;
    fn step(&mut self, slot: usize) -> u32;
    fn collect(&mut self, slot: usize, out: &mut [u8; ANSWER_BYTES]) -> u32;
    /// The context store.
    fn store(&self) -> &[u8];
}

impl Side for Device {
    fn new(store_len: usize) -> Self {
        Device::new(store_len)
    }

    #[inline]
    fn submit_command(&mut self, hcr: &[u8; 28], mailbox: &[u8]) -> u32 {
        self.raw().submit_command(hcr, mailbox)
    }

    #[inline]
    fn submit_engine(&mut self, number: u32, index: u32, psn: u32, state: u8) -> u32 {
        self.raw().submit_engine(number, index, psn, state)
    }

    #[inline]
    fn step(&mut self, slot: usize) -> u32 {
        self.raw().step(slot)
    }

    #[inline]
    fn collect(&mut self, slot: usize, out: &mut [u8; ANSWER_BYTES]) -> u32 {
        self.raw().collect(slot, out)
    }

    fn store(&self) -> &[u8] {
        self.store()
    }
}

/// The reference in its typed form: the row is lent as slots, there are no bytes to decode.
pub struct Reference {
    hca: Hca,
    row: [Slot; SLOTS],
    store: Vec<u8>,
    room: Box<[u8]>,
}

impl Side for Reference {
    fn new(store_len: usize) -> Self {
        Reference {
            hca: Hca::closed(),
            row: [Slot::Free; SLOTS],
            store: vec![0; store_len],
            room: vec![0; ROOM_BYTES].into(),
        }
    }

    #[inline]
    fn submit_command(&mut self, hcr: &[u8; 28], mailbox: &[u8]) -> u32 {
        let (store, room) = (&mut self.store, &mut self.room);
        let taken = self
            .hca
            .submit_command(&mut self.row, store, room, hcr, mailbox);
        answer(taken.map(|slot| slot.map_or(0, |slot| slot + 1)))
    }

    #[inline]
    fn submit_engine(&mut self, number: u32, index: u32, psn: u32, state: u8) -> u32 {
        let (row, store) = (&mut self.row, &self.store);
        let taken = self
            .hca
            .submit_engine(row, store, &self.room, number, index, psn, state);
        answer(taken.map(|slot| slot + 1))
    }

    #[inline]
    fn step(&mut self, slot: usize) -> u32 {
        let (store, room) = (&mut self.store, &mut self.room);
        answer(
            self.hca
                .step(&mut self.row, store, room, slot)
                .map(usize::from),
        )
    }

    #[inline]
    fn collect(&mut self, slot: usize, out: &mut [u8; ANSWER_BYTES]) -> u32 {
        let (store, room) = (&self.store, &self.room);
        answer(self.hca.collect(&mut self.row, store, room, slot, out))
    }

    fn store(&self) -> &[u8] {
        &self.store
    }
}

#[inline]
fn answer(result: Result<usize, Refusal>) -> u32 {
    match result {
        Ok(value) => (value as u32) << 8,
        Err(refusal) => refusal.number(),
    }
}
