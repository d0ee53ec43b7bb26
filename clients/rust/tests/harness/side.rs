//! Calls as values, the memory that they are made on, and the sides that make them.

use ecgslope::reference::{bytes, register};
use ecgslope::{Device, Lent, DEVICE_BYTES, ROOM_BYTES};

/// What a list of calls is made on. Each buffer is longer than what is usually lent, so that longer ones can be lent and what
/// stands behind them is compared.
#[derive(Clone, PartialEq, Eq)]
pub struct Memory {
    pub device: Vec<u8>,
    pub store: Vec<u8>,
    pub room: Vec<u8>,
    pub out: Vec<u8>,
}

pub const OUT_BYTES: usize = 400;

impl Memory {
    /// A closed adapter.
    pub fn new(store_len: usize) -> Memory {
        Memory {
            device: vec![0; DEVICE_BYTES + 1],
            store: vec![0; store_len + 1],
            room: vec![0; ROOM_BYTES + 1],
            out: vec![0; OUT_BYTES],
        }
    }

    /// Makes this memory the same as another of the same lengths.
    pub fn copy_from(&mut self, other: &Memory) {
        self.device.copy_from_slice(&other.device);
        self.store.copy_from_slice(&other.store);
        self.room.copy_from_slice(&other.room);
        self.out.copy_from_slice(&other.out);
    }
}

/// The lengths that a call lends.
#[derive(Clone, Copy, Debug, PartialEq, Eq)]
pub struct Lengths {
    pub device: usize,
    pub store: usize,
    pub room: usize,
}

/// Bytes of a given length.
#[derive(Clone, Copy)]
pub struct Bytes<const MOST: usize> {
    pub bytes: [u8; MOST],
    pub len: usize,
}

impl<const MOST: usize> Bytes<MOST> {
    pub fn zero(len: usize) -> Self {
        let bytes = [0; MOST];
        Bytes { bytes, len }
    }

    pub fn get(&self) -> &[u8] {
        &self.bytes[..self.len]
    }
}

impl<const MOST: usize> std::fmt::Debug for Bytes<MOST> {
    fn fmt(&self, f: &mut std::fmt::Formatter<'_>) -> std::fmt::Result {
        write!(f, "{:02x?}", self.get())
    }
}

pub type Hcr = Bytes<32>;
pub type Mailbox = Bytes<200>;

/// A call.
#[derive(Clone, Copy, Debug)]
pub enum Call {
    Command {
        hcr: Hcr,
        mailbox: Mailbox,
    },
    Engine {
        number: u32,
        index: u32,
        psn: u32,
        state: u8,
    },
    Step {
        slot: usize,
    },
    Collect {
        slot: usize,
        out: usize,
    },
    Reset,
    /// The fields are written to the front of the output, so many bytes of it lent.
    ReadRegister {
        hcr: Hcr,
        fields: usize,
    },
    /// The register is written to the front of the output, so many bytes of it lent.
    WriteRegister {
        hcr: usize,
        fields: Bytes<40>,
    },
}

/// One of the two that are compared: makes a call and gives its answer.
pub type Side = fn(&mut Memory, Lengths, &Call) -> u32;

/// The library, through the wrappers.
pub fn library(memory: &mut Memory, lengths: Lengths, call: &Call) -> u32 {
    let out = &mut memory.out;
    let mut lent = Lent {
        device: &mut memory.device[..lengths.device],
        store: &mut memory.store[..lengths.store],
        room: &mut memory.room[..lengths.room],
    };
    match *call {
        Call::Command {
            ref hcr,
            ref mailbox,
        } => lent.submit_command(hcr.get(), mailbox.get()),
        Call::Engine {
            number,
            index,
            psn,
            state,
        } => lent.submit_engine(number, index, psn, state),
        Call::Step { slot } => lent.step(slot),
        Call::Collect { slot, out: len } => lent.collect(slot, &mut out[..len]),
        Call::Reset => lent.reset(),
        Call::ReadRegister { ref hcr, fields } => {
            Device::read_register_raw(hcr.get(), &mut out[..fields])
        }
        Call::WriteRegister { hcr, ref fields } => {
            Device::write_register_raw(&mut out[..hcr], fields.get())
        }
    }
}

/// The reference with a fault; 0 is none.
pub fn reference<const FAULT: u32>(memory: &mut Memory, lengths: Lengths, call: &Call) -> u32 {
    let out = &mut memory.out;
    let mut lent = bytes::Lent::<FAULT> {
        device: &mut memory.device[..lengths.device],
        store: &mut memory.store[..lengths.store],
        room: &mut memory.room[..lengths.room],
    };
    match *call {
        Call::Command {
            ref hcr,
            ref mailbox,
        } => lent.submit_command(hcr.get(), mailbox.get()),
        Call::Engine {
            number,
            index,
            psn,
            state,
        } => lent.submit_engine(number, index, psn, state),
        Call::Step { slot } => lent.step(slot),
        Call::Collect { slot, out: len } => lent.collect(slot, &mut out[..len]),
        Call::Reset => lent.reset(),
        Call::ReadRegister { ref hcr, fields } => {
            register::read_bytes(hcr.get(), &mut out[..fields])
        }
        Call::WriteRegister { hcr, ref fields } => {
            register::write_bytes(&mut out[..hcr], fields.get())
        }
    }
}
