//! Safe wrappers of the library. [`Lent`] borrows what a call lends and gives the interface's 32-bit answers; [`Device`] owns the
//! buffers and gives typed results.

use crate::{ffi, Refusal, DEVICE_BYTES, FIELDS_BYTES, REGISTER_BYTES, ROOM_BYTES};

/// What is lent at every call. Buffers of any length and content may be lent.
pub struct Lent<'a> {
    pub device: &'a mut [u8],
    pub store: &'a mut [u8],
    pub room: &'a mut [u8],
}

impl Lent<'_> {
    /// Submits a command as its register's bytes, with its mailbox.
    pub fn submit_command(&mut self, hcr: &[u8], mailbox: &[u8]) -> u32 {
        ffi::submit_command(self.device, self.store, self.room, hcr, mailbox)
    }

    /// Submits an engine request. PSN and state are looked at by requests 3 to 5 alone.
    pub fn submit_engine(&mut self, number: u32, index: u32, psn: u32, state: u8) -> u32 {
        let request = (number, index, psn, state);
        ffi::submit_engine(self.device, self.store, self.room, request)
    }

    /// Moves one burst of the request in a slot.
    pub fn step(&mut self, slot: usize) -> u32 {
        ffi::step(self.device, self.store, self.room, slot)
    }

    /// Frees a finished slot and writes its answer at the front of `out`.
    pub fn collect(&mut self, slot: usize, out: &mut [u8]) -> u32 {
        ffi::collect(self.device, self.store, self.room, slot, out)
    }

    /// Empties the row and closes.
    pub fn reset(&mut self) -> u32 {
        ffi::reset(self.device, self.store, self.room)
    }
}

/// An adapter with its own buffers.
pub struct Device {
    device: Box<[u8]>,
    store: Vec<u8>,
    room: Box<[u8]>,
}

impl Device {
    /// A closed adapter with a zero store of this length.
    pub fn new(store_len: usize) -> Device {
        Device::with_store(vec![0; store_len])
    }

    /// A closed adapter with this store.
    pub fn with_store(store: Vec<u8>) -> Device {
        Device {
            device: vec![0; DEVICE_BYTES].into(),
            store,
            room: vec![0; ROOM_BYTES].into(),
        }
    }

    /// Lends the buffers to calls that give the interface's answers.
    pub fn raw(&mut self) -> Lent<'_> {
        Lent {
            device: &mut self.device,
            store: &mut self.store,
            room: &mut self.room,
        }
    }

    /// Submits a command. Gives the slot that it took, or none for INIT_HCA, CLOSE_HCA and NOP.
    pub fn submit_command(&mut self, hcr: &[u8], mailbox: &[u8]) -> Result<Option<usize>, Refusal> {
        let value = value(self.raw().submit_command(hcr, mailbox))?;
        Ok(value.checked_sub(1))
    }

    /// Submits an engine request. Gives the slot that it took.
    pub fn submit_engine(
        &mut self,
        number: u32,
        index: u32,
        psn: u32,
        state: u8,
    ) -> Result<usize, Refusal> {
        let value = value(self.raw().submit_engine(number, index, psn, state))?;
        Ok(value - 1)
    }

    /// Moves one burst. Gives the bursts still to move.
    pub fn step(&mut self, slot: usize) -> Result<usize, Refusal> {
        value(self.raw().step(slot))
    }

    /// Collects a finished slot. Gives the bytes written to the front of `out`.
    pub fn collect(&mut self, slot: usize, out: &mut [u8]) -> Result<usize, Refusal> {
        value(self.raw().collect(slot, out))
    }

    /// Empties the row and closes.
    pub fn reset(&mut self) -> Result<(), Refusal> {
        value(self.raw().reset()).map(|_| ())
    }

    /// The adapter's state and row.
    pub fn device(&self) -> &[u8] {
        &self.device
    }

    pub fn device_mut(&mut self) -> &mut [u8] {
        &mut self.device
    }

    /// The context store.
    pub fn store(&self) -> &[u8] {
        &self.store
    }

    pub fn store_mut(&mut self) -> &mut [u8] {
        &mut self.store
    }

    /// The working room.
    pub fn room(&self) -> &[u8] {
        &self.room
    }

    pub fn room_mut(&mut self) -> &mut [u8] {
        &mut self.room
    }

    /// Reads a command register.
    pub fn read_register(hcr: &[u8]) -> Result<Fields, Refusal> {
        let mut fields = [0; FIELDS_BYTES];
        value(Self::read_register_raw(hcr, &mut fields))?;
        Ok(Fields::from_bytes(&fields))
    }

    /// Writes a command register.
    pub fn write_register(fields: &Fields) -> Result<[u8; REGISTER_BYTES], Refusal> {
        let mut hcr = [0; REGISTER_BYTES];
        value(Self::write_register_raw(&mut hcr, &fields.to_bytes()))?;
        Ok(hcr)
    }

    /// The register's reader, with the interface's bytes and answer.
    pub fn read_register_raw(hcr: &[u8], fields: &mut [u8]) -> u32 {
        ffi::read_register(hcr, fields)
    }

    /// The register's writer, with the interface's bytes and answer.
    pub fn write_register_raw(hcr: &mut [u8], fields: &[u8]) -> u32 {
        ffi::write_register(hcr, fields)
    }
}

/// What stands above the number returned, or the refusal that the number is.
fn value(answer: u32) -> Result<usize, Refusal> {
    match answer & 0xff {
        0 => Ok((answer >> 8) as usize),
        number => Err(Refusal::from_number(number).expect("a number that the header lists")),
    }
}

/// The command register's fields.
#[derive(Clone, Copy, Debug, Default, PartialEq, Eq)]
pub struct Fields {
    pub in_param: u64,
    pub out_param: u64,
    pub in_modifier: u32,
    pub token: u16,
    pub op: u16,
    pub op_modifier: u8,
    pub event: bool,
}

impl Fields {
    /// From the bytes that the register's reader gives.
    pub fn from_bytes(bytes: &[u8; FIELDS_BYTES]) -> Fields {
        let number = |at: usize, len: usize| {
            let bytes = bytes[at..at + len].iter().rev();
            bytes.fold(0u64, |high, &byte| high << 8 | u64::from(byte))
        };
        Fields {
            in_param: number(0, 8),
            out_param: number(8, 8),
            in_modifier: number(16, 4) as u32,
            token: number(20, 2) as u16,
            op: number(22, 2) as u16,
            op_modifier: bytes[24],
            event: bytes[25] == 1,
        }
    }

    /// The bytes that the register's writer takes.
    pub fn to_bytes(&self) -> [u8; FIELDS_BYTES] {
        let mut bytes = [0; FIELDS_BYTES];
        bytes[0..8].copy_from_slice(&self.in_param.to_le_bytes());
        bytes[8..16].copy_from_slice(&self.out_param.to_le_bytes());
        bytes[16..20].copy_from_slice(&self.in_modifier.to_le_bytes());
        bytes[20..22].copy_from_slice(&self.token.to_le_bytes());
        bytes[22..24].copy_from_slice(&self.op.to_le_bytes());
        bytes[24] = self.op_modifier;
        bytes[25] = self.event.into();
        bytes
    }
}
