//! The command register (01, "The command register"): seven little-endian words.

use crate::{Fields, Refusal, FIELDS_BYTES, REGISTER_BYTES};

const GO: u32 = 1 << 23;
const EVENT: u32 = 1 << 22;
/// Status and bits 21:20 of word 18h.
const ZERO_18: u32 = 0xff << 24 | 3 << 20;
const ZERO_14: u32 = 0xffff;

/// Reads the fields of a well-formed register.
#[inline]
pub fn read(hcr: &[u8; REGISTER_BYTES]) -> Result<Fields, Refusal> {
    let word = |at: usize| u32::from_le_bytes([hcr[at], hcr[at + 1], hcr[at + 2], hcr[at + 3]]);
    let last = word(0x18);
    if last & GO == 0 || last & ZERO_18 != 0 || word(0x14) & ZERO_14 != 0 {
        return Err(Refusal::BadParameter);
    }
    Ok(Fields {
        in_param: u64::from(word(0x00)) << 32 | u64::from(word(0x04)),
        in_modifier: word(0x08),
        out_param: u64::from(word(0x0c)) << 32 | u64::from(word(0x10)),
        token: (word(0x14) >> 16) as u16,
        op: (last & 0xfff) as u16,
        op_modifier: (last >> 12) as u8,
        event: last & EVENT != 0,
    })
}

/// Writes a register. An op above 0xfff is refused.
pub fn write(fields: &Fields) -> Result<[u8; REGISTER_BYTES], Refusal> {
    if fields.op > 0xfff {
        return Err(Refusal::BadParameter);
    }
    let event = if fields.event { EVENT } else { 0 };
    let words = [
        (fields.in_param >> 32) as u32,
        fields.in_param as u32,
        fields.in_modifier,
        (fields.out_param >> 32) as u32,
        fields.out_param as u32,
        u32::from(fields.token) << 16,
        GO | event | u32::from(fields.op_modifier) << 12 | u32::from(fields.op),
    ];
    let mut hcr = [0; REGISTER_BYTES];
    for (bytes, word) in hcr.chunks_exact_mut(4).zip(words) {
        bytes.copy_from_slice(&word.to_le_bytes());
    }
    Ok(hcr)
}

/// The interface's reader: the fields as bytes. Only the needed front of either buffer is touched.
pub fn read_bytes(hcr: &[u8], fields: &mut [u8]) -> u32 {
    let (Some(hcr), Some(fields)) = (
        hcr.first_chunk::<REGISTER_BYTES>(),
        fields.first_chunk_mut::<FIELDS_BYTES>(),
    ) else {
        return Refusal::BadLength.number();
    };
    match read(hcr) {
        Ok(read) => {
            *fields = read.to_bytes();
            0
        }
        Err(refusal) => refusal.number(),
    }
}

/// The interface's writer. An event byte above 1 is refused.
pub fn write_bytes(hcr: &mut [u8], fields: &[u8]) -> u32 {
    let (Some(hcr), Some(fields)) = (
        hcr.first_chunk_mut::<REGISTER_BYTES>(),
        fields.first_chunk::<FIELDS_BYTES>(),
    ) else {
        return Refusal::BadLength.number();
    };
    if fields[25] > 1 {
        return Refusal::BadParameter.number();
    }
    match write(&Fields::from_bytes(fields)) {
        Ok(written) => {
            *hcr = written;
            0
        }
        Err(refusal) => refusal.number(),
    }
}
