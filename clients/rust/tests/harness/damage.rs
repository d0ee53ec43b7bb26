//! Damage: stores whose records hold arbitrary bytes, and device bytes that are nearly, or not at all, a possible state.

use super::prng::Rng;
use super::requests::{draw_name, OPS};
use super::side::Memory;
use super::world::{draw_index, World};
use ecgslope::reference::commands::Op;
use ecgslope::reference::records::{Kind, Record};
use ecgslope::SLOTS;

/// Gives every record arbitrary bytes with a state, a type, an owner and names that are mostly plausible.
pub fn fill_store(rng: &mut Rng, world: &World, memory: &mut Memory) {
    for number in 0..world.logs.count(Kind::Qp) {
        spoil_record(rng, world, memory, Record::qp(number));
    }
    for (kind, make) in [
        (Kind::Cq, Record::cq as fn(u32) -> Record),
        (Kind::Eq, Record::eq),
        (Kind::Mpt, Record::mpt),
    ] {
        for number in 0..world.logs.count(kind) {
            spoil_record(rng, world, memory, make(number));
        }
    }
}

/// Gives one record arbitrary bytes.
pub fn spoil_any_record(rng: &mut Rng, world: &World, memory: &mut Memory) {
    let kind = rng.pick(&[Kind::Qp, Kind::Qp, Kind::Cq, Kind::Eq, Kind::Mpt]);
    let number = rng.below(world.logs.count(kind) as usize) as u32;
    spoil_record(rng, world, memory, Record { kind, number });
}

fn spoil_record(rng: &mut Rng, world: &World, memory: &mut Memory, record: Record) {
    let at = world.logs.offset(record);
    let logs = world.logs;
    if record.kind == Kind::Qp {
        let bytes = &mut memory.store[at..at + 256];
        rng.fill(bytes);
        let code = rng.pick(&[0, 1, 2, 3, 3, 3, 4, 4, 5, 5, 6, 7, 8, 15]);
        bytes[0] = code << 4 | rng.byte() & 0x0f;
        bytes[1] = rng.pick(&[0, 0, 1, 3, 3, 2, 0xff]);
        let name = draw_name(rng, logs, Kind::Cq);
        bytes[0x70..0x74].copy_from_slice(&name.to_be_bytes());
    } else {
        let bytes = &mut memory.store[at..at + 64];
        rng.fill(bytes);
        bytes[63] = rng.pick(&[0, 1, 1, 1, 2, 0x81, 0xff]);
        let name = draw_name(rng, logs, Kind::Eq);
        bytes[0x10..0x14].copy_from_slice(&name.to_be_bytes());
    }
}

/// Damages the device's bytes in one of several ways.
pub fn damage(rng: &mut Rng, world: &World, memory: &mut Memory) {
    let slot = rng.below(SLOTS);
    match rng.below(10) {
        0 => {
            let at = rng.below(32);
            memory.device[at] ^= 1 << rng.below(8);
        }
        1 => {
            let at = rng.below(16);
            memory.device[at] = rng.byte();
        }
        2 => header(rng, world, memory),
        3 | 4 => {
            let at = 32 + 32 * slot + rng.below(26);
            memory.device[at] ^= 1 << rng.below(8);
        }
        5 => {
            let at = 32 + 32 * slot + rng.below(26);
            memory.device[at] = rng.pick(&[0, 1, 2, 3, 4, 7, 8, 15, 16, 24, 255]);
        }
        6 => rng.fill(&mut memory.device[32 + 32 * slot..][..32]),
        7 => near_slot(rng, world, memory, slot),
        _ => near_row(rng, world, memory),
    }
}

/// A header that is nearly right: other counts, an open flag of 2, another length.
fn header(rng: &mut Rng, world: &World, memory: &mut Memory) {
    memory.device[0] = rng.pick(&[0, 1, 1, 1, 2, 0x81]);
    for (log, most) in [14, 14, 5, 16].into_iter().enumerate() {
        if rng.one_in(3) {
            let right = world.logs.0[log];
            memory.device[1 + log] = rng.pick(&[0, right, right + 1, most, most + 1, 255]);
        }
    }
    if rng.one_in(4) {
        let at = 8 + rng.below(8);
        memory.device[at] ^= 1 << rng.below(8);
    }
}

/// A row whose slots are each nearly possible.
fn near_row(rng: &mut Rng, world: &World, memory: &mut Memory) {
    memory.device[..32].fill(0);
    memory.device[0] = 1;
    memory.device[1..5].copy_from_slice(&world.logs.0);
    memory.device[8..16].copy_from_slice(&(world.store_len as u64).to_le_bytes());
    let occupied = rng.below(SLOTS + 1);
    for slot in 0..SLOTS {
        match rng.below(SLOTS) < occupied {
            true => near_slot(rng, world, memory, slot),
            false => memory.device[32 + 32 * slot] = 0,
        }
    }
}

/// A slot that is nearly possible: every field right most of the time, arbitrary bytes where no field is.
fn near_slot(rng: &mut Rng, world: &World, memory: &mut Memory, slot: usize) {
    let logs = world.logs;
    let bytes = &mut memory.device[32 + 32 * slot..][..32];
    rng.fill(bytes);
    let wrong = rng.one_in(6);
    let engine = !rng.one_in(6);
    bytes[1] = engine.into();
    let (number, kind, total) = if engine {
        let number = rng.below(7) as u16 + 1;
        (
            number,
            Kind::Qp,
            [1, 2, 2, 2, 2, 16, 24][number as usize - 1],
        )
    } else {
        let number = rng.pick(&OPS);
        let op = Op::from_number(number).expect("all are served");
        bytes[3] = op.op_modifier();
        let total = if op.kind() == Kind::Qp { 16 } else { 4 };
        (number, op.kind(), total)
    };
    bytes[4..6].copy_from_slice(&number.to_le_bytes());
    let mut put = |at: usize, word: u32| bytes[at..at + 4].copy_from_slice(&word.to_le_bytes());
    put(8, rng.below(logs.count(kind) as usize) as u32);
    if number == 7 {
        put(12, rng.below(logs.count(Kind::Cq) as usize) as u32);
        put(16, rng.below(logs.count(Kind::Eq) as usize) as u32);
    }
    put(20, rng.word() >> 8);
    bytes[24] = rng.below(7) as u8;
    bytes[0] = rng.pick(&[1, 1, 2]);
    let some = rng.below(total as usize) as u8;
    bytes[2] = match bytes[0] {
        1 => rng.pick(&[0, total - 1, some]),
        _ => total,
    };
    if wrong {
        one_wrong(rng, world, bytes, kind, total);
    }
}

/// One field of a slot near or past its limit.
fn one_wrong(rng: &mut Rng, world: &World, bytes: &mut [u8], kind: Kind, total: u8) {
    let logs = world.logs;
    let index = draw_index(rng, logs, kind);
    let mut put = |at: usize, word: u32| bytes[at..at + 4].copy_from_slice(&word.to_le_bytes());
    match rng.below(10) {
        0 => bytes[0] = rng.pick(&[0, 3, 255]),
        1 => bytes[1] = 2,
        2 => bytes[2] = rng.pick(&[total - 1, total, total + 1, 255]),
        3 => bytes[3] = rng.pick(&[0, 1, 3]),
        4 => put(8, index),
        5 => put(12, logs.count(Kind::Cq)),
        6 => put(16, logs.count(Kind::Eq)),
        7 => put(20, rng.pick(&[0xff_ffff, 0x100_0000, u32::MAX])),
        8 => bytes[24] = rng.pick(&[6, 7, 255]),
        _ => bytes[4 + rng.below(2)] = rng.pick(&[0, 1, 7, 8, 0x31, 0x18]),
    }
}
