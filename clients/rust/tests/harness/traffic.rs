//! Calls that make progress, and calls that are nearly right.

use super::prng::Rng;
use super::requests::{command, engine};
use super::side::{Bytes, Call, Hcr, Lengths, Memory, OUT_BYTES};
use super::world::{init_hca, register, slot_bytes, slot_with, World};
use ecgslope::{DEVICE_BYTES, ROOM_BYTES, SLOTS};

/// How a list is made: how many in 16 calls step or collect, and how many calls one has to be wrong in its lengths.
#[derive(Clone, Copy, Debug)]
pub struct Pace {
    pub steps: usize,
    pub collects: usize,
    pub mishap: usize,
}

impl Pace {
    /// From a row that stays full to one that runs empty.
    pub fn draw(rng: &mut Rng) -> Pace {
        let (steps, collects) = rng.pick(&[(2, 1), (6, 2), (9, 2), (11, 2), (11, 3), (12, 4)]);
        Pace {
            steps,
            collects,
            mishap: rng.pick(&[8, 24, 100, 100]),
        }
    }
}

/// The next call and the lengths that it lends.
pub fn next(rng: &mut Rng, world: &World, memory: &Memory, pace: Pace) -> (Call, Lengths) {
    let lengths = lengths(rng, world, memory, 2 * pace.mishap);
    let open = memory.device[0] == 1;
    let mut turn = rng.below(16);
    // A step or a collection that finds nothing mostly gives way to a submission.
    let status = if turn < pace.steps { 1 } else { 2 };
    if slot_with(memory, status, rng).is_none() && !rng.one_in(8) {
        turn = 16;
    }
    let call = if !open && rng.one_in(8) {
        at_once(rng, world)
    } else if !open && !rng.one_in(4) {
        opening(rng, world)
    } else if turn < pace.steps {
        let slot = draw_slot(rng, memory, 1, pace);
        Call::Step { slot }
    } else if turn < pace.steps + pace.collects {
        collect(rng, memory, pace)
    } else if rng.one_in(1500) {
        Call::Reset
    } else if rng.one_in(40) {
        register_call(rng)
    } else if rng.one_in(if is_empty(memory) { 5 } else { 40 }) {
        at_once(rng, world)
    } else {
        // A second command is refused while one is uncollected: engine requests then.
        let commands = if command_slot(memory).is_some() { 1 } else { 9 };
        match rng.below(12) < commands {
            true => command(rng, world, memory, pace),
            false => engine(rng, world, memory),
        }
    };
    (call, lengths)
}

fn is_empty(memory: &Memory) -> bool {
    (0..SLOTS).all(|slot| slot_bytes(memory, slot)[0] == 0)
}

/// The slot that a command occupies.
fn command_slot(memory: &Memory) -> Option<usize> {
    (0..SLOTS).find(|&slot| matches!(slot_bytes(memory, slot), [1 | 2, 0, ..]))
}

/// What is lent: once in `n` times a length is wrong, or more than needed.
pub fn lengths(rng: &mut Rng, world: &World, memory: &Memory, n: usize) -> Lengths {
    let mut lengths = world.lengths_now(memory);
    if !rng.one_in(n) {
        return lengths;
    }
    match rng.below(3) {
        0 => lengths.device = rng.pick(&[0, DEVICE_BYTES - 1, DEVICE_BYTES + 1]),
        1 => lengths.room = rng.pick(&[0, 2048, ROOM_BYTES - 1, ROOM_BYTES + 1]),
        _ => {
            lengths.store = rng.pick(&[0, world.store_len - 1, world.store_len + 1]);
        }
    }
    lengths
}

fn draw_slot(rng: &mut Rng, memory: &Memory, status: u8, pace: Pace) -> usize {
    if rng.one_in(pace.mishap) {
        return rng.pick(&[0, 1, 2, 3, 4, 5, 6, 7, 8, 9, 1 << 32, usize::MAX]);
    }
    match command_slot(memory) {
        Some(slot) if slot_bytes(memory, slot)[0] == status && rng.one_in(2) => slot,
        _ => slot_with(memory, status, rng).unwrap_or_else(|| rng.below(SLOTS)),
    }
}

fn collect(rng: &mut Rng, memory: &Memory, pace: Pace) -> Call {
    let slot = draw_slot(rng, memory, 2, pace);
    let bytes = slot_bytes(memory, slot.min(SLOTS - 1));
    let answer = match (bytes[1], bytes[4]) {
        (0, 0x22) | (1, 6) => 256,
        (1, 1) => 1,
        (1, 2) => 4,
        (1, 7) => 384,
        _ => 0,
    };
    let out = match rng.below(6) {
        0 => answer,
        1 => usize::saturating_sub(answer, 1),
        _ => OUT_BYTES,
    };
    Call::Collect { slot, out }
}

/// INIT_HCA, mostly right.
fn opening(rng: &mut Rng, world: &World) -> Call {
    let mut logs = world.logs.0;
    if rng.one_in(8) {
        let at = rng.below(4);
        logs[at] = rng.pick(&[0, 5, 6, 14, 15, 16, 17, 63, 64, 255]);
    }
    let (hcr, mut mailbox) = init_hca(rng, logs);
    mailbox.len = rng.pick(&[64, 64, 64, 64, 64, 63, 65, 0]);
    let hcr = spoil(rng, hcr, 20);
    Call::Command { hcr, mailbox }
}

/// INIT_HCA, CLOSE_HCA or NOP, with modifiers that may be wrong.
fn at_once(rng: &mut Rng, world: &World) -> Call {
    let (_, mailbox) = init_hca(rng, world.logs.0);
    let op = rng.pick(&[0x07, 0x08, 0x08, 0x31, 0x31, 0x31]);
    let op_modifier = rng.pick(&[0, 0, 0, 0, 1, 3]);
    let in_modifier = rng.pick(&[0, 0, 0, 0, 0x1f, 1]);
    let hcr = register(rng, op, op_modifier, in_modifier);
    let hcr = spoil(rng, hcr, 20);
    Call::Command { hcr, mailbox }
}

/// A register with something wrong once in `n` times: a bit of its last two words, E, go, or its length.
pub fn spoil(rng: &mut Rng, mut hcr: Hcr, n: usize) -> Hcr {
    if rng.one_in(n) {
        match rng.below(6) {
            0 => hcr.len = rng.pick(&[0, 27]),
            1 => hcr.len = rng.pick(&[29, 32]),
            2 => hcr.bytes[26] |= 0x40,
            3 => hcr.bytes[20 + rng.below(2)] = 1 << rng.below(8),
            _ => hcr.bytes[24 + rng.below(4)] ^= 1 << rng.below(8),
        }
    }
    hcr
}

/// The register's reader and writer.
fn register_call(rng: &mut Rng) -> Call {
    if rng.one_in(2) {
        let random = rng.word();
        let mut hcr = register(rng, random & 0xfff, random >> 12 & 0xff, random);
        hcr.bytes[26] |= rng.pick(&[0, 0x40]);
        let hcr = spoil(rng, hcr, 2);
        let fields = rng.pick(&[32, 32, 32, 31, 33, 0]);
        Call::ReadRegister { hcr, fields }
    } else {
        let mut fields = Bytes::zero(rng.pick(&[32, 32, 32, 31, 33, 0]));
        rng.fill(&mut fields.bytes);
        fields.bytes[23] &= rng.pick(&[0xff, 0x0f, 0x0f, 0x1f]);
        fields.bytes[25] = rng.pick(&[0, 1, 1, 2, 255]);
        let hcr = rng.pick(&[28, 28, 28, 27, 29, 0]);
        Call::WriteRegister { hcr, fields }
    }
}
