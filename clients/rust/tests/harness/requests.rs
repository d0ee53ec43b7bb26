//! Submissions of commands and engine requests: records that permit them, mailboxes and numbers mostly right.

use super::prng::Rng;
use super::side::{Call, Mailbox, Memory};
use super::traffic::{spoil, Pace};
use super::world::{draw_index, register, World};
use ecgslope::reference::commands::Op;
use ecgslope::reference::records::{Kind, Record, State};
use ecgslope::reference::Logs;

/// Commands that take a slot.
pub const OPS: [u16; 19] = [
    0x0d, 0x0f, 0x13, 0x14, 0x16, 0x17, 0x19, 0x1a, 0x1b, 0x1c, 0x1d, 0x1e, 0x1f, 0x20, 0x21, 0x22,
    0x2c, 0x2d, 0x38,
];

pub fn command(rng: &mut Rng, world: &World, memory: &Memory, pace: Pace) -> Call {
    let logs = world.logs_now(memory);
    let mut number = match rng.below(6) {
        0 => rng.pick(&OPS),
        _ => fitting_op(rng, world, memory),
    };
    if rng.one_in(60) {
        number = rng.pick(&[0, 1, 0x10, 0x18, 0x23, 0x24, 0x30, 0x39, 0x119, 0xfff]);
    }
    let op = Op::from_number(number).unwrap_or(Op::QueryQp);
    let index = match rng.one_in(4) {
        true => draw_index(rng, logs, op.kind()),
        false => fitting_index(rng, world, memory, op),
    };
    let right = u32::from(op.op_modifier());
    let op_modifier = match rng.one_in(40) {
        true => rng.pick(&[0, 1, 2, 3, 0x83, 0xff]),
        false => right,
    };
    let hcr = register(rng, number.into(), op_modifier, index);
    let hcr = spoil(rng, hcr, 3 * pace.mishap);
    let needed = op.mailbox_bytes();
    let mut mailbox = mailbox(rng, logs, op, index);
    mailbox.len = match rng.below(16) {
        0 => needed.saturating_sub(1),
        1 => 0,
        2..=5 => needed + rng.below(30),
        _ => needed,
    };
    Call::Command { hcr, mailbox }
}

/// A mailbox whose content is mostly right: service type, word 2Ch, and the names that request 7 follows.
fn mailbox(rng: &mut Rng, logs: Logs, op: Op, index: u32) -> Mailbox {
    let mut mailbox = Mailbox::zero(0);
    rng.fill(&mut mailbox.bytes);
    let mut put = |at: usize, word: u32| {
        mailbox.bytes[at..at + 4].copy_from_slice(&word.to_be_bytes());
    };
    match op.kind() {
        Kind::Qp => {
            put(0x70, draw_name(rng, logs, Kind::Cq));
            mailbox.bytes[1] = rng.pick(&[0, 0, 0, 0, 1, 1, 3, 3, 3, 2, 4, 0xff]);
        }
        Kind::Cq => {
            put(0x10, draw_name(rng, logs, Kind::Eq));
            match rng.below(12) {
                0 => put(0x2c, index.swap_bytes()),
                1 => put(0x2c, rng.pick(&[index.wrapping_add(1), index | 1 << 24])),
                _ => put(0x2c, index),
            }
        }
        _ => {}
    }
    mailbox
}

/// A name for request 7.
pub fn draw_name(rng: &mut Rng, logs: Logs, kind: Kind) -> u32 {
    let name = rng.below(logs.count(kind) as usize) as u32;
    match rng.below(20) {
        0 => logs.count(kind),
        1 => name | 1 << 24,
        2 => rng.word(),
        _ => name,
    }
}

/// An op that the state of some queue pair, or any owner, permits.
fn fitting_op(rng: &mut Rng, world: &World, memory: &Memory) -> u16 {
    if rng.one_in(4) {
        return rng.pick(&[0x0d, 0x0f, 0x13, 0x14, 0x16, 0x16, 0x17, 0x2c, 0x2c]);
    }
    let logs = world.logs_now(memory);
    let mut code = || {
        let number = rng.below(logs.count(Kind::Qp) as usize) as u32;
        world.record(memory, Record::qp(number))[0] >> 4
    };
    // The further of two, so that queue pairs get past the first edges.
    let Some(state) = State::from_code(code().max(code())) else {
        return rng.pick(&[0x19, 0x1e, 0x1e, 0x21, 0x21, 0x22]);
    };
    let fits = |&op: &u16| Op::from_number(op).is_some_and(|op| op.from(state));
    let leaving = |op: &u16| *op == 0x1e || *op == 0x21;
    let patient = state != State::Err && !rng.one_in(12);
    let (first, rest) = (rng.below(OPS.len()), OPS.len());
    (0..rest)
        .map(|n| OPS[(first + n) % rest])
        .find(|op| fits(op) && !(patient && leaving(op)))
        .unwrap_or(0x21)
}

/// A record whose state or owner permits the command, if there is one.
fn fitting_index(rng: &mut Rng, world: &World, memory: &Memory, op: Op) -> u32 {
    let (logs, kind) = (world.logs_now(memory), op.kind());
    let count = logs.count(kind);
    let first = rng.below(count as usize) as u32;
    let fits = |&number: &u32| {
        let record = world.record(memory, Record { kind, number });
        match op {
            Op::QueryQp => true,
            Op::Sw2HwMpt | Op::Sw2HwEq | Op::Sw2HwCq => record[63] != 1,
            Op::Hw2SwMpt | Op::Hw2SwEq | Op::Hw2SwCq | Op::ResizeCq => record[63] == 1,
            _ => State::from_code(record[0] >> 4).is_some_and(|state| op.from(state)),
        }
    };
    (0..count)
        .map(|n| (first + n) % count)
        .find(fits)
        .unwrap_or(first)
}

pub fn engine(rng: &mut Rng, world: &World, memory: &Memory) -> Call {
    let logs = world.logs_now(memory);
    let number = match rng.below(40) {
        0 => rng.pick(&[0, 8, 9, 0x101, 0x107, u32::MAX]),
        n => [1, 2, 3, 4, 5, 6, 7, 3, 4, 5][n % 10],
    };
    let index = match (3..=5).contains(&number) && !rng.one_in(4) {
        true => writable_index(rng, world, memory),
        false => draw_index(rng, logs, Kind::Qp),
    };
    let code = match logs.has(Record::qp(index)) {
        true => world.record(memory, Record::qp(index))[0] >> 4,
        false => rng.byte(),
    };
    let state = match rng.below(12) {
        0..=4 => code,
        5 => 6,
        6..=8 => 4,
        9 => rng.pick(&[6, 7, 8, 16, 255]),
        _ => rng.below(8) as u8,
    };
    let psn = match rng.below(8) {
        0 => 0xff_ffff,
        1 => rng.pick(&[0x100_0000, 0x100_0001, u32::MAX]),
        _ => rng.word() >> 8,
    };
    Call::Engine {
        number,
        index,
        psn,
        state,
    }
}

/// A queue pair that engine writes are permitted on, if there is one.
fn writable_index(rng: &mut Rng, world: &World, memory: &Memory) -> u32 {
    let count = world.logs_now(memory).count(Kind::Qp);
    let first = rng.below(count as usize) as u32;
    (0..count)
        .map(|n| (first + n) % count)
        .find(|&number| (2..6).contains(&(world.record(memory, Record::qp(number))[0] >> 4)))
        .unwrap_or(first)
}
