//! What the generators see of the memory: counts, records and slots, straight from the bytes.

use super::prng::Rng;
use super::side::{Hcr, Lengths, Mailbox, Memory};
use ecgslope::reference::records::{Kind, Record};
use ecgslope::reference::Logs;
use ecgslope::{DEVICE_BYTES, ROOM_BYTES, SLOTS};

/// The logarithms and the store's length that a list uses.
#[derive(Clone, Copy, Debug)]
pub struct World {
    pub logs: Logs,
    pub store_len: usize,
}

impl World {
    /// The greatest counts.
    pub fn greatest() -> World {
        let logs = Logs([14, 14, 5, 16]);
        World {
            logs,
            store_len: logs.bytes(),
        }
    }

    /// Mostly the counts of 01's examples; others, the smallest, and stores longer than the bytes in use.
    pub fn draw(rng: &mut Rng) -> World {
        let logs = Logs(match rng.below(8) {
            0 => [0, 0, 0, 0],
            1 => [1, 2, 1, 0],
            2 => [4, 3, 2, 3],
            3 => [2, 0, 5, 1],
            _ => [3, 2, 1, 2],
        });
        let beyond = rng.pick(&[0, 0, 0, 1, 64, 200]);
        World {
            logs,
            store_len: logs.bytes() + beyond,
        }
    }

    /// What is lent when all is right.
    pub fn lengths(&self) -> Lengths {
        Lengths {
            device: DEVICE_BYTES,
            store: self.store_len,
            room: ROOM_BYTES,
        }
    }

    /// The same, or the other length that an INIT_HCA was given.
    pub fn lengths_now(&self, memory: &Memory) -> Lengths {
        let mut lengths = self.lengths();
        let remembered = memory.device[8..16].try_into().map(u64::from_le_bytes);
        let around = self.store_len as u64 - 1..=self.store_len as u64 + 1;
        match remembered {
            Ok(len) if memory.device[0] == 1 && around.contains(&len) => {
                lengths.store = len as usize
            }
            _ => {}
        }
        lengths
    }

    /// The counts in the header if they are in range, else those of the list.
    pub fn logs_now(&self, memory: &Memory) -> Logs {
        let now = Logs([1, 2, 3, 4].map(|at| memory.device[at]));
        let fits = memory.device[0] == 1 && now.in_range() && now.bytes() <= self.store_len;
        if fits {
            now
        } else {
            self.logs
        }
    }

    /// A record's bytes.
    pub fn record<'a>(&self, memory: &'a Memory, record: Record) -> &'a [u8] {
        &memory.store[self.logs_now(memory).offset(record)..]
    }
}

/// A slot's 32 bytes.
pub fn slot_bytes(memory: &Memory, slot: usize) -> &[u8] {
    &memory.device[32 + 32 * slot..][..32]
}

/// A slot with this status, if there is one.
pub fn slot_with(memory: &Memory, status: u8, rng: &mut Rng) -> Option<usize> {
    let first = rng.below(SLOTS);
    (0..SLOTS)
        .map(|n| (first + n) % SLOTS)
        .find(|&slot| slot_bytes(memory, slot)[0] == status)
}

/// An index of a record: mostly in range and one of few, so that holds clash; else near the count, or far from it.
pub fn draw_index(rng: &mut Rng, logs: Logs, kind: Kind) -> u32 {
    let count = logs.count(kind);
    match rng.below(24) {
        0 => count,
        1 => rng.pick(&[count + 1, 0x80_0000, u32::MAX, count << 8, 1 << 24, 1 << 31]),
        2..=8 => rng.below(count as usize) as u32,
        9 | 10 => count - 1,
        _ => rng.below(count.min(3) as usize) as u32,
    }
}

/// A register with these fields and nothing wrong. Parameters and token are arbitrary.
pub fn register(rng: &mut Rng, op: u32, op_modifier: u32, in_modifier: u32) -> Hcr {
    let mut hcr = Hcr::zero(28);
    rng.fill(&mut hcr.bytes);
    hcr.bytes[8..12].copy_from_slice(&in_modifier.to_le_bytes());
    hcr.bytes[20..22].fill(0);
    let last = 1 << 23 | op_modifier << 12 | op;
    hcr.bytes[24..28].copy_from_slice(&last.to_le_bytes());
    hcr
}

/// INIT_HCA's register and mailbox.
pub fn init_hca(rng: &mut Rng, logs: [u8; 4]) -> (Hcr, Mailbox) {
    let mut mailbox = Mailbox::zero(64);
    rng.fill(&mut mailbox.bytes);
    for (at, log) in [0x0f, 0x17, 0x1f, 0x37].into_iter().zip(logs) {
        mailbox.bytes[at] = log;
    }
    (register(rng, 0x07, 0, 0), mailbox)
}
