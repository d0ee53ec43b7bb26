//! Runs two sides on the same lists of calls and compares every answer and every byte after every call.

#![allow(dead_code)]

pub mod damage;
pub mod journal;
pub mod prng;
pub mod requests;
pub mod side;
pub mod traffic;
pub mod world;

use journal::Journal;
use prng::Rng;
use side::{Call, Lengths, Memory, Side};
use traffic::Pace;
use world::World;

/// What a list is made of.
#[derive(Clone, Copy, Debug, PartialEq, Eq)]
pub enum Plan {
    /// Submissions, steps and collections from a closed adapter on, all states undamaged.
    Traffic,
    /// The same on records of arbitrary bytes, some replaced now and then, and on arbitrary room bytes.
    Records,
    /// Calls on damaged device bytes.
    Device,
    /// Like `Traffic`, in the largest store. Every call compares all of it, so these lists are short.
    Large,
}

/// The plans that find faults quickly.
pub const PLANS: [Plan; 3] = [Plan::Traffic, Plan::Records, Plan::Device];

/// Two sides with the same memory.
pub struct Pair {
    sides: (Side, Side),
    pub left: Memory,
    pub right: Memory,
    pub calls: u64,
    /// How often each number was returned.
    pub returned: [u64; 256],
    /// How often each command was accepted, by op, and each engine request, by 0x40 and its number.
    pub accepted: [u64; 0x48],
}

impl Pair {
    pub fn new(sides: (Side, Side), memory: Memory) -> Self {
        Pair {
            sides,
            left: memory.clone(),
            right: memory,
            calls: 0,
            returned: [0; 256],
            accepted: [0; 0x48],
        }
    }

    /// Makes a call on both sides. Gives the answer, or where they differ.
    pub fn call(&mut self, lengths: Lengths, call: &Call) -> Result<u32, String> {
        let left = self.sides.0(&mut self.left, lengths, call);
        let right = self.sides.1(&mut self.right, lengths, call);
        self.calls += 1;
        self.returned[(left & 0xff) as usize] += 1;
        match call {
            Call::Command { hcr, .. } if left & 0xff == 0 => {
                self.accepted[usize::from(hcr.bytes[24])] += 1
            }
            Call::Engine { number, .. } if left & 0xff == 0 => {
                self.accepted[0x40 + *number as usize] += 1
            }
            _ => {}
        }
        let differ = |name: &str, left: &[u8], right: &[u8]| {
            if left == right {
                return Ok(());
            }
            let at = (0..left.len()).find(|&at| left[at] != right[at]);
            let at = at.expect("one differs");
            let (left, right) = (left[at], right[at]);
            Err(format!(
                "{name} byte {at}: {left:#04x} and {right:#04x}; {lengths:?} {call:x?}"
            ))
        };
        if left != right {
            return Err(format!(
                "answers {left:#x} and {right:#x}; {lengths:?} {call:x?}"
            ));
        }
        differ("device", &self.left.device, &self.right.device)?;
        differ("store", &self.left.store, &self.right.store)?;
        differ("room", &self.left.room, &self.right.room)?;
        differ("out", &self.left.out, &self.right.out)?;
        Ok(left)
    }

    /// Puts the same memory on both sides.
    fn put(&mut self, memory: &Memory) {
        self.left.copy_from(memory);
        self.right.copy_from(memory);
    }

    /// Changes the memory of both sides alike.
    fn change(&mut self, change: impl FnOnce(&mut Memory)) {
        change(&mut self.left);
        self.right.copy_from(&self.left);
    }
}

/// What was seen in a run.
#[derive(Default)]
pub struct Seen {
    pub calls: u64,
    pub returned: Vec<u64>,
    pub accepted: Vec<u64>,
    pub refusals: u64,
    pub checks: u64,
}

/// Runs one list of about `most` calls. With `demand_3` the plain book is held against undamaged lists.
pub fn run(
    sides: (Side, Side),
    plan: Plan,
    seed: u64,
    most: u64,
    demand_3: bool,
    seen: &mut Seen,
) -> Result<(), String> {
    let mut rng = Rng::new(seed);
    let world = match plan {
        Plan::Large => World::greatest(),
        _ => World::draw(&mut rng),
    };
    let mut memory = Memory::new(world.store_len);
    rng.fill(&mut memory.store);
    rng.fill(&mut memory.room);
    rng.fill(&mut memory.out);
    let mut pair = Pair::new(sides, memory);
    let mut journal = Journal::default();
    let result = match plan {
        Plan::Traffic | Plan::Large => {
            traffic(&mut rng, &world, &mut pair, most, demand_3, &mut journal)
        }
        Plan::Records => records(&mut rng, &world, &mut pair, most),
        Plan::Device => device(&mut rng, &world, &mut pair, most),
    };
    seen.calls += pair.calls;
    seen.refusals += journal.refusals;
    seen.checks += journal.checks;
    add(&mut seen.returned, &pair.returned);
    add(&mut seen.accepted, &pair.accepted);
    result.map_err(|what| {
        let call = pair.calls;
        format!("{plan:?}, seed {seed}, call {call}, {world:?}: {what}")
    })
}

fn add(sums: &mut Vec<u64>, counts: &[u64]) {
    sums.resize(counts.len(), 0);
    for (sum, count) in sums.iter_mut().zip(counts) {
        *sum += count;
    }
}

fn traffic(
    rng: &mut Rng,
    world: &World,
    pair: &mut Pair,
    most: u64,
    demand_3: bool,
    journal: &mut Journal,
) -> Result<(), String> {
    let mut pace = Pace::draw(rng);
    while pair.calls < most {
        if rng.one_in(150) {
            pace = Pace::draw(rng);
        }
        let (call, lengths) = traffic::next(rng, world, &pair.left, pace);
        let answer = pair.call(lengths, &call)?;
        if demand_3 {
            journal.note(pair.sides.0, lengths, &call, answer, &pair.left)?;
            if pair.calls.is_multiple_of(64) {
                journal.check(&pair.left)?;
            }
        }
    }
    journal.check(&pair.left)
}

/// Opens with the list's counts and gives the records arbitrary bytes.
fn open(rng: &mut Rng, world: &World, pair: &mut Pair) -> Result<(), String> {
    let (hcr, mailbox) = world::init_hca(rng, world.logs.0);
    pair.call(world.lengths(), &Call::Command { hcr, mailbox })?;
    pair.change(|memory| damage::fill_store(rng, world, memory));
    Ok(())
}

fn records(rng: &mut Rng, world: &World, pair: &mut Pair, most: u64) -> Result<(), String> {
    open(rng, world, pair)?;
    let mut pace = Pace::draw(rng);
    while pair.calls < most {
        if rng.one_in(150) {
            pace = Pace::draw(rng);
        }
        if rng.one_in(40) {
            pair.change(|memory| damage::spoil_any_record(rng, world, memory));
        }
        if rng.one_in(100) {
            pair.change(|memory| {
                let at = rng.below(ecgslope::ROOM_BYTES - 64);
                rng.fill(&mut memory.room[at..at + 64]);
            });
        }
        let (call, lengths) = traffic::next(rng, world, &pair.left, pace);
        pair.call(lengths, &call)?;
    }
    Ok(())
}

fn device(rng: &mut Rng, world: &World, pair: &mut Pair, most: u64) -> Result<(), String> {
    open(rng, world, pair)?;
    let mut good = pair.left.clone();
    let mut pace = Pace::draw(rng);
    while pair.calls < most {
        pair.change(|memory| damage::damage(rng, world, memory));
        let mut last = 0x87;
        for _ in 0..1 + rng.below(8) {
            let (call, lengths) = traffic::next(rng, world, &pair.left, pace);
            last = pair.call(lengths, &call)?;
        }
        if rng.one_in(16) {
            let lengths = traffic::lengths(rng, world, &pair.left, 4);
            last = pair.call(lengths, &Call::Reset)?;
        }
        let usable = pair.left.device[0] == 1 && pair.left.device[8..16] == good.device[8..16];
        if last == 0x87 || !usable || rng.one_in(2) {
            pair.put(&good);
        } else {
            good.copy_from(&pair.left);
            pace = Pace::draw(rng);
        }
    }
    Ok(())
}
