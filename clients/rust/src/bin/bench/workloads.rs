//! The workloads. What is done before the rounds is in no figure; the checksum adds up the answers of all calls and, after the
//! rounds, the output and the store.

use crate::sides::Side;
use ecgslope::{Device, Fields, ANSWER_BYTES, SLOTS};
use std::time::Instant;

#[derive(Clone, Copy, PartialEq, Eq)]
pub enum Workload {
    /// A round brings up one queue pair: three commands, each submitted, stepped and collected.
    BringUp,
    /// A round finishes eight of engine requests 1 to 6 and submits the next, with eight slots busy.
    Engine,
    /// A round is one QUERY_QP.
    QueryQp,
    /// A round is one engine request 7.
    Joined,
}

pub const WORKLOADS: [(Workload, &str); 4] = [
    (Workload::BringUp, "bring-up"),
    (Workload::Engine, "engine"),
    (Workload::QueryQp, "query"),
    (Workload::Joined, "joined"),
];

/// The logarithms of the counts and the store's bytes.
pub const STORES: [([u8; 4], usize); 2] = [([3, 2, 1, 2], 2688), ([14, 14, 5, 16], 9_439_232)];

const RTS: u8 = 3;

/// What a run took.
#[derive(Clone, Copy)]
pub struct Run {
    pub calls: u64,
    pub nanoseconds: u128,
    pub checksum: u64,
}

/// An adapter with what a round needs, all of it made beforehand.
struct Bench<S> {
    side: S,
    calls: u64,
    checksum: u64,
    out: [u8; ANSWER_BYTES],
    /// Queue pairs in the store.
    qps: u32,
    init: ([u8; 28], [u8; 64]),
    close: [u8; 28],
    /// The commands of a bring-up. The queue pair's number is put in.
    edges: [[u8; 28]; 3],
    image: [u8; 164],
}

fn command(op: u16, in_modifier: u32) -> [u8; 28] {
    let fields = Fields {
        op,
        in_modifier,
        ..Fields::default()
    };
    ecgslope::reference::register::write(&fields).expect("an op of 12 bits")
}

/// Runs a workload for so many rounds.
pub fn run<S: Side>(workload: Workload, store: usize, rounds: u64) -> Run {
    let (logs, bytes) = STORES[store];
    let mut bench = Bench::<S>::open(logs, bytes);
    match workload {
        Workload::BringUp => {}
        Workload::Engine => (0..SLOTS).for_each(|k| bench.bring_up(bench.spread(k))),
        Workload::QueryQp | Workload::Joined => bench.bring_up(1),
    }
    let mut kinds = [0; SLOTS];
    if workload == Workload::Engine {
        (0..SLOTS).for_each(|k| bench.submit_next(k, &mut kinds[k]));
    }
    bench.calls = 0;
    let query = command(0x22, 1);
    let began = Instant::now();
    for round in 0..rounds {
        match workload {
            Workload::BringUp => bench.bring_up_fresh(round),
            Workload::Engine => bench.engine_round(&mut kinds),
            Workload::QueryQp => {
                let answer = bench.side.submit_command(&query, &[]);
                bench.finish(answer);
            }
            Workload::Joined => {
                let answer = bench.side.submit_engine(7, 1, 0, 0);
                bench.finish(answer);
            }
        }
    }
    let nanoseconds = began.elapsed().as_nanos();
    Run {
        calls: bench.calls,
        nanoseconds,
        checksum: bench.total(),
    }
}

impl<S: Side> Bench<S> {
    /// An open adapter. INIT_HCA on the large store is done here, outside the rounds.
    fn open(logs: [u8; 4], bytes: usize) -> Self {
        let mut init = [0; 64];
        (init[0x0f], init[0x17], init[0x1f], init[0x37]) = (logs[0], logs[1], logs[2], logs[3]);
        let mut image = [0; 164];
        for (at, byte) in image.iter_mut().enumerate() {
            *byte = at as u8;
        }
        image[1] = 3;
        image[0x70..0x74].fill(0);
        let mut bench = Bench {
            side: S::new(bytes),
            calls: 0,
            checksum: 0,
            out: [0; ANSWER_BYTES],
            qps: 1 << logs[0],
            init: (command(0x07, 0), init),
            close: command(0x08, 0),
            edges: [0x19, 0x1a, 0x1b].map(|op| command(op, 0)),
            image,
        };
        let answer = bench.side.submit_command(&bench.init.0, &bench.init.1);
        assert_eq!(answer, 0);
        bench
    }

    /// Counts a call.
    #[inline]
    fn note(&mut self, answer: u32) {
        self.calls += 1;
        self.checksum = self.checksum.wrapping_add(answer.into());
    }

    /// Steps a request to its end and collects it. The argument is its submission's answer.
    #[inline]
    fn finish(&mut self, submitted: u32) {
        self.note(submitted);
        let slot = (submitted >> 8).wrapping_sub(1) as usize;
        loop {
            let left = self.side.step(slot);
            self.note(left);
            if left == 0 || left & 0xff != 0 {
                break;
            }
        }
        let written = self.side.collect(slot, &mut self.out);
        self.note(written);
    }

    /// RESET to INIT to RTR to RTS.
    fn bring_up(&mut self, qp: u32) {
        for edge in 0..self.edges.len() {
            let hcr = &mut self.edges[edge];
            hcr[8..12].copy_from_slice(&qp.to_le_bytes());
            let answer = self.side.submit_command(hcr, &self.image);
            self.finish(answer);
        }
    }

    /// Brings up a queue pair of a fresh number. In the small store CLOSE_HCA and INIT_HCA put them back after every eight; the
    /// large one is never initialised again.
    fn bring_up_fresh(&mut self, round: u64) {
        let qp = (round % u64::from(self.qps)) as u32;
        if qp == 0 && round > 0 {
            assert!(self.qps == 8, "more rounds than fresh numbers");
            let answer = self.side.submit_command(&self.close, &[]);
            self.note(answer);
            let answer = self.side.submit_command(&self.init.0, &self.init.1);
            self.note(answer);
        }
        self.bring_up(qp);
    }

    /// The queue pair that a slot's requests are on: eight over the whole store.
    fn spread(&self, slot: usize) -> u32 {
        self.qps / SLOTS as u32 * slot as u32
    }

    /// Submits the next of requests 1 to 6 on a slot's queue pair. Only that slot is free, so it is taken.
    fn submit_next(&mut self, slot: usize, kind: &mut u32) {
        let number = (*kind + slot as u32) % 6 + 1;
        *kind += 1;
        let psn = *kind & 0xff_ffff;
        let answer = self.side.submit_engine(number, self.spread(slot), psn, RTS);
        self.note(answer);
    }

    /// Steps round robin till eight requests are finished; each is collected and the next submitted.
    fn engine_round(&mut self, kinds: &mut [u32; SLOTS]) {
        let mut finished = 0;
        while finished < SLOTS {
            for (slot, kind) in kinds.iter_mut().enumerate() {
                let left = self.side.step(slot);
                self.note(left);
                if left == 0 {
                    let written = self.side.collect(slot, &mut self.out);
                    self.note(written);
                    self.submit_next(slot, kind);
                    finished += 1;
                }
            }
        }
    }

    /// The checksum over answers, output and store.
    fn total(&self) -> u64 {
        let bytes = self.out.iter().chain(self.side.store());
        bytes.fold(self.checksum, |sum, &byte| {
            sum.wrapping_mul(31).wrapping_add(byte.into())
        })
    }
}

/// Runs a workload on the side named.
pub fn run_on(side: &str, workload: Workload, store: usize, rounds: u64) -> Option<Run> {
    Some(match side {
        "ecgslope" => run::<Device>(workload, store, rounds),
        "reference" => run::<crate::sides::Reference>(workload, store, rounds),
        _ => return None,
    })
}
