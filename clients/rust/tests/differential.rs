//! The library and the reference on the same long lists of calls: every answer and every byte after every call, and demand 3 on the
//! lists whose states are undamaged.

mod harness;

use ecgslope::reference::commands::Op;
use ecgslope::reference::records::Kind;
use harness::prng::Rng;
use harness::requests::OPS;
use harness::side::{library, reference, Call, Mailbox, Memory, OUT_BYTES};
use harness::world::{init_hca, register, World};
use harness::{run, Pair, Plan, Seen};

/// Runs so many lists of so many calls and says what was seen. ECGSLOPE_LISTS multiplies the lists.
fn lists(plan: Plan, first_seed: u64, count: u64, calls: u64) -> Seen {
    let factor: u64 = match std::env::var("ECGSLOPE_LISTS") {
        Ok(factor) => factor.parse().expect("ECGSLOPE_LISTS is a number"),
        Err(_) => 1,
    };
    let count = count * factor;
    let mut seen = Seen::default();
    for seed in first_seed..first_seed + count {
        if let Err(what) = run(
            (library, reference::<0>),
            plan,
            seed,
            calls,
            true,
            &mut seen,
        ) {
            panic!("{what}");
        }
    }
    print!("{plan:?}: {} calls;", seen.calls);
    for (number, &count) in seen.returned.iter().enumerate() {
        if count > 0 {
            print!(" {number:#x} {count}");
        }
    }
    print!("; accepted:");
    for (request, &count) in seen.accepted.iter().enumerate() {
        if count > 0 {
            print!(" {request:#x} {count}");
        }
    }
    println!("; book: {} checks, {} refusals", seen.checks, seen.refusals);
    seen
}

/// Every number that a plan can meet, every command and every engine request is met often enough to mean something.
fn met(seen: &Seen, numbers: &[usize]) {
    for &number in numbers {
        assert!(seen.returned[number] > 1000, "{number:#x} is too rare");
    }
    let ops = OPS.iter().map(|&op| usize::from(op));
    for request in ops.chain([0x07, 0x08, 0x31]).chain(0x41..0x48) {
        let count = seen.accepted[request];
        assert!(count > 50, "{request:#x} was accepted {count} times");
    }
}

#[test]
fn undamaged_traffic() {
    let seen = lists(Plan::Traffic, 1, 400, 5000);
    met(
        &seen,
        &[0, 2, 3, 4, 0x81, 0x82, 0x83, 0x84, 0x85, 0x86, 0x88],
    );
    assert!(seen.refusals > 1000 && seen.checks > 1000);
}

#[test]
fn arbitrary_records() {
    let seen = lists(Plan::Records, 1_000_001, 400, 5000);
    met(
        &seen,
        &[0, 2, 3, 4, 0x81, 0x82, 0x83, 0x84, 0x85, 0x86, 0x88],
    );
}

#[test]
fn damaged_device() {
    let seen = lists(Plan::Device, 2_000_001, 400, 5000);
    met(&seen, &[0, 3, 0x81, 0x83, 0x84, 0x85, 0x86, 0x87, 0x88]);
}

/// Traffic in the largest store, and requests on the last record of each kind.
#[test]
fn largest_store() {
    let seen = lists(Plan::Large, 3_000_001, 3, 200);
    assert!(seen.returned[0] > 200);

    let world = World::greatest();
    let mut rng = Rng::new(4_000_001);
    let mut pair = Pair::new((library, reference::<0>), Memory::new(world.store_len));
    let mut finish = |call: &Call| {
        let answer = pair.call(world.lengths(), call).expect("no difference");
        assert_eq!(answer & 0xff, 0, "{call:x?}");
        if answer > 0 {
            let slot = (answer >> 8) as usize - 1;
            while pair
                .call(world.lengths(), &Call::Step { slot })
                .expect("no difference")
                > 0
            {}
            let out = OUT_BYTES;
            let collect = Call::Collect { slot, out };
            pair.call(world.lengths(), &collect).expect("no difference");
        }
    };
    let (hcr, mailbox) = init_hca(&mut rng, world.logs.0);
    finish(&Call::Command { hcr, mailbox });
    let last = |kind| world.logs.count(kind) - 1;
    for op in [0x0d, 0x13, 0x16, 0x2c, 0x19, 0x1a, 0x1b] {
        let op = Op::from_number(op).expect("a command");
        let hcr = register(&mut rng, op as u32, 0, last(op.kind()));
        let mut mailbox = Mailbox::zero(op.mailbox_bytes());
        rng.fill(&mut mailbox.bytes);
        let mut put = |at: usize, word: u32| {
            mailbox.bytes[at..at + 4].copy_from_slice(&word.to_be_bytes());
        };
        match op.kind() {
            Kind::Qp => {
                put(0x00, 3 << 16);
                put(0x70, last(Kind::Cq));
            }
            _ => {
                put(0x10, last(Kind::Eq));
                put(0x2c, last(op.kind()));
            }
        }
        finish(&Call::Command { hcr, mailbox });
    }
    for number in 1..8 {
        finish(&Call::Engine {
            number,
            index: last(Kind::Qp),
            psn: 0xab_cdef,
            state: 3,
        });
    }
}
