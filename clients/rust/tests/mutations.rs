//! Every planted fault is found by the lists that the differential test runs.

mod harness;

use ecgslope::reference::fault;
use harness::side::{library, reference, Side};
use harness::{run, Plan, Seen, PLANS};

/// Calls within which a fault has to be found.
const BUDGET: u64 = 200_000;

/// Runs lists of every plan until a difference appears. Gives the calls that it took.
fn hunt(faulty: Side) -> Option<u64> {
    let mut seen = Seen::default();
    for seed in 1.. {
        for plan in PLANS {
            if run((library, faulty), plan, seed, 2000, false, &mut seen).is_err() {
                return Some(seen.calls);
            }
        }
        if seen.calls > BUDGET {
            break;
        }
    }
    None
}

/// The reference with each of these faults.
macro_rules! faulty {
    ($($number:literal)*) => {
        [$(($number, reference::<$number> as Side)),*]
    };
}

#[test]
fn every_fault_is_found() {
    let sides =
        faulty!(1 2 3 4 5 6 7 8 9 10 11 12 13 14 15 16 17 18 19 20 21 22 23 24 25 26 27 28 29 30);
    assert!(sides
        .iter()
        .map(|side| side.0)
        .eq(fault::ALL.iter().map(|fault| fault.0)));
    for ((number, what), (_, faulty)) in fault::ALL.iter().zip(sides) {
        match hunt(faulty) {
            Some(calls) => println!("{number}, {what}: found after {calls} calls"),
            None => panic!("{number}, {what}: not found in {BUDGET} calls"),
        }
    }
}

/// Demand 3 alone finds the faults that concern it: the same faulty side on the left and on the right, held against the book.
#[test]
fn the_book_finds_faults() {
    let sides = faulty!(1 4 5 11 12 16 17 21 26 28 29 30);
    for (number, faulty) in sides {
        let mut seen = Seen::default();
        let found = (1..100).any(|seed| {
            let sides = (faulty, faulty);
            run(sides, Plan::Traffic, seed, 2000, true, &mut seen).is_err()
        });
        println!("{number}: found by the book after {} calls", seen.calls);
        assert!(found, "the book does not find fault {number}");
    }
}

#[test]
fn no_fault_is_found_where_none_is() {
    assert!(hunt(reference::<{ fault::NONE }>).is_none());
}
