//! The examples of 01, on the library and on the reference. Logs 3, 2, 1, 2 throughout.

mod harness;

use ecgslope::reference::commands::Op;
use ecgslope::reference::records::State;
use ecgslope::reference::{Hca, Logs, Slot};
use ecgslope::Refusal;
use harness::prng::Rng;
use harness::side::{library, reference, Call, Mailbox, Memory, Side, OUT_BYTES};
use harness::world::{init_hca, register, World};

const LOGS: Logs = Logs([3, 2, 1, 2]);
const STORE: usize = 2688;

/// A side with its memory.
struct Adapter {
    side: Side,
    memory: Memory,
    world: World,
    rng: Rng,
}

impl Adapter {
    fn closed(side: Side, store_len: usize) -> Self {
        let world = World {
            logs: LOGS,
            store_len,
        };
        Adapter {
            side,
            memory: Memory::new(store_len),
            world,
            rng: Rng::new(1),
        }
    }

    fn open(side: Side) -> Self {
        let mut adapter = Self::closed(side, STORE);
        assert_eq!(adapter.init(), 0);
        adapter
    }

    fn call(&mut self, call: Call) -> u32 {
        (self.side)(&mut self.memory, self.world.lengths(), &call)
    }

    fn init(&mut self) -> u32 {
        let (hcr, mailbox) = init_hca(&mut self.rng, LOGS.0);
        self.call(Call::Command { hcr, mailbox })
    }

    /// Submits a command with the op_modifier that it needs.
    fn command(&mut self, op: Op, index: u32, mailbox: &[u8]) -> u32 {
        let op_modifier = op.op_modifier().into();
        let hcr = register(&mut self.rng, op as u32, op_modifier, index);
        let mut bytes = Mailbox::zero(mailbox.len());
        bytes.bytes[..mailbox.len()].copy_from_slice(mailbox);
        self.call(Call::Command {
            hcr,
            mailbox: bytes,
        })
    }

    fn engine(&mut self, number: u32, index: u32, psn: u32, state: u8) -> u32 {
        self.call(Call::Engine {
            number,
            index,
            psn,
            state,
        })
    }

    /// Steps a slot to its last burst and collects it. Gives the answer's bytes.
    fn finish(&mut self, answer: u32) -> Vec<u8> {
        assert_eq!(answer & 0xff, 0);
        let slot = (answer >> 8) as usize - 1;
        while self.call(Call::Step { slot }) != 0 {}
        let out = OUT_BYTES;
        let written = self.call(Call::Collect { slot, out });
        assert_eq!(written & 0xff, 0);
        self.memory.out[..(written >> 8) as usize].to_vec()
    }

    /// Gives a queue pair a state and a service type.
    fn set(&mut self, qp: usize, state: u8, service_type: u8) {
        self.memory.store[256 * qp] = state << 4;
        self.memory.store[256 * qp + 1] = service_type;
    }
}

fn marked(side: Side) {
    // P1, P2.
    assert_eq!(Adapter::closed(side, STORE).init(), 0);
    assert_eq!(Adapter::closed(side, STORE - 1).init(), 3);
    // P3 to P5: the bytes that change are the record's.
    let first_changed = |op, index, mailbox: &[u8]| {
        let mut adapter = Adapter::open(side);
        let answer = adapter.command(op, index, mailbox);
        adapter.finish(answer);
        adapter.memory.store.iter().position(|&byte| byte != 0)
    };
    let mut cq = [0xff; 56];
    cq[0x2c..0x30].copy_from_slice(&[0, 0, 0, 3]);
    let mut image = [0xff; 164];
    image[1] = 3;
    assert_eq!(first_changed(Op::Rst2Init, 5, &image), Some(1280));
    assert_eq!(first_changed(Op::Sw2HwCq, 3, &cq), Some(2240));
    assert_eq!(first_changed(Op::Sw2HwMpt, 3, &[0xff; 56]), Some(2624));
    // P6 to P8.
    let read = |word: u32| {
        let mut adapter = Adapter::closed(side, STORE);
        let mut hcr = harness::side::Hcr::zero(28);
        hcr.bytes[24..28].copy_from_slice(&word.to_le_bytes());
        let answer = adapter.call(Call::ReadRegister { hcr, fields: 32 });
        let out = &adapter.memory.out;
        (answer, u16::from_le_bytes([out[22], out[23]]), out[24])
    };
    assert_eq!(read(0x0080_0019), (0, 0x19, 0));
    assert_eq!(read(0x0080_301e), (0, 0x1e, 3));
    assert_eq!(read(0x0090_0019).0, 3);
    // P9 to P11.
    let to_sqe = |state: State, service_type| {
        let mut adapter = Adapter::open(side);
        adapter.set(5, state as u8, service_type);
        adapter.engine(3, 5, 0, State::Sqe as u8) & 0xff
    };
    assert_eq!(to_sqe(State::Rtr, 3), 0x85);
    assert_eq!(to_sqe(State::Rts, 3), 0);
    assert_eq!(to_sqe(State::Rts, 0), 0x88);
    // P12.
    let mut adapter = Adapter::open(side);
    adapter.set(5, State::Rtr as u8, 0);
    adapter.memory.store[1280 + 0x84..][..4].copy_from_slice(&[7, 0, 0, 0x10]);
    let answer = adapter.engine(5, 5, 0x20, State::Rtr as u8);
    adapter.finish(answer);
    assert_eq!(adapter.memory.store[1280 + 0x84..][..4], [7, 0, 0, 0x20]);
}

fn run_by_a_program(side: Side) {
    let index = |index| Adapter::open(side).engine(1, index, 0, 0);
    assert_eq!(index(7), 0x100);
    assert_eq!(index(8), 3);
    assert_eq!(index(0x80_0000), 3);
    let psn = |psn| {
        let mut adapter = Adapter::open(side);
        adapter.set(7, State::Rts as u8, 0);
        adapter.engine(4, 7, psn, State::Rts as u8)
    };
    assert_eq!(psn(0xff_ffff), 0x100);
    assert_eq!(psn(0x100_0000), 3);
    let mut adapter = Adapter::open(side);
    for qp in 0..8 {
        assert_eq!(adapter.engine(6, qp, 0, 0), (qp + 1) << 8);
    }
    assert_eq!(adapter.engine(1, 0, 0, 0), 0x82);
    adapter.finish(0x400);
    assert_eq!(adapter.engine(1, 0, 0, 0), 0x400);
}

/// Each edge from each state code, by commands and by engine writes.
fn each_edge(side: Side) {
    let table: [(Op, &[u8], u8); 11] = [
        (Op::Rst2Init, &[0], 1),
        (Op::Init2Init, &[1], 1),
        (Op::Init2Rtr, &[1], 2),
        (Op::Rtr2Rts, &[2], 3),
        (Op::Rts2Rts, &[3], 3),
        (Op::Sqe2Rts, &[4], 3),
        (Op::Rts2Sqd, &[3], 5),
        (Op::Sqd2Sqd, &[5], 5),
        (Op::Sqd2Rts, &[5], 3),
        (Op::ToErr, &[1, 2, 3, 4, 5], 6),
        (Op::ToReset, &[1, 2, 3, 4, 5, 6], 0),
    ];
    for (op, from, to) in table {
        for code in 0..16 {
            let mut adapter = Adapter::open(side);
            adapter.set(2, code, 1);
            let mut image = [0xa5; 164];
            image[1] = 1;
            let answer = adapter.command(op, 2, &image);
            assert_eq!(answer, if from.contains(&code) { 0x100 } else { 0x85 });
            if answer == 0x100 {
                assert!(adapter.finish(answer).is_empty());
                assert_eq!(adapter.memory.store[512] >> 4, to);
            }
        }
    }
    for (code, to) in (0..16).flat_map(|code| (0..7).map(move |to| (code, to))) {
        for service_type in [0, 1, 3] {
            let mut adapter = Adapter::open(side);
            adapter.set(2, code, service_type);
            let starts = [2, 3, 4, 5].contains(&code);
            let to_sqe = to == 4 && [3, 5].contains(&code);
            let answer = adapter.engine(3, 2, 0x12_3456, to);
            let right = match starts && (to == code || to == 6 || to_sqe) {
                true if to_sqe && service_type == 0 => 0x88,
                true => 0x100,
                false => 0x85,
            };
            assert_eq!(answer, right);
            if right == 0x100 {
                adapter.finish(answer);
                let read = adapter.engine(2, 2, 0, 0);
                assert_eq!(adapter.finish(read), [to, 0x12, 0x34, 0x56]);
            }
        }
    }
}

/// Request 7 (02, wish 2): the joined answer, and the order of its refusals.
fn joined(side: Side) {
    let mut adapter = Adapter::open(side);
    adapter.set(1, State::Rts as u8, 0);
    adapter.memory.store[256 + 0x73] = 3;
    adapter.memory.store[2240 + 0x13] = 1;
    adapter.memory.store[2368] = 0xee;
    let answer = adapter.engine(7, 1, 0, 0);
    let bytes = adapter.finish(answer);
    assert_eq!(bytes.len(), 384);
    assert_eq!(bytes[..256], adapter.memory.store[256..512]);
    assert_eq!(bytes[256..320], adapter.memory.store[2240..2304]);
    assert_eq!(bytes[320..], adapter.memory.store[2368..2432]);
    // The completion queue's hold is tested before the event queue's name.
    adapter.memory.store[2240 + 0x13] = 2;
    assert_eq!(adapter.engine(7, 1, 0, 0), 3);
    adapter.memory.store[2240 + 63] = 1;
    assert_eq!(adapter.command(Op::Hw2SwCq, 3, &[]), 0x100);
    assert_eq!(adapter.engine(7, 1, 0, 0), 0x81);
    adapter.memory.store[256 + 0x70] = 1;
    assert_eq!(adapter.engine(7, 1, 0, 0), 3);
    let rts = State::Rts as u8;
    assert_eq!(adapter.engine(3, 1, 0, rts), 0x200);
    assert_eq!(adapter.engine(7, 1, 0, 0), 0x81);
}

/// A typed row of seven or nine slots is refused by every operation, and nothing changes.
#[test]
fn a_row_of_another_length() {
    for len in [0, 7, 9] {
        let mut hca: Hca = Hca::closed();
        let mut row = vec![Slot::Free; len];
        let (mut store, mut room, mut out) = ([0; STORE], [0; 3072], [0; 384]);
        let (hcr, mailbox) = init_hca(&mut Rng::new(1), LOGS.0);
        let (row, store, room) = (&mut row, &mut store, &mut room);
        let length = Refusal::BadLength;
        let submitted = hca.submit_command(row, store, room, hcr.get(), mailbox.get());
        assert_eq!(submitted, Err(length));
        let submitted = hca.submit_engine(row, store, room, 1, 0, 0, 0);
        assert_eq!(submitted, Err(length));
        assert_eq!(hca.step(row, store, room, 0), Err(length));
        assert_eq!(hca.collect(row, store, room, 0, &mut out), Err(length));
        assert_eq!(hca.reset(row, room), Err(length));
        assert_eq!(hca, Hca::closed());
    }
}

macro_rules! both {
    ($($test:ident)*) => {$(
        mod $test {
            #[test]
            fn library() {
                super::$test(super::library);
            }

            #[test]
            fn reference() {
                super::$test(super::reference::<0>);
            }
        }
    )*};
}

both!(marked run_by_a_program each_edge joined);
