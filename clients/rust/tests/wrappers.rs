//! The typed wrappers: a queue pair brought up, read and collected, and refusals as values.

use ecgslope::reference::register;
use ecgslope::{Device, Fields, Refusal, ANSWER_BYTES};

fn command(op: u16, op_modifier: u8, in_modifier: u32) -> [u8; 28] {
    let fields = Fields {
        in_param: 0x0123_4567_89ab_cdef,
        token: 0xbeef,
        op,
        op_modifier,
        in_modifier,
        ..Fields::default()
    };
    let hcr = Device::write_register(&fields).expect("a command");
    assert_eq!(Device::read_register(&hcr), Ok(fields));
    assert_eq!(register::read(&hcr), Ok(fields));
    hcr
}

#[test]
fn a_queue_pair_is_brought_up() {
    let mut device = Device::new(2688);
    let mut init = [0; 64];
    (init[0x0f], init[0x17], init[0x1f], init[0x37]) = (3, 2, 1, 2);
    assert_eq!(device.submit_command(&command(0x07, 0, 0), &init), Ok(None));
    let image = [0; 164];
    let refused = device.submit_command(&command(0x1a, 0, 5), &image);
    assert_eq!(refused, Err(Refusal::NotPermitted));
    let mut out = [0; ANSWER_BYTES];
    for op in [0x19, 0x1a, 0x1b] {
        let slot = device.submit_command(&command(op, 0, 5), &image);
        assert_eq!(slot, Ok(Some(0)));
        for left in (0..16).rev() {
            assert_eq!(device.collect(0, &mut out), Err(Refusal::StillRunning));
            assert_eq!(device.step(0), Ok(left));
        }
        assert_eq!(device.collect(0, &mut out), Ok(0));
    }
    assert_eq!(device.store()[1280], 0x30);
    let slot = device.submit_engine(2, 5, 0, 0).expect("a read");
    assert_eq!((device.step(slot), device.step(slot)), (Ok(1), Ok(0)));
    assert_eq!(device.collect(slot, &mut out), Ok(4));
    assert_eq!(out[..4], [3, 0, 0, 0]);
    assert_eq!(device.step(slot), Err(Refusal::NoRequest));
    assert_eq!(device.reset(), Ok(()));
    assert_eq!((device.device()[0], device.room().len()), (0, 3072));
    device.device_mut()[0] = 2;
    assert_eq!(device.step(0), Err(Refusal::Impossible));
    device.store_mut()[0] = 0;
    device.room_mut()[0] = 0;
    assert_eq!(device.reset(), Ok(()));
}

#[test]
fn a_register_that_cannot_be_written() {
    let fields = Fields {
        op: 0x1000,
        ..Fields::default()
    };
    assert_eq!(Device::write_register(&fields), Err(Refusal::BadParameter));
    assert_eq!(register::write(&fields), Err(Refusal::BadParameter));
    assert_eq!(Device::read_register(&[0; 27]), Err(Refusal::BadLength));
    assert_eq!(Device::read_register(&[0; 28]), Err(Refusal::BadParameter));
}
