//! The exported functions of `include/ecgslope.h`, and the only unsafe code: each is called with the pointers and lengths of
//! slices. Slices are valid for their lengths, and those lent mutably overlap no other, which is all that the library relies on.

use std::os::raw::c_uchar;

mod exported {
    use super::c_uchar;

    extern "C" {
        pub fn ecgslope_submit_command(
            device: *mut c_uchar,
            device_len: usize,
            store: *mut c_uchar,
            store_len: usize,
            room: *mut c_uchar,
            room_len: usize,
            hcr: *const c_uchar,
            hcr_len: usize,
            mailbox: *const c_uchar,
            mailbox_len: usize,
        ) -> u32;
        pub fn ecgslope_submit_engine(
            device: *mut c_uchar,
            device_len: usize,
            store: *mut c_uchar,
            store_len: usize,
            room: *mut c_uchar,
            room_len: usize,
            number: u32,
            index: u32,
            psn: u32,
            state: u8,
        ) -> u32;
        pub fn ecgslope_step(
            device: *mut c_uchar,
            device_len: usize,
            store: *mut c_uchar,
            store_len: usize,
            room: *mut c_uchar,
            room_len: usize,
            slot: usize,
        ) -> u32;
        pub fn ecgslope_collect(
            device: *mut c_uchar,
            device_len: usize,
            store: *const c_uchar,
            store_len: usize,
            room: *const c_uchar,
            room_len: usize,
            slot: usize,
            out: *mut c_uchar,
            out_len: usize,
        ) -> u32;
        pub fn ecgslope_reset(
            device: *mut c_uchar,
            device_len: usize,
            store: *const c_uchar,
            store_len: usize,
            room: *const c_uchar,
            room_len: usize,
        ) -> u32;
        pub fn ecgslope_read_register(
            hcr: *const c_uchar,
            hcr_len: usize,
            fields: *mut c_uchar,
            fields_len: usize,
        ) -> u32;
        pub fn ecgslope_write_register(
            hcr: *mut c_uchar,
            hcr_len: usize,
            fields: *const c_uchar,
            fields_len: usize,
        ) -> u32;
    }
}

#[inline]
pub fn submit_command(
    device: &mut [u8],
    store: &mut [u8],
    room: &mut [u8],
    hcr: &[u8],
    mailbox: &[u8],
) -> u32 {
    // SAFETY: see the head of this module.
    unsafe {
        exported::ecgslope_submit_command(
            device.as_mut_ptr(),
            device.len(),
            store.as_mut_ptr(),
            store.len(),
            room.as_mut_ptr(),
            room.len(),
            hcr.as_ptr(),
            hcr.len(),
            mailbox.as_ptr(),
            mailbox.len(),
        )
    }
}

/// The engine request's fields are in the order number, index, PSN, state.
#[inline]
pub fn submit_engine(
    device: &mut [u8],
    store: &mut [u8],
    room: &mut [u8],
    (number, index, psn, state): (u32, u32, u32, u8),
) -> u32 {
    // SAFETY: see the head of this module.
    unsafe {
        exported::ecgslope_submit_engine(
            device.as_mut_ptr(),
            device.len(),
            store.as_mut_ptr(),
            store.len(),
            room.as_mut_ptr(),
            room.len(),
            number,
            index,
            psn,
            state,
        )
    }
}

#[inline]
pub fn step(device: &mut [u8], store: &mut [u8], room: &mut [u8], slot: usize) -> u32 {
    // SAFETY: see the head of this module.
    unsafe {
        exported::ecgslope_step(
            device.as_mut_ptr(),
            device.len(),
            store.as_mut_ptr(),
            store.len(),
            room.as_mut_ptr(),
            room.len(),
            slot,
        )
    }
}

#[inline]
pub fn collect(device: &mut [u8], store: &[u8], room: &[u8], slot: usize, out: &mut [u8]) -> u32 {
    // SAFETY: see the head of this module.
    unsafe {
        exported::ecgslope_collect(
            device.as_mut_ptr(),
            device.len(),
            store.as_ptr(),
            store.len(),
            room.as_ptr(),
            room.len(),
            slot,
            out.as_mut_ptr(),
            out.len(),
        )
    }
}

#[inline]
pub fn reset(device: &mut [u8], store: &[u8], room: &[u8]) -> u32 {
    // SAFETY: see the head of this module.
    unsafe {
        exported::ecgslope_reset(
            device.as_mut_ptr(),
            device.len(),
            store.as_ptr(),
            store.len(),
            room.as_ptr(),
            room.len(),
        )
    }
}

#[inline]
pub fn read_register(hcr: &[u8], fields: &mut [u8]) -> u32 {
    // SAFETY: see the head of this module.
    unsafe {
        exported::ecgslope_read_register(hcr.as_ptr(), hcr.len(), fields.as_mut_ptr(), fields.len())
    }
}

#[inline]
pub fn write_register(hcr: &mut [u8], fields: &[u8]) -> u32 {
    // SAFETY: see the head of this module.
    unsafe {
        exported::ecgslope_write_register(
            hcr.as_mut_ptr(),
            hcr.len(),
            fields.as_ptr(),
            fields.len(),
        )
    }
}
