//! The C form under its C names: a library that firmware and C tests can be linked with in place of the proved one.
//!
//! The caller's promises are those of the C header: each pointer leads to as many bytes as the length behind it says, and the buffers of
//! one call do not overlap, and no pointer is null. Here, beyond the header, a null pointer with the length 0 does no harm.

#[allow(dead_code)]
#[path = "lib.rs"]
mod rust_tag;

use rust_tag::c_form;
use std::slice;

/// # Safety
/// The promise above.
unsafe fn lent<'a>(bytes: *const u8, len: usize) -> &'a [u8] {
    if len == 0 { &[] } else { unsafe { slice::from_raw_parts(bytes, len) } }
}

/// # Safety
/// The promise above.
unsafe fn lent_mut<'a>(bytes: *mut u8, len: usize) -> &'a mut [u8] {
    if len == 0 { &mut [] } else { unsafe { slice::from_raw_parts_mut(bytes, len) } }
}

/// # Safety
/// The promise above.
#[no_mangle]
pub unsafe extern "C" fn kz_power(record: *mut u8, record_len: usize) -> u8 {
    c_form::power(unsafe { lent_mut(record, record_len) })
}

/// # Safety
/// The promise above.
#[no_mangle]
pub unsafe extern "C" fn kz_select(record: *mut u8, record_len: usize) -> u8 {
    c_form::select(unsafe { lent_mut(record, record_len) })
}

/// # Safety
/// The promise above.
#[no_mangle]
pub unsafe extern "C" fn kz_load(record: *mut u8, record_len: usize, store: *mut u8, store_len: usize, file: *const u8, file_len: usize) -> u8 {
    unsafe { c_form::load(lent_mut(record, record_len), lent_mut(store, store_len), lent(file, file_len)) }
}

/// # Safety
/// The promise above.
#[no_mangle]
pub unsafe extern "C" fn kz_save(record: *const u8, record_len: usize, store: *const u8, store_len: usize, file: *mut u8, file_len: usize) -> u8 {
    unsafe { c_form::save(lent(record, record_len), lent(store, store_len), lent_mut(file, file_len)) }
}

/// # Safety
/// The promise above.
#[no_mangle]
#[allow(clippy::too_many_arguments)]
pub unsafe extern "C" fn kz_frame(
    record: *mut u8, record_len: usize, store: *mut u8, store_len: usize, frame: *const u8, frame_len: usize, random: *const u8,
    random_len: usize, reply: *mut u8, reply_len: usize,
) -> u64 {
    unsafe {
        let (record, store) = (lent_mut(record, record_len), lent_mut(store, store_len));
        c_form::frame(record, store, lent(frame, frame_len), lent(random, random_len), lent_mut(reply, reply_len))
    }
}
