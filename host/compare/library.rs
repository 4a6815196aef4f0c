//! The calls of the library under comparison, which is linked in by its C names.

mod c {
    extern "C" {
        pub fn kz_power(record: *mut u8, record_len: usize) -> u8;
        pub fn kz_select(record: *mut u8, record_len: usize) -> u8;
        pub fn kz_load(record: *mut u8, record_len: usize, store: *mut u8, store_len: usize, file: *const u8, file_len: usize) -> u8;
        pub fn kz_save(record: *const u8, record_len: usize, store: *const u8, store_len: usize, file: *mut u8, file_len: usize) -> u8;
        pub fn kz_frame(
            record: *mut u8, record_len: usize, store: *mut u8, store_len: usize, frame: *const u8, frame_len: usize, random: *const u8,
            random_len: usize, reply: *mut u8, reply_len: usize,
        ) -> u64;
    }
}

// Each pointer comes from a slice of the length beside it, and slices that are lent for writing overlap no other: what the calls ask for.

pub fn power(record: &mut [u8]) -> u8 {
    unsafe { c::kz_power(record.as_mut_ptr(), record.len()) }
}

pub fn select(record: &mut [u8]) -> u8 {
    unsafe { c::kz_select(record.as_mut_ptr(), record.len()) }
}

pub fn load(record: &mut [u8], store: &mut [u8], file: &[u8]) -> u8 {
    unsafe { c::kz_load(record.as_mut_ptr(), record.len(), store.as_mut_ptr(), store.len(), file.as_ptr(), file.len()) }
}

pub fn save(record: &[u8], store: &[u8], file: &mut [u8]) -> u8 {
    unsafe { c::kz_save(record.as_ptr(), record.len(), store.as_ptr(), store.len(), file.as_mut_ptr(), file.len()) }
}

pub fn frame(record: &mut [u8], store: &mut [u8], frame: &[u8], random: &[u8], reply: &mut [u8]) -> u64 {
    unsafe {
        c::kz_frame(
            record.as_mut_ptr(), record.len(), store.as_mut_ptr(), store.len(), frame.as_ptr(), frame.len(), random.as_ptr(), random.len(),
            reply.as_mut_ptr(), reply.len(),
        )
    }
}
