//! Image files, good ones and ones that are refused.

use crate::random::Random;
use rust_tag::tag::{IMAGE_LEN, STORE_LEN};

/// Where the sections stand, each behind its count byte.
const COUNTS_AT: [usize; 4] = [0, 241, 251, 254];
const COUNTERS_AT: usize = 242;
const FAILED_AT: usize = 252;
const KEY_AT: usize = 255;

pub const COUNTER_MAX: u32 = 0xFF_FFFF;

/// Offsets of the check bytes in the store, BCC0 and BCC1; an image has its count before them.
pub const CHECK_BYTES_AT: [usize; 2] = [3, 8];
const SERIAL_AT: [usize; 7] = [0, 1, 2, 4, 5, 6, 7];

/// BCC0 and BCC1 of the serial number in a store (009 8.5.1).
fn right_check_bytes(store: &[u8]) -> [u8; 2] {
    [0x88 ^ store[0] ^ store[1] ^ store[2], store[4] ^ store[5] ^ store[6] ^ store[7]]
}

pub fn put_check_bytes(store: &mut [u8]) {
    for (at, byte) in CHECK_BYTES_AT.into_iter().zip(right_check_bytes(store)) {
        store[at] = byte;
    }
}

/// The bits in which each check byte of a store is wrong.
pub fn wrong_check_bits(store: &[u8]) -> [u8; 2] {
    let right = right_check_bytes(store);
    std::array::from_fn(|i| store[CHECK_BYTES_AT[i]] ^ right[i])
}

/// An image that a tag can have, if its counts are left alone.
#[derive(Clone)]
pub struct Image(pub [u8; IMAGE_LEN]);

impl Image {
    /// No protection and no locks; all else random, with a serial number that has right check bytes.
    pub fn open(r: &mut Random) -> Image {
        let mut image = Image([0; IMAGE_LEN]);
        for (at, count) in COUNTS_AT.into_iter().zip([60, 3, 1, 1]) {
            image.0[at] = count;
        }
        if r.chance(80) {
            r.fill(&mut image.0[1..1 + STORE_LEN]);
        }
        image.put_serial(r);
        image.set(0x02, 2, &[0, 0]);
        image.set(0x03, 0, &[0; 4]);
        image.set(0x28, 0, &[0; 4]);
        image.set(0x29, 0, &[0, 0, 0, 0x3C]);
        image.set(0x2A, 0, &[0x0C, 0x05, 0, 0]);
        image.set(0x2D, 0, &[0]);
        for k in 0..3 {
            let counter = some_counter(r);
            image.counter(k, counter);
        }
        r.fill(&mut image.0[KEY_AT..]);
        image
    }

    /// Protection, locks and settings of all kinds.
    pub fn wild(r: &mut Random) -> Image {
        let mut image = Image::open(r);
        image.set(0x02, 2, &[r.few_bits(), r.few_bits()]);
        image.set(0x03, 0, &[r.few_bits(), r.few_bits(), r.few_bits(), r.few_bits()]);
        image.set(0x28, 0, &[r.few_bits(), r.few_bits(), r.few_bits(), r.few_bits()]);
        image.set(0x29, 0, &config_0(r));
        let any = r.below(1024) as u16;
        let failed = r.pick(&[0, 0, 0, 1, 16, 17, 40, 1022, 1023, any]);
        image.set(0x2A, 0, &config_1(r, failed));
        let any = r.byte();
        image.set(0x2D, 0, &[r.pick(&[0, 0, 0x20, 0x40, 0x80, 0xE0, any])]);
        image.failed(failed);
        image
    }

    /// Most serial numbers begin with the maker's 04h; others have check bytes by the same rule.
    fn put_serial(&mut self, r: &mut Random) {
        // the byte between its parts is BCC0's
        let mut serial = [0; 8];
        if r.chance(90) {
            r.fill(&mut serial);
        }
        serial[0] = r.pick(&[0x04, 0x04, 0x04, serial[0]]);
        self.set(0x00, 0, &serial);
        put_check_bytes(&mut self.0[1..]);
    }

    /// Puts bytes into a page, from its byte `from` on.
    pub fn set(&mut self, page: usize, from: usize, bytes: &[u8]) {
        let at = 1 + 4 * page + from;
        self.0[at..at + bytes.len()].copy_from_slice(bytes);
    }

    pub fn counter(&mut self, k: usize, value: u32) {
        self.0[COUNTERS_AT + 3 * k..COUNTERS_AT + 3 * (k + 1)].copy_from_slice(&value.to_le_bytes()[..3]);
    }

    pub fn failed(&mut self, count: u16) {
        self.0[FAILED_AT..FAILED_AT + 2].copy_from_slice(&count.to_le_bytes());
    }

    pub fn limit(&mut self, limit: u16) {
        self.set(0x2A, 2, &limit.to_le_bytes());
    }
}

fn some_counter(r: &mut Random) -> u32 {
    let near = COUNTER_MAX - r.below(300) as u32;
    let any = r.next() as u32 & COUNTER_MAX;
    r.pick(&[0, 10, COUNTER_MAX, COUNTER_MAX - 1, near, any])
}

/// CFG_0: Random ID, bits without effect, and AUTH0 that often protects nothing.
pub fn config_0(r: &mut Random) -> [u8; 4] {
    let (any, page) = (r.byte(), r.below(0x3C) as u8);
    let auth0 = r.pick(&[0x3C, 0x3C, 0x3C, 0xBC, 0x7F, page, page, page | 0x80, 0x04, 0x29, 0x30, 0x3B, any]);
    [r.pick(&[0, 0, 1, 1, 2, any]), r.few_bits(), r.few_bits(), auth0]
}

/// CFG_1, AUTH_LIM often near the failed count: only there does the count show.
pub fn config_1(r: &mut Random, failed: u16) -> [u8; 4] {
    let any = r.below(0x400) as u16;
    let limit = r.pick(&[0, 0, 0, 1, 2, 3, 17, 40, 0x3FF, failed, failed, failed + 1, failed + 2, any]).min(0x3FF).to_le_bytes();
    let any = r.byte();
    let bits = r.pick(&[0x0C, 0x8C, 0x0C, 0x00, 0x80, 0x04, 0x88, any]) | r.pick(&[0, 0, 0, 0x40]);
    [bits, 0x05, limit[0], limit[1] | r.pick(&[0, 0, 0xFC])]
}

/// Makes right check bytes wrong: by a single bit in most cases, by 88h where it doesn't belong or is missing, by the same bits in both, or
/// by another serial number above them.
pub fn spoil_serial(r: &mut Random, store: &mut [u8]) {
    let [bcc0, bcc1] = CHECK_BYTES_AT;
    let (one, bit, any) = (r.pick(&CHECK_BYTES_AT), 1 << r.below(8), 1 + r.below(255) as u8);
    match r.below(8) {
        0..=3 => store[one] ^= bit,
        4 => store[one] ^= 0x88,
        5 => store[one] ^= any,
        6 => {
            let bits = r.pick(&[bit, 0x88]);
            store[bcc0] ^= bits;
            store[bcc1] ^= bits;
        }
        _ => store[r.pick(&SERIAL_AT)] ^= any,
    }
}

/// A file that no tag has: another length, another count, a failed count that is too high, check bytes of another serial number.
pub fn refused(r: &mut Random) -> Vec<u8> {
    let mut image = Image::wild(r).0.to_vec();
    match r.below(6) {
        0 => image.truncate(r.pick(&[0, 1, 241, 251, 254, 270])),
        1 => image.truncate(r.below(IMAGE_LEN)),
        2 => {
            let more = r.pick(&[1, 1, 2, 271, 300]);
            image.extend(r.bytes(more));
        }
        3 => {
            let at = r.pick(&COUNTS_AT);
            let any = r.byte();
            image[at] = r.pick(&[0, image[at] - 1, image[at] + 1, 0xFF, any]);
        }
        4 => spoil_serial(r, &mut image[1..1 + STORE_LEN]),
        _ => {
            let any = 1024 + r.below(65536 - 1024) as u16;
            let count = r.pick(&[1024, 0xFFFF, 0x0400, 0x8000, any]);
            image[FAILED_AT..FAILED_AT + 2].copy_from_slice(&count.to_le_bytes());
        }
    }
    image
}
