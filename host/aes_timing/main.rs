//! Compares the proved AES-128 of the crate `aes_c` with a plain one, and times both.

use std::hint::black_box;
use std::process::ExitCode;
use std::time::Instant;

type Block = [u8; 16];

type Call = fn(&Block, &mut Block);

const CASES: u32 = 20_000;

/// Many short rounds: the best of them is one that nothing else on the machine disturbed.
const ROUNDS: u32 = 400;
const CALLS: u32 = 2_000;

mod rattle {
    use super::Block;

    extern "C" {
        fn kz_aes_encipher(key: &Block, block: &mut Block);
        fn kz_aes_decipher(key: &Block, block: &mut Block);
    }

    pub fn encipher(key: &Block, block: &mut Block) {
        unsafe { kz_aes_encipher(key, block) }
    }

    pub fn decipher(key: &Block, block: &mut Block) {
        unsafe { kz_aes_decipher(key, block) }
    }
}

/// AES-128 byte by byte, step by step as FIPS 197 writes it. As in `aes_c`, each call expands its key.
mod plain {
    use super::Block;

    type Schedule = [u8; 176];

    /// Figure 7.
    #[rustfmt::skip]
    static SBOX: [u8; 256] = [
        0x63, 0x7c, 0x77, 0x7b, 0xf2, 0x6b, 0x6f, 0xc5, 0x30, 0x01, 0x67, 0x2b, 0xfe, 0xd7, 0xab, 0x76,
        0xca, 0x82, 0xc9, 0x7d, 0xfa, 0x59, 0x47, 0xf0, 0xad, 0xd4, 0xa2, 0xaf, 0x9c, 0xa4, 0x72, 0xc0,
        0xb7, 0xfd, 0x93, 0x26, 0x36, 0x3f, 0xf7, 0xcc, 0x34, 0xa5, 0xe5, 0xf1, 0x71, 0xd8, 0x31, 0x15,
        0x04, 0xc7, 0x23, 0xc3, 0x18, 0x96, 0x05, 0x9a, 0x07, 0x12, 0x80, 0xe2, 0xeb, 0x27, 0xb2, 0x75,
        0x09, 0x83, 0x2c, 0x1a, 0x1b, 0x6e, 0x5a, 0xa0, 0x52, 0x3b, 0xd6, 0xb3, 0x29, 0xe3, 0x2f, 0x84,
        0x53, 0xd1, 0x00, 0xed, 0x20, 0xfc, 0xb1, 0x5b, 0x6a, 0xcb, 0xbe, 0x39, 0x4a, 0x4c, 0x58, 0xcf,
        0xd0, 0xef, 0xaa, 0xfb, 0x43, 0x4d, 0x33, 0x85, 0x45, 0xf9, 0x02, 0x7f, 0x50, 0x3c, 0x9f, 0xa8,
        0x51, 0xa3, 0x40, 0x8f, 0x92, 0x9d, 0x38, 0xf5, 0xbc, 0xb6, 0xda, 0x21, 0x10, 0xff, 0xf3, 0xd2,
        0xcd, 0x0c, 0x13, 0xec, 0x5f, 0x97, 0x44, 0x17, 0xc4, 0xa7, 0x7e, 0x3d, 0x64, 0x5d, 0x19, 0x73,
        0x60, 0x81, 0x4f, 0xdc, 0x22, 0x2a, 0x90, 0x88, 0x46, 0xee, 0xb8, 0x14, 0xde, 0x5e, 0x0b, 0xdb,
        0xe0, 0x32, 0x3a, 0x0a, 0x49, 0x06, 0x24, 0x5c, 0xc2, 0xd3, 0xac, 0x62, 0x91, 0x95, 0xe4, 0x79,
        0xe7, 0xc8, 0x37, 0x6d, 0x8d, 0xd5, 0x4e, 0xa9, 0x6c, 0x56, 0xf4, 0xea, 0x65, 0x7a, 0xae, 0x08,
        0xba, 0x78, 0x25, 0x2e, 0x1c, 0xa6, 0xb4, 0xc6, 0xe8, 0xdd, 0x74, 0x1f, 0x4b, 0xbd, 0x8b, 0x8a,
        0x70, 0x3e, 0xb5, 0x66, 0x48, 0x03, 0xf6, 0x0e, 0x61, 0x35, 0x57, 0xb9, 0x86, 0xc1, 0x1d, 0x9e,
        0xe1, 0xf8, 0x98, 0x11, 0x69, 0xd9, 0x8e, 0x94, 0x9b, 0x1e, 0x87, 0xe9, 0xce, 0x55, 0x28, 0xdf,
        0x8c, 0xa1, 0x89, 0x0d, 0xbf, 0xe6, 0x42, 0x68, 0x41, 0x99, 0x2d, 0x0f, 0xb0, 0x54, 0xbb, 0x16,
    ];

    static INV_SBOX: [u8; 256] = inverse_table();

    const fn inverse_table() -> [u8; 256] {
        let mut table = [0; 256];
        let mut i = 0;
        while i < 256 {
            table[SBOX[i] as usize] = i as u8;
            i += 1;
        }
        table
    }

    fn xtime(b: u8) -> u8 {
        (b << 1) ^ ((b >> 7) * 0x1b)
    }

    /// Section 5.2.
    fn expand(key: &Block) -> Schedule {
        let mut w = [0; 176];
        w[..16].copy_from_slice(key);
        let mut constant = 1;
        for i in (16..176).step_by(4) {
            let mut t = [w[i - 4], w[i - 3], w[i - 2], w[i - 1]];
            if i % 16 == 0 {
                t = [t[1], t[2], t[3], t[0]].map(|b| SBOX[b as usize]);
                t[0] ^= constant;
                constant = xtime(constant);
            }
            for j in 0..4 {
                w[i + j] = w[i - 16 + j] ^ t[j];
            }
        }
        w
    }

    fn add_round_key(s: Block, w: &Schedule, round: usize) -> Block {
        std::array::from_fn(|i| s[i] ^ w[16 * round + i])
    }

    fn sub_bytes(s: Block, table: &[u8; 256]) -> Block {
        s.map(|b| table[b as usize])
    }

    /// Row r moves r columns to the left.
    fn shift_rows(s: Block) -> Block {
        std::array::from_fn(|i| s[(i + 4 * (i % 4)) % 16])
    }

    /// Row r moves r columns to the right.
    fn inv_shift_rows(s: Block) -> Block {
        std::array::from_fn(|i| s[(i + 12 * (i % 4)) % 16])
    }

    /// Section 5.1.3.
    fn mix_columns(mut s: Block) -> Block {
        for column in s.chunks_exact_mut(4) {
            let [a, b, c, d] = [column[0], column[1], column[2], column[3]];
            column[0] = xtime(a) ^ xtime(b) ^ b ^ c ^ d;
            column[1] = a ^ xtime(b) ^ xtime(c) ^ c ^ d;
            column[2] = a ^ b ^ xtime(c) ^ xtime(d) ^ d;
            column[3] = xtime(a) ^ a ^ b ^ c ^ xtime(d);
        }
        s
    }

    /// The products of a byte with 9, 11, 13 and 14.
    fn multiples(b: u8) -> [u8; 4] {
        let b2 = xtime(b);
        let b4 = xtime(b2);
        let b8 = xtime(b4);
        [b8 ^ b, b8 ^ b2 ^ b, b8 ^ b4 ^ b, b8 ^ b4 ^ b2]
    }

    /// Section 5.3.3.
    fn inv_mix_columns(mut s: Block) -> Block {
        for column in s.chunks_exact_mut(4) {
            let [a9, a11, a13, a14] = multiples(column[0]);
            let [b9, b11, b13, b14] = multiples(column[1]);
            let [c9, c11, c13, c14] = multiples(column[2]);
            let [d9, d11, d13, d14] = multiples(column[3]);
            column[0] = a14 ^ b11 ^ c13 ^ d9;
            column[1] = a9 ^ b14 ^ c11 ^ d13;
            column[2] = a13 ^ b9 ^ c14 ^ d11;
            column[3] = a11 ^ b13 ^ c9 ^ d14;
        }
        s
    }

    #[inline(never)]
    pub fn encipher(key: &Block, block: &mut Block) {
        let w = expand(key);
        let mut s = add_round_key(*block, &w, 0);
        for round in 1..10 {
            s = mix_columns(shift_rows(sub_bytes(s, &SBOX)));
            s = add_round_key(s, &w, round);
        }
        *block = add_round_key(shift_rows(sub_bytes(s, &SBOX)), &w, 10);
    }

    #[inline(never)]
    pub fn decipher(key: &Block, block: &mut Block) {
        let w = expand(key);
        let mut s = add_round_key(*block, &w, 10);
        for round in (1..10).rev() {
            s = sub_bytes(inv_shift_rows(s), &INV_SBOX);
            s = inv_mix_columns(add_round_key(s, &w, round));
        }
        *block = add_round_key(sub_bytes(inv_shift_rows(s), &INV_SBOX), &w, 0);
    }
}

/// A seeded generator, SplitMix64: every run compares the same cases.
struct Random(u64);

impl Random {
    fn next(&mut self) -> u64 {
        self.0 = self.0.wrapping_add(0x9e37_79b9_7f4a_7c15);
        let mut z = self.0;
        z = (z ^ (z >> 30)).wrapping_mul(0xbf58_476d_1ce4_e5b9);
        z = (z ^ (z >> 27)).wrapping_mul(0x94d0_49bb_1331_11eb);
        z ^ (z >> 31)
    }

    fn block(&mut self) -> Block {
        let high = u128::from(self.next());
        let low = u128::from(self.next());
        (high << 64 | low).to_be_bytes()
    }
}

#[derive(Default)]
struct Tally {
    passed: u32,
    failed: u32,
}

impl Tally {
    fn compare(&mut self, what: &str, got: Block, expected: Block) {
        if got == expected {
            self.passed += 1;
            return;
        }
        self.failed += 1;
        // the first few tell enough
        if self.failed <= 5 {
            println!("{what} differs: {got:02x?}, expected {expected:02x?}");
        }
    }
}

fn applied(call: Call, key: &Block, block: &Block) -> Block {
    let mut out = *block;
    call(key, &mut out);
    out
}

/// FIPS 197, Appendix C.1, each way.
fn compare_vector(tally: &mut Tally, encipher: Call, decipher: Call) {
    let key = std::array::from_fn(|i| i as u8);
    let clear = std::array::from_fn(|i| 0x11 * i as u8);
    let cipher = 0x69c4e0d86a7b0430d8cdb78070b4c55a_u128.to_be_bytes();
    tally.compare("C.1 encipher", applied(encipher, &key, &clear), cipher);
    tally.compare("C.1 decipher", applied(decipher, &key, &cipher), clear);
}

fn compare_random(tally: &mut Tally, what: &str, rattle: Call, rust: Call) {
    let mut random = Random(1);
    for _ in 0..CASES {
        let key = random.block();
        let block = random.block();
        tally.compare(
            what,
            applied(rattle, &key, &block),
            applied(rust, &key, &block),
        );
    }
}

/// Nanoseconds a call, each call on the block that the one before it left.
fn timed(call: Call) -> f64 {
    let key = [0x2b; 16];
    let mut block = [0x32; 16];
    let start = Instant::now();
    for _ in 0..CALLS {
        call(black_box(&key), black_box(&mut block));
    }
    start.elapsed().as_nanos() as f64 / f64::from(CALLS)
}

/// The best round of each. The two take turns, so that both meet the same machine.
fn time_both(what: &str, rattle: Call, rust: Call) {
    let mut of_rattle = f64::MAX;
    let mut of_rust = f64::MAX;
    for _ in 0..ROUNDS {
        of_rattle = of_rattle.min(timed(rattle));
        of_rust = of_rust.min(timed(rust));
    }
    let ratio = of_rattle / of_rust;
    println!("{what}: Rattle {of_rattle:.0} ns, Rust {of_rust:.0} ns, ratio {ratio:.2}");
}

fn main() -> ExitCode {
    let mut tally = Tally::default();
    compare_vector(&mut tally, rattle::encipher, rattle::decipher);
    compare_vector(&mut tally, plain::encipher, plain::decipher);
    compare_random(&mut tally, "encipher", rattle::encipher, plain::encipher);
    compare_random(&mut tally, "decipher", rattle::decipher, plain::decipher);
    time_both("encipher", rattle::encipher, plain::encipher);
    time_both("decipher", rattle::decipher, plain::decipher);
    println!("{} passed, {} failed", tally.passed, tally.failed);
    if tally.failed == 0 {
        ExitCode::SUCCESS
    } else {
        ExitCode::FAILURE
    }
}
