//! Compares the proved CRC_A of the crate `crc_c` with a plain one that works bit by bit, and times both.

use std::hint::black_box;
use std::process::ExitCode;
use std::time::Instant;

const CASES: u32 = 20_000;

/// Many short rounds: the best of them is one that nothing else on the machine disturbed.
const ROUNDS: u32 = 400;
const CALLS: u32 = 500;

/// The payload of a READ, a READ's reply, and a FAST_READ of the whole memory.
const LENGTHS: [usize; 3] = [3, 18, 242];

extern "C" {
    fn kz_crc_a(frame: *const u8, length: usize) -> u16;
}

fn proved(frame: &[u8]) -> u16 {
    unsafe { kz_crc_a(frame.as_ptr(), frame.len()) }
}

/// Bit by bit, as the standard's own example does it.
fn bit_by_bit(frame: &[u8]) -> u16 {
    let mut register = 0x6363;
    for byte in frame {
        register ^= u16::from(*byte);
        for _ in 0..8 {
            let odd = register % 2 == 1;
            register >>= 1;
            if odd {
                register ^= 0x8408;
            }
        }
    }
    register
}

struct Random(u64);

impl Random {
    fn byte(&mut self) -> u8 {
        self.0 ^= self.0 << 13;
        self.0 ^= self.0 >> 7;
        self.0 ^= self.0 << 17;
        (self.0 >> 32) as u8
    }

    fn bytes(&mut self, length: usize) -> Vec<u8> {
        (0..length).map(|_| self.byte()).collect()
    }
}

fn nanoseconds(call: fn(&[u8]) -> u16, frame: &[u8]) -> f64 {
    let started = Instant::now();
    for _ in 0..CALLS {
        black_box(call(black_box(frame)));
    }
    started.elapsed().as_nanos() as f64 / f64::from(CALLS)
}

/// The two take turns, so that both meet the same machine; of each the best round.
fn timed(frame: &[u8]) -> (f64, f64) {
    let mut best = (f64::MAX, f64::MAX);
    for _ in 0..ROUNDS {
        best.0 = best.0.min(nanoseconds(proved, frame));
        best.1 = best.1.min(nanoseconds(bit_by_bit, frame));
    }
    best
}

/// With `--cfg before`: the library of an earlier commit beside this one's, in one run (before.sh).
#[cfg(before)]
mod before {
    extern "C" {
        fn kz_crc_a_before(frame: *const u8, length: usize) -> u16;
    }

    pub fn proved(frame: &[u8]) -> u16 {
        unsafe { kz_crc_a_before(frame.as_ptr(), frame.len()) }
    }
}

#[cfg(before)]
fn print_before(frame: &[u8]) {
    let mut best = (f64::MAX, f64::MAX);
    for _ in 0..ROUNDS {
        best.0 = best.0.min(nanoseconds(proved, frame));
        best.1 = best.1.min(nanoseconds(before::proved, frame));
    }
    println!("CRC_A of {} bytes: now {:.0} ns, before {:.0} ns, ratio {:.2}", frame.len(), best.0, best.1, best.0 / best.1);
}

#[cfg(not(before))]
fn print_before(_frame: &[u8]) {}

fn main() -> ExitCode {
    let mut random = Random(0x9E37_79B9_7F4A_7C15);
    let mut failed = 0;
    for case in 0..CASES {
        let frame = random.bytes(case as usize % 300);
        failed += u32::from(proved(&frame) != bit_by_bit(&frame));
    }
    for length in LENGTHS {
        let frame = random.bytes(length);
        let (ours, plain) = timed(&frame);
        println!("CRC_A of {length} bytes: proved {ours:.0} ns, plain Rust bit by bit {plain:.0} ns, ratio {:.2}", ours / plain);
        print_before(&frame);
    }
    println!("{} passed, {failed} failed", CASES - failed);
    if failed == 0 { ExitCode::SUCCESS } else { ExitCode::FAILURE }
}
