//! Times the proved tag, through its C calls, and the plain Rust tag, through its own: whole logins, READ, WRITE and FAST_READ.
//!
//! The two take turns in short blocks, so that both meet the same machine; who begins changes from block to block. Both play the same
//! frames with the same random bytes, and all that they answer is compared after each block. Only the calls are timed: frames and proofs
//! are made before.

#[path = "../compare/library.rs"]
#[allow(dead_code)]
mod library;
#[path = "../compare/random.rs"]
#[allow(dead_code)]
mod random;

use random::Random;
use rust_tag::aes::{Aes128, Block, BLOCK};
use rust_tag::c_form::{buffer_of, record_of, RECORD_LEN};
use rust_tag::crc::crc_a;
use rust_tag::tag::{self, Record, Reply, State, Store, REPLY_LEN, STORE_LEN};
use std::hint::black_box;
use std::process::ExitCode;
use std::time::{Duration, Instant};

const BLOCK_LEN: usize = 1_000;
const BLOCKS: usize = 100;

/// A frame with its CRC and the random bytes that go with it.
struct Sent {
    frame: Vec<u8>,
    random: Block,
}

impl Sent {
    fn new(plain: &[u8], random: Block) -> Sent {
        Sent { frame: [plain, &crc_a(plain)].concat(), random }
    }
}

/// What a block of frames answered: numbers, nibbles (0 where none was said) and data in the order they came.
#[derive(Default, PartialEq)]
struct Heard {
    numbers: Vec<u8>,
    nibbles: Vec<u8>,
    data: Vec<u8>,
}

/// One of the two tags.
trait Tag {
    /// Sends the frames one after the other.
    fn play(&mut self, sent: &[Sent], heard: &mut Heard);
    fn store(&self) -> &Store;
    fn record(&self) -> Record;
}

struct Rattle {
    record: [u8; RECORD_LEN],
    store: Store,
    reply: [u8; REPLY_LEN],
}

impl Tag for Rattle {
    fn play(&mut self, sent: &[Sent], heard: &mut Heard) {
        for Sent { frame, random } in sent {
            let answer = library::frame(&mut self.record, &mut self.store, frame, random, &mut self.reply);
            heard.numbers.push(answer as u8);
            heard.nibbles.push((answer >> 16) as u8);
            heard.data.extend_from_slice(&self.reply[..usize::from((answer >> 32) as u16)]);
        }
    }

    fn store(&self) -> &Store {
        &self.store
    }

    fn record(&self) -> Record {
        record_of(&self.record)
    }
}

struct Rust {
    record: Record,
    store: Store,
    reply: [u8; REPLY_LEN],
}

impl Tag for Rust {
    fn play(&mut self, sent: &[Sent], heard: &mut Heard) {
        for Sent { frame, random } in sent {
            let answer = tag::frame(self.record, &mut self.store, frame, random, &mut self.reply);
            self.record = answer.record;
            heard.numbers.push(answer.number);
            heard.nibbles.push(if let Reply::Nibble(nibble) = answer.reply { nibble } else { 0 });
            if let Reply::Bytes(count) = answer.reply {
                heard.data.extend_from_slice(&self.reply[..count]);
            }
        }
    }

    fn store(&self) -> &Store {
        &self.store
    }

    fn record(&self) -> Record {
        self.record
    }
}

/// Both tags in ACTIVE with the same memory: no protection, no locks, no limit, keys of random bytes.
fn both(r: &mut Random) -> (Rattle, Rust) {
    let mut store = [0; STORE_LEN];
    r.fill(&mut store[4 * 0x04..4 * 0x28]);
    r.fill(&mut store[4 * 0x30..4 * 0x38]);
    store[4 * 0x29 + 3] = 0x3C;
    store[4 * 0x2A] = 0x0C;
    let record = Record { state: State::Active, originality_key: r.block(), ..Record::ZERO };
    (Rattle { record: buffer_of(&record), store, reply: [0; REPLY_LEN] }, Rust { record, store, reply: [0; REPLY_LEN] })
}

// ---- frames

/// Both parts of a login with DataProtKey, whose byte 0 lies in byte 3 of its last page.
fn login(r: &mut Random, store: &Store) -> Vec<Sent> {
    let key: Block = std::array::from_fn(|i| store[4 * 0x34 - 1 - i]);
    let challenge = r.block();
    let mut text = [r.block(), challenge].concat();
    text[BLOCK..].rotate_left(1);
    Aes128::new(&key).cbc_encrypt(&[0; BLOCK], &mut text);
    vec![Sent::new(&[0x1A, 0x00], challenge), Sent::new(&[&[0xAF][..], &text].concat(), [0; BLOCK])]
}

fn read(r: &mut Random, _store: &Store) -> Vec<Sent> {
    vec![Sent::new(&[0x30, r.below(0x39) as u8], [0; BLOCK])]
}

fn write(r: &mut Random, _store: &Store) -> Vec<Sent> {
    let data = (r.next() as u32).to_le_bytes();
    vec![Sent::new(&[&[0xA2, 0x04 + r.below(0x24) as u8], &data[..]].concat(), [0; BLOCK])]
}

fn fast_read(_r: &mut Random, _store: &Store) -> Vec<Sent> {
    vec![Sent::new(&[0x3A, 0x00, 0x3B], [0; BLOCK])]
}

// ---- timing

/// The time of one block.
fn timed(tag: &mut dyn Tag, sent: &[Sent], heard: &mut Heard) -> Duration {
    heard.numbers.clear();
    heard.nibbles.clear();
    heard.data.clear();
    let started = Instant::now();
    tag.play(black_box(sent), black_box(heard));
    started.elapsed()
}

/// All blocks of one kind: the times of both tags, or nothing if they differ or anything was refused. The first block is not counted: in it
/// the lists of answers find their memory.
fn compared(make: fn(&mut Random, &Store) -> Vec<Sent>) -> Option<[Vec<Duration>; 2]> {
    let mut r = Random::new(1);
    let (mut rattle, mut rust) = both(&mut r);
    let mut heard = [Heard::default(), Heard::default()];
    let mut times = [Vec::new(), Vec::new()];
    for block in 0..=BLOCKS {
        let sent: Vec<Sent> = (0..BLOCK_LEN).flat_map(|_| make(&mut r, &rust.store)).collect();
        let mut time = [Duration::ZERO; 2];
        if block % 2 == 0 {
            time[0] = timed(&mut rattle, &sent, &mut heard[0]);
            time[1] = timed(&mut rust, &sent, &mut heard[1]);
        } else {
            time[1] = timed(&mut rust, &sent, &mut heard[1]);
            time[0] = timed(&mut rattle, &sent, &mut heard[0]);
        }
        let same = heard[0] == heard[1] && rattle.store() == rust.store() && rattle.record() == rust.record();
        if !same || heard[0].numbers.iter().any(|&n| n != 0) {
            return None;
        }
        if block > 0 {
            times[0].push(time[0]);
            times[1].push(time[1]);
        }
    }
    Some(times)
}

/// Nanoseconds each, over all blocks and in the middle block.
fn each(times: &[Duration]) -> (f64, f64) {
    let mut sorted = times.to_vec();
    sorted.sort();
    let total: Duration = times.iter().sum();
    let nanoseconds = |time: Duration, count: usize| time.as_nanos() as f64 / count as f64;
    (nanoseconds(total, times.len() * BLOCK_LEN), nanoseconds(sorted[times.len() / 2], BLOCK_LEN))
}

fn main() -> ExitCode {
    type Kind = (&'static str, fn(&mut Random, &Store) -> Vec<Sent>);
    let kinds: [Kind; 4] = [("login, both parts", login), ("READ", read), ("WRITE", write), ("FAST_READ 00h-3Bh", fast_read)];
    println!("{} of each, in alternate blocks of {BLOCK_LEN}; ns each, mean of all blocks and middle block", BLOCKS * BLOCK_LEN);
    println!("{:20}{:>12}{:>12}{:>9}{:>14}{:>14}{:>9}", "", "Rattle", "Rust", "ratio", "Rattle, mid", "Rust, mid", "ratio");
    for (name, make) in kinds {
        let Some(times) = compared(make) else {
            println!("{name}: the tags differ, or refused a frame");
            return ExitCode::FAILURE;
        };
        let ((a, a_mid), (b, b_mid)) = (each(&times[0]), each(&times[1]));
        println!("{name:20}{a:>12.0}{b:>12.0}{:>9.2}{a_mid:>14.0}{b_mid:>14.0}{:>9.2}", a / b, a_mid / b_mid);
    }
    ExitCode::SUCCESS
}
