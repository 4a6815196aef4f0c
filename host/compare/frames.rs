//! What a reader sends, made with a look at the tag: most frames meet a state and settings in which they matter. Frames are plain here,
//! without their CRC.

use crate::images::{config_0, config_1, COUNTER_MAX};
use crate::random::Random;
use rust_tag::aes::{Aes128, Block, BLOCK};
use rust_tag::crc::crc_a;
use rust_tag::tag::{Record, State};

pub const READ: u8 = 0x30;
pub const FAST_READ: u8 = 0x3A;
pub const WRITE: u8 = 0xA2;
pub const READ_CNT: u8 = 0x39;
pub const INCR_CNT: u8 = 0xA5;
pub const AUTHENTICATE: u8 = 0x1A;
pub const PROOF: u8 = 0xAF;
pub const HLTA: u8 = 0x50;
/// Every code that the base knows, with the length of its plain frame.
pub const KNOWN: [(u8, usize); 8] =
    [(READ, 2), (FAST_READ, 3), (WRITE, 6), (READ_CNT, 2), (INCR_CNT, 6), (AUTHENTICATE, 2), (PROOF, 33), (HLTA, 2)];

/// Pages where a rule begins or ends.
const EDGES: [u8; 20] =
    [0x00, 0x01, 0x02, 0x03, 0x0F, 0x10, 0x27, 0x28, 0x29, 0x2A, 0x2D, 0x2F, 0x30, 0x34, 0x37, 0x38, 0x3A, 0x3B, 0x3C, 0xFF];
/// Pages whose writing has a rule of its own, and some beside them.
const RULED: [u8; 17] = [0x02, 0x02, 0x03, 0x28, 0x28, 0x29, 0x2A, 0x2D, 0x30, 0x33, 0x34, 0x37, 0x2B, 0x04, 0x08, 0x10, 0x26];

/// A tag as its tester sees it, keys and all.
pub struct View<'a> {
    pub record: Record,
    pub store: &'a [u8],
}

impl View<'_> {
    pub fn auth0(&self) -> u8 {
        self.store[4 * 0x29 + 3] & 0x7F
    }

    pub fn limit(&self) -> u16 {
        u16::from_le_bytes([self.store[4 * 0x2A + 2], self.store[4 * 0x2A + 3] & 3])
    }

    pub fn limit_reached(&self) -> bool {
        self.limit() != 0 && self.record.failed >= self.limit()
    }

    /// Key byte 0 first: a page key's byte 0 lies in byte 3 of its last page.
    pub fn key(&self, number: u8) -> Block {
        let pages = |first: usize| std::array::from_fn(|i| self.store[4 * first + 15 - i]);
        match number {
            0 => pages(0x30),
            1 => pages(0x34),
            _ => self.record.originality_key,
        }
    }
}

pub fn with_crc(plain: &[u8]) -> Vec<u8> {
    [plain, &crc_a(plain)].concat()
}

// ---- proofs

/// What the reader enciphers with a key, from a zero IV.
pub fn proof_of(key: &Block, first: &Block, second: &Block) -> Vec<u8> {
    let mut text = [&first[..], second].concat();
    Aes128::new(key).cbc_encrypt(&[0; BLOCK], &mut text);
    [&[PROOF][..], &text].concat()
}

/// Rotated left by one byte.
pub fn rotated(block: &Block) -> Block {
    let mut turned = *block;
    turned.rotate_left(1);
    turned
}

pub fn right_proof(r: &mut Random, key: &Block, challenge: &Block) -> Vec<u8> {
    proof_of(key, &r.block(), &rotated(challenge))
}

/// Proofs that look right but for one thing.
pub fn false_proof(r: &mut Random, key: &Block, challenge: &Block) -> Vec<u8> {
    let (rnd_a, right) = (r.block(), rotated(challenge));
    let (mut flipped, mut reversed) = (right, *key);
    flipped[r.below(BLOCK)] ^= 1 << r.below(8);
    reversed.reverse();
    let mut spoilt = proof_of(key, &rnd_a, &right);
    match r.below(8) {
        0..=2 => proof_of(key, &rnd_a, &flipped),
        3 => proof_of(key, &rnd_a, challenge),
        4 => proof_of(key, &right, &rnd_a),
        5 => proof_of(&reversed, &rnd_a, &right),
        6 => proof_of(&r.block(), &rnd_a, &right),
        _ => {
            spoilt[1 + r.below(2 * BLOCK)] ^= 1 << r.below(8);
            spoilt
        }
    }
}

/// An answer to the challenge that the tag keeps, right in most cases. None if it keeps none.
pub fn some_proof(r: &mut Random, tag: &View, right: usize) -> Option<Vec<u8>> {
    let State::Challenged(number) = tag.record.state else { return None };
    let (key, challenge) = (tag.key(number), &tag.record.challenge);
    Some(if r.chance(right) { right_proof(r, &key, challenge) } else { false_proof(r, &key, challenge) })
}

// ---- commands

fn some_page(r: &mut Random, tag: &View) -> u8 {
    let (any, more) = (r.below(0x3C) as u8, r.below(0x40) as u8);
    let near = tag.auth0().wrapping_sub(4).wrapping_add(r.below(6) as u8);
    let edge = r.pick(&EDGES);
    r.pick(&[any, any, any, any, any, near, near, edge, edge, more])
}

pub fn read(r: &mut Random, tag: &View) -> Vec<u8> {
    vec![READ, some_page(r, tag)]
}

pub fn fast_read(r: &mut Random, tag: &View) -> Vec<u8> {
    let (a, b) = (some_page(r, tag), some_page(r, tag));
    if r.chance(8) { vec![FAST_READ, a, b] } else { vec![FAST_READ, a.min(b), a.max(b)] }
}

pub fn write_data(r: &mut Random, tag: &View, page: u8) -> [u8; 4] {
    match page {
        0x29 => config_0(r),
        0x2A => config_1(r, tag.record.failed),
        _ if r.chance(60) => [r.few_bits(), r.few_bits(), r.few_bits(), r.few_bits()],
        _ => (r.next() as u32).to_le_bytes(),
    }
}

pub fn write_of(page: u8, data: [u8; 4]) -> Vec<u8> {
    [&[WRITE, page], &data[..]].concat()
}

pub fn write(r: &mut Random, tag: &View) -> Vec<u8> {
    let page = if r.chance(60) { r.pick(&RULED) } else { some_page(r, tag) };
    write_of(page, write_data(r, tag, page))
}

fn counter_number(r: &mut Random) -> u8 {
    let any = r.byte();
    if r.chance(93) { r.pick(&[0, 1, 2, 2]) } else { r.pick(&[3, 4, 0xFF, any]) }
}

pub fn read_counter(r: &mut Random, _tag: &View) -> Vec<u8> {
    vec![READ_CNT, counter_number(r)]
}

/// Increments that are small, that just fit, and that just don't.
pub fn raise_counter(r: &mut Random, tag: &View) -> Vec<u8> {
    let number = counter_number(r);
    let left = tag.record.counters.get(usize::from(number)).map_or(0, |&c| COUNTER_MAX.saturating_sub(c));
    let (small, part, any) = (r.below(300) as u32, r.below(left as usize + 1) as u32, r.next() as u32);
    let value = r.pick(&[0, 1, 1, 1, small, part, left, left + 1, any]).to_le_bytes();
    vec![INCR_CNT, number, value[0], value[1], value[2], r.few_bits()]
}

pub fn authenticate(r: &mut Random, _tag: &View) -> Vec<u8> {
    let any = r.byte();
    vec![AUTHENTICATE, if r.chance(94) { r.pick(&[0, 0, 1, 1, 2]) } else { r.pick(&[3, 0xFF, any]) }]
}

pub fn halt(r: &mut Random, _tag: &View) -> Vec<u8> {
    let any = r.byte();
    vec![HLTA, r.pick(&[0, 0, 0, 1, any])]
}

/// A code that the base does not know, or AFh out of turn.
pub fn unknown(r: &mut Random, _tag: &View) -> Vec<u8> {
    let any = r.byte();
    let code = r.pick(&[0x60, 0x26, 0x52, 0x93, 0x95, 0x3C, 0xA9, 0xAC, 0x4B, PROOF, PROOF, any, any]);
    let any = r.below(62);
    let rest = r.pick(&[0, 1, 5, 32, any]);
    [vec![code], r.bytes(rest)].concat()
}

/// A limit that the failed count has reached already: logged in now, no login after this one.
fn limit_at_count(tag: &View) -> Vec<u8> {
    let limit = tag.record.failed.to_le_bytes();
    write_of(0x2A, [tag.store[4 * 0x2A], 0x05, limit[0], limit[1]])
}

type Maker = fn(&mut Random, &View) -> Vec<u8>;

const USUAL: [Maker; 27] = [
    read, read, read, read, fast_read, fast_read, fast_read, write, write, write, write, write, write, write, write, write, read_counter,
    read_counter, read_counter, raise_counter, raise_counter, raise_counter, raise_counter, authenticate, authenticate, authenticate, halt,
];

/// A frame with another length.
pub fn resized(r: &mut Random, plain: &[u8]) -> Vec<u8> {
    let longest = [plain, &r.bytes(62)].concat();
    let any = 1 + r.below(62);
    let len = r.pick(&[1, plain.len().max(2) - 1, plain.len() + 1, 62, any]);
    longest[..len.min(62)].to_vec()
}

/// A frame that a reader could send now, sometimes one that no reader should.
pub fn usual(r: &mut Random, tag: &View) -> Vec<u8> {
    let proof = if r.chance(88) { some_proof(r, tag, 80) } else { None };
    let logged_in = matches!(tag.record.state, State::Traceable | State::Authenticated);
    let plain = match proof {
        Some(plain) => plain,
        // the limit shows only in a login
        None if logged_in && tag.limit_reached() && r.chance(50) => authenticate(r, tag),
        None if logged_in && tag.limit() == 0 && tag.record.failed > 0 && r.chance(15) => limit_at_count(tag),
        None if !logged_in && !tag.limit_reached() && r.chance(15) => authenticate(r, tag),
        None if r.chance(4) => unknown(r, tag),
        None => r.pick(&USUAL)(r, tag),
    };
    if r.chance(4) { resized(r, &plain) } else { plain }
}

/// A frame of the command with this code, in most cases with its length.
pub fn of_code(r: &mut Random, tag: &View, code: u8) -> Vec<u8> {
    match code {
        READ => read(r, tag),
        FAST_READ => fast_read(r, tag),
        WRITE => write(r, tag),
        READ_CNT => read_counter(r, tag),
        INCR_CNT => raise_counter(r, tag),
        AUTHENTICATE => authenticate(r, tag),
        PROOF => some_proof(r, tag, 60).unwrap_or_else(|| [vec![PROOF], r.bytes(32)].concat()),
        HLTA => halt(r, tag),
        _ => unknown(r, tag),
    }
}

/// Bits that the air has turned, bytes that got lost, a CRC of its own making. Needs at least one byte.
pub fn damaged(r: &mut Random, frame: &[u8]) -> Vec<u8> {
    let mut frame = frame.to_vec();
    let last = frame.len() - 1;
    match r.below(7) {
        0 | 1 => frame[last] ^= 1 << r.below(8),
        2 => frame[last.max(1) - 1] ^= 1 << r.below(8),
        3 => {
            let at = r.below(frame.len());
            frame[at] ^= 1 << r.below(8);
        }
        4 => frame.truncate(1 + r.below(frame.len())),
        5 => frame.swap(last, last.max(1) - 1),
        _ => {
            let more = 1 + r.below(6);
            frame.extend(r.bytes(more));
        }
    }
    frame
}
