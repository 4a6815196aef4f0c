//! The tag: its record and store, and the calls `load`, `save`, `power`, `select` and `frame` with document 01's numbers.
//!
//! Section and table numbers are those of 009, the maker's data sheet for MF0AES(H)20; D and a number is docs/DECISIONS.md.

use super::aes::{Aes128, Block, BLOCK};
use super::crc::{crc_a, CRC_LEN};
use super::rules::Rule;
use std::ops::Range;

// ---- sizes

pub const PAGE_LEN: usize = 4;
pub const PAGES: usize = 60;
pub const STORE_LEN: usize = PAGES * PAGE_LEN;
pub const COUNTERS: usize = 3;
pub const KEY_LEN: usize = BLOCK;
pub const RANDOM_LEN: usize = BLOCK;
/// The longest reply: all pages by FAST_READ, and the CRC. A shorter reply buffer is 10.
pub const REPLY_LEN: usize = STORE_LEN + CRC_LEN;
/// Four sections, each behind a count byte (document 01, "Image file and bench program").
pub const IMAGE_LEN: usize = 1 + STORE_LEN + 1 + COUNTERS * COUNTER_LEN + 1 + FAILED_LEN + 1 + KEY_LEN;

const COUNTER_LEN: usize = 3;
const COUNTER_MAX: u32 = 0xFF_FFFF;
const FAILED_LEN: usize = 2;
const FAILED_MAX: u16 = 1023;
const FRAME_MIN: usize = 3;
const FRAME_MAX: usize = 64;

pub type Store = [u8; STORE_LEN];
type Page = [u8; PAGE_LEN];

// ---- memory map (Tables 6 and 7)

const LOCK_PAGE: u8 = 0x02;
const OTP_PAGE: u8 = 0x03;
const DYNAMIC_LOCK_PAGE: u8 = 0x28;
const CFG_0: u8 = 0x29;
const CFG_1: u8 = 0x2A;
const LOCK_KEYS: u8 = 0x2D;
const DATA_PROT_KEY: u8 = 0x30;
const UID_RETR_KEY: u8 = 0x34;
const LAST_PAGE: u8 = 0x3B;
/// Pages that one READ gives (10.2).
const READ_PAGES: usize = 4;

/// Offsets of both keys, which always read as zeros (8.6.3).
const KEY_BYTES: Range<usize> = at(DATA_PROT_KEY)..at(0x38);
/// Serial number with both check bytes (8.5.1): the check bytes would give hidden serial bytes away (D9).
const SERIAL_BYTES: Range<usize> = 0..9;
/// The serial number lies in two parts, each with a check byte behind it (8.5.1).
const SERIAL_LOW: Range<usize> = 0..3;
const BCC_0: usize = 3;
const SERIAL_HIGH: Range<usize> = 4..8;
const BCC_1: usize = 8;
/// The byte that goes before the first part when a reader selects the tag (Table 22), and so into BCC0 alone.
const CASCADE_TAG: u8 = 0x88;

const fn at(page: u8) -> usize {
    page as usize * PAGE_LEN
}

// ---- setting bits (Tables 8, 10, 14, 15)

const RID_ACT: u8 = 0x01;
const AUTH0_BITS: u8 = 0x7F;
const PROT: u8 = 0x80;
const LOCK_USR_CFG: u8 = 0x40;
const CNT_INC_EN: u8 = 0x08;
const CNT_RD_EN: u8 = 0x04;
const AUTH_LIM_HIGH: u8 = 0x03;
const LOCK_AES_KEY1: u8 = 0x80;
const LOCK_AES_KEY0: u8 = 0x40;
const BLOCK_LOCK_KEY: u8 = 0x20;

/// What each block-lock bit, from bit 0 up, freezes in the two bytes of lock bits.
type FreezeMasks = [(u8, u8)];
/// Lock byte 0's block bits over lock bytes 0 and 1 (8.5.3, document 01's table).
const STATIC_FREEZE: [(u8, u8); 3] = [(0x08, 0x00), (0xF0, 0x03), (0x00, 0xFC)];
/// Lock byte 4's block bits over lock bytes 2 and 3 (8.5.4, D14).
const DYNAMIC_FREEZE: [(u8, u8); 6] = [(0x03, 0x00), (0x0C, 0x00), (0x30, 0x00), (0xC0, 0x00), (0x00, 0x03), (0x00, 0x0C)];
/// The bits of lock bytes 3 and 4 that are not reserved; reserved ones are kept.
const LOCK_3_BITS: u8 = 0x0F;
const LOCK_4_BITS: u8 = 0x3F;

// ---- nibbles (Table 21, D1)

const ACK: u8 = 0xA;
const NAK_ARGUMENT: u8 = 0x0;
const NAK_CRC: u8 = 0x1;
const NAK_OVERFLOW: u8 = 0x4;

// ---- command codes (Table 20)

const READ: u8 = 0x30;
const FAST_READ: u8 = 0x3A;
const WRITE: u8 = 0xA2;
const READ_CNT: u8 = 0x39;
const INCR_CNT: u8 = 0xA5;
const AUTHENTICATE: u8 = 0x1A;
const AUTHENTICATE_2: u8 = 0xAF;
const HLTA: u8 = 0x50;

/// First byte of the reply to each part of AUTHENTICATE (Tables 53 and 57).
const MORE_TO_COME: u8 = 0xAF;
const DONE: u8 = 0x00;

/// A right proof takes this off the failed count (8.6.5).
const FORGIVEN: u16 = 0x10;
/// Each message starts from a zero IV (Table 17).
const ZERO_IV: Block = [0; BLOCK];

// ---- record and answers

#[derive(Clone, Copy, Debug, PartialEq, Eq)]
pub enum State {
    Waiting,
    Active,
    Traceable,
    Authenticated,
    /// Between the parts of AUTHENTICATE, with the key number of part 1.
    Challenged(u8),
    /// A kept state that does not exist: number 10 (D44).
    Unknown(u8),
}

/// What the tag keeps beside its store.
#[derive(Clone, Copy, Debug, PartialEq, Eq)]
pub struct Record {
    pub state: State,
    pub counters: [u32; COUNTERS],
    /// Failed authentications (8.6.5).
    pub failed: u16,
    /// Key byte 0 first (D35).
    pub originality_key: Block,
    /// Zero in every state but CHALLENGED.
    pub challenge: Block,
}

#[derive(Clone, Copy, Debug, PartialEq, Eq)]
pub enum Reply {
    Silence,
    Nibble(u8),
    /// This many bytes of the reply buffer, the CRC among them.
    Bytes(usize),
}

/// What a call answers and hands back.
#[derive(Clone, Copy, Debug, PartialEq, Eq)]
pub struct Answer {
    pub number: u8,
    /// The rule behind the number.
    pub rule: Rule,
    pub reply: Reply,
    pub record: Record,
}

pub const WAITS: u8 = Rule::Waiting.number();
pub const UNUSABLE: u8 = Rule::StoreLength.number();

/// The nibble of each number that NAKs.
fn nak(number: u8) -> u8 {
    match number {
        2 => NAK_CRC,
        9 | 11 => NAK_OVERFLOW,
        _ => NAK_ARGUMENT,
    }
}

impl Record {
    /// The record of a refused loading.
    pub const ZERO: Record =
        Record { state: State::Waiting, counters: [0; COUNTERS], failed: 0, originality_key: [0; KEY_LEN], challenge: [0; RANDOM_LEN] };

    /// Whether a tag can have this record; if not, 10. The key number is judged only while CHALLENGED (D31).
    fn judged(&self) -> Result<(), Rule> {
        require(self.counters.iter().all(|&c| c <= COUNTER_MAX), Rule::CounterHigh)?;
        require(self.failed <= FAILED_MAX, Rule::FailedHigh)?;
        match self.state {
            State::Unknown(_) => Err(Rule::StateUnknown),
            State::Challenged(key) => require(key_exists(key), Rule::KeptKeyNumber),
            _ => Ok(()),
        }
    }

    /// The same stored values in another state, without any challenge.
    fn moved_to(self, state: State) -> Record {
        Record { state, challenge: [0; RANDOM_LEN], ..self }
    }
}

fn require(holds: bool, rule: Rule) -> Result<(), Rule> {
    if holds { Ok(()) } else { Err(rule) }
}

fn key_exists(key: u8) -> bool {
    key <= 2
}

fn answer(rule: Rule, reply: Reply, record: Record) -> Answer {
    Answer { number: rule.number(), rule, reply, record }
}

// ---- power and select

/// Power on: WAITING, whatever the record holds (D33).
pub fn power(record: Record) -> Answer {
    answer(Rule::CarriedOut, Reply::Silence, record.moved_to(State::Waiting))
}

/// Selection: ACTIVE from any state, whatever the record holds (D33).
pub fn select(record: Record) -> Answer {
    answer(Rule::CarriedOut, Reply::Silence, record.moved_to(State::Active))
}

// ---- image

/// A section of an image: its count byte, then its bytes. Takes it off the front of `image`, which is long enough.
fn section<'a>(image: &mut &'a [u8], count: usize, len: usize, wrong: Rule) -> Result<&'a [u8], Rule> {
    require(usize::from(image[0]) == count, wrong)?;
    let (bytes, rest) = image[1..].split_at(len);
    *image = rest;
    Ok(bytes)
}

/// The pages and the record of an image, or what is wrong with it.
fn parse_image(mut image: &[u8]) -> Result<(&[u8], Record), Rule> {
    require(image.len() >= IMAGE_LEN, Rule::ImageShort)?;
    require(image.len() <= IMAGE_LEN, Rule::ImageLong)?;
    let pages = section(&mut image, PAGES, STORE_LEN, Rule::PagesCount)?;
    let counters = section(&mut image, COUNTERS, COUNTERS * COUNTER_LEN, Rule::CountersCount)?;
    let failed = section(&mut image, 1, FAILED_LEN, Rule::FailedCount)?;
    let key = section(&mut image, 1, KEY_LEN, Rule::KeyCount)?;
    let record = Record {
        counters: std::array::from_fn(|k| low_first(&counters[COUNTER_LEN * k..COUNTER_LEN * (k + 1)])),
        failed: u16::from_le_bytes([failed[0], failed[1]]),
        originality_key: std::array::from_fn(|i| key[i]),
        ..Record::ZERO
    };
    require(record.failed <= FAILED_MAX, Rule::ImageFailedHigh)?;
    judge_serial(pages)?;
    Ok((pages, record))
}

/// Whether both check bytes are those of the serial number. Only loading asks.
fn judge_serial(pages: &[u8]) -> Result<(), Rule> {
    require(pages[BCC_0] == CASCADE_TAG ^ xor(&pages[SERIAL_LOW]), Rule::CheckByte0)?;
    require(pages[BCC_1] == xor(&pages[SERIAL_HIGH]), Rule::CheckByte1)
}

fn xor(bytes: &[u8]) -> u8 {
    bytes.iter().fold(0, |a, b| a ^ b)
}

/// A number of up to four bytes, low byte first (8.2).
fn low_first(bytes: &[u8]) -> u32 {
    bytes.iter().rev().fold(0, |n, &b| n << 8 | u32::from(b))
}

/// Loads an image into the store: 0, 10 or 12. A refused loading changes no byte of the store and hands back the zero record.
pub fn load(image: &[u8], store: &mut [u8]) -> (u8, Record) {
    let (rule, record) = load_by_rule(image, store);
    (rule.number(), record)
}

/// The same with the rule behind the number. 10 comes before 12.
pub fn load_by_rule(image: &[u8], store: &mut [u8]) -> (Rule, Record) {
    if store.len() != STORE_LEN {
        return (Rule::StoreLength, Record::ZERO);
    }
    match parse_image(image) {
        Ok((pages, record)) => {
            store.copy_from_slice(pages);
            (Rule::CarriedOut, record)
        }
        Err(rule) => (rule, Record::ZERO),
    }
}

/// Writes the image of a tag into the first 271 bytes of `image`: 0 or 10. The state is not part of it, but is judged (D34).
pub fn save(record: &Record, store: &[u8], image: &mut [u8]) -> u8 {
    save_by_rule(record, store, image).number()
}

/// The same with the rule behind the number.
pub fn save_by_rule(record: &Record, store: &[u8], image: &mut [u8]) -> Rule {
    let usable = || {
        require(store.len() == STORE_LEN, Rule::StoreLength)?;
        require(image.len() >= IMAGE_LEN, Rule::ImageBufferLength)?;
        record.judged()
    };
    if let Err(rule) = usable() {
        return rule;
    }
    image[..IMAGE_LEN].copy_from_slice(&image_of(record, store));
    Rule::CarriedOut
}

fn image_of(record: &Record, store: &[u8]) -> Vec<u8> {
    let mut image = Vec::with_capacity(IMAGE_LEN);
    image.push(PAGES as u8);
    image.extend_from_slice(store);
    image.push(COUNTERS as u8);
    for counter in record.counters {
        image.extend_from_slice(&counter.to_le_bytes()[..COUNTER_LEN]);
    }
    image.push(1);
    image.extend_from_slice(&record.failed.to_le_bytes());
    image.push(1);
    image.extend_from_slice(&record.originality_key);
    image
}

// ---- settings, as they stand in the store

fn auth0(store: &Store) -> u8 {
    store[at(CFG_0) + 3] & AUTH0_BITS
}

fn auth_lim(store: &Store) -> u16 {
    u16::from_le_bytes([store[at(CFG_1) + 2], store[at(CFG_1) + 3] & AUTH_LIM_HIGH])
}

fn cfg_1_has(store: &Store, bit: u8) -> bool {
    store[at(CFG_1)] & bit != 0
}

/// What locks the page, and whether it does. Pages 02h and 28h are never locked (D15), nor are the reserved ones.
fn lock_of(store: &Store, page: u8) -> Option<(bool, Rule)> {
    let bit = |offset: usize, bit: u8| store[offset] >> bit & 1 != 0;
    let key_lock = |mask: u8| store[at(LOCK_KEYS)] & mask != 0;
    Some(match page {
        0x03..=0x07 => (bit(at(LOCK_PAGE) + 2, page), Rule::LockByte0),
        0x08..=0x0F => (bit(at(LOCK_PAGE) + 3, page - 0x08), Rule::LockByte1),
        0x10..=0x1F => (bit(at(DYNAMIC_LOCK_PAGE), (page - 0x10) / 2), Rule::LockByte2),
        0x20..=0x27 => (bit(at(DYNAMIC_LOCK_PAGE) + 1, (page - 0x20) / 2), Rule::LockByte3),
        CFG_0 | CFG_1 => (cfg_1_has(store, LOCK_USR_CFG), Rule::ConfigurationLocked),
        LOCK_KEYS => (key_lock(BLOCK_LOCK_KEY), Rule::KeyLocksBlocked),
        0x30..=0x33 => (key_lock(LOCK_AES_KEY0), Rule::DataProtKeyLocked),
        0x34..=0x37 => (key_lock(LOCK_AES_KEY1), Rule::UidRetrKeyLocked),
        _ => return None,
    })
}

// ---- one-way bits

/// The lock bits that the block bits freeze. The block bits are those from before the write.
fn frozen(masks: &FreezeMasks, block_bits: u8) -> (u8, u8) {
    let set = masks.iter().enumerate().filter(|(i, _)| block_bits >> i & 1 != 0);
    set.fold((0, 0), |(low, high), (_, mask)| (low | mask.0, high | mask.1))
}

/// What a page holds after a permitted write of `data` over `old`.
fn written(page: u8, old: Page, data: Page) -> Page {
    match page {
        LOCK_PAGE => {
            let (low, high) = frozen(&STATIC_FREEZE, old[2]);
            [old[0], old[1], old[2] | data[2] & !low, old[3] | data[3] & !high]
        }
        OTP_PAGE => std::array::from_fn(|i| old[i] | data[i]),
        DYNAMIC_LOCK_PAGE => {
            let (low, high) = frozen(&DYNAMIC_FREEZE, old[2]);
            [old[0] | data[0] & !low, old[1] | data[1] & LOCK_3_BITS & !high, old[2] | data[2] & LOCK_4_BITS, old[3]]
        }
        // "Can only be set once" (Table 15).
        CFG_1 => [data[0] | old[0] & LOCK_USR_CFG, data[1], data[2], data[3]],
        LOCK_KEYS => [data[0] | old[0] & (LOCK_AES_KEY1 | LOCK_AES_KEY0 | BLOCK_LOCK_KEY), data[1], data[2], data[3]],
        _ => data,
    }
}

// ---- frames

/// The frame length of each command with its CRC (Tables 20, 27 to 56); none for a code that the base does not know.
fn frame_len(code: u8) -> Option<(usize, Rule)> {
    Some(match code {
        READ => (4, Rule::ReadLength),
        FAST_READ => (5, Rule::FastReadLength),
        WRITE => (8, Rule::WriteLength),
        READ_CNT => (4, Rule::ReadCounterLength),
        INCR_CNT => (8, Rule::RaiseCounterLength),
        AUTHENTICATE => (4, Rule::AuthenticateLength),
        AUTHENTICATE_2 => (35, Rule::ProofLength),
        HLTA => (4, Rule::HaltLength),
        _ => return None,
    })
}

/// Checks 2, 3 and 4, in this order. Gives the frame without its CRC.
fn judged(state: State, frame: &[u8]) -> Result<&[u8], Rule> {
    require(frame.len() >= FRAME_MIN, Rule::FrameShort)?;
    require(frame.len() <= FRAME_MAX, Rule::FrameLong)?;
    let (plain, crc) = frame.split_at(frame.len() - CRC_LEN);
    require(crc_a(plain) == crc, Rule::CrcWrong)?;
    let (len, wrong_len) = frame_len(plain[0]).ok_or(Rule::CodeUnknown)?;
    // While CHALLENGED only AFh is allowed, and AFh nowhere else (D3).
    let (challenged, proof) = (matches!(state, State::Challenged(_)), plain[0] == AUTHENTICATE_2);
    require(challenged || !proof, Rule::ProofUnasked)?;
    require(!challenged || proof, Rule::ProofExpected)?;
    require(frame.len() == len, wrong_len)?;
    Ok(plain)
}

/// A frame, with 16 random bytes for a challenge. Bytes of the reply buffer behind the reply are not written.
pub fn frame(record: Record, store: &mut [u8], frame: &[u8], random: &[u8], reply: &mut [u8]) -> Answer {
    let kept = |rule| answer(rule, Reply::Silence, record);
    let Ok(store) = <&mut Store>::try_from(store) else {
        return kept(Rule::StoreLength);
    };
    let Ok(random) = <&Block>::try_from(random) else {
        return kept(Rule::RandomLength);
    };
    if let Err(rule) = require(reply.len() >= REPLY_LEN, Rule::ReplyLength).and_then(|()| record.judged()) {
        return kept(rule);
    }
    if record.state == State::Waiting {
        return kept(Rule::Waiting);
    }
    let mut session = Session { record, store, reply };
    match session.carry_out(frame, random) {
        Ok(reply) => answer(Rule::CarriedOut, reply, session.record),
        Err(rule) => answer(rule, Reply::Nibble(nak(rule.number())), session.record.moved_to(State::Waiting)),
    }
}

/// A selected tag and the buffers of one call.
struct Session<'a> {
    record: Record,
    store: &'a mut Store,
    reply: &'a mut [u8],
}

type Outcome = Result<Reply, Rule>;

impl Session<'_> {
    fn carry_out(&mut self, frame: &[u8], random: &Block) -> Outcome {
        let state = self.record.state;
        let plain = judged(state, frame)?;
        // Only part 1 leaves CHALLENGED; stray challenge bytes in another state do not outlive the call (D32).
        match (plain, state) {
            (&[AUTHENTICATE_2, ref proof @ ..], State::Challenged(key)) => return self.part_2(key, proof),
            (&[AUTHENTICATE, key], _) => return self.part_1(key, random),
            _ => self.record = self.record.moved_to(state),
        }
        match *plain {
            [READ, page] => self.read(page),
            [FAST_READ, start, end] => self.fast_read(start, end),
            [WRITE, page, a, b, c, d] => self.write(page, [a, b, c, d]),
            [READ_CNT, number] => self.read_counter(number),
            // The fourth value byte is ignored (10.6).
            [INCR_CNT, number, a, b, c, _] => self.raise_counter(number, low_first(&[a, b, c])),
            [HLTA, second] => self.halt(second),
            // `judged` lets no other code or length through.
            _ => Err(Rule::CodeUnknown),
        }
    }

    fn authenticated(&self) -> bool {
        self.record.state == State::Authenticated
    }

    /// Puts the CRC behind the first `len` bytes of the reply buffer.
    fn with_crc(&mut self, len: usize) -> Reply {
        let crc = crc_a(&self.reply[..len]);
        self.reply[len..len + CRC_LEN].copy_from_slice(&crc);
        Reply::Bytes(len + CRC_LEN)
    }

    // ---- reading (10.2, 10.3)

    fn read(&mut self, page: u8) -> Outcome {
        require(page <= LAST_PAGE, Rule::ReadPageHigh)?;
        let last = self.last_readable().filter(|&last| page <= last).ok_or(Rule::ReadProtected)?;
        let mut next = page;
        for place in 0..READ_PAGES {
            self.show(next, place);
            // Behind the last page that may be read the window continues at page 00h, as often as needed (E3).
            next = if next == last { 0 } else { next + 1 };
        }
        Ok(self.with_crc(READ_PAGES * PAGE_LEN))
    }

    fn fast_read(&mut self, start: u8, end: u8) -> Outcome {
        require(start <= end, Rule::FastReadOrder)?;
        require(end <= LAST_PAGE, Rule::FastReadEndHigh)?;
        // One protected page is enough for 6; the last page is protected if any is.
        require(self.last_readable().is_some_and(|last| end <= last), Rule::FastReadProtected)?;
        for (place, page) in (start..=end).enumerate() {
            self.show(page, place);
        }
        Ok(self.with_crc(at(end - start + 1)))
    }

    /// The last page that may be read: the one before AUTH0 where PROT protects reading. None if AUTH0 protects all pages.
    fn last_readable(&self) -> Option<u8> {
        let limited = cfg_1_has(self.store, PROT) && !self.authenticated() && auth0(self.store) <= LAST_PAGE;
        if limited { auth0(self.store).checked_sub(1) } else { Some(LAST_PAGE) }
    }

    /// Puts a page into the reply as a reader sees it, behind as many others as `place` says.
    fn show(&mut self, page: u8, place: usize) {
        let from = at(page);
        let data = &mut self.reply[place * PAGE_LEN..(place + 1) * PAGE_LEN];
        data.copy_from_slice(&self.store[from..from + PAGE_LEN]);
        blank(data, from, KEY_BYTES);
        if self.record.state == State::Active && self.store[at(CFG_0)] & RID_ACT != 0 {
            blank(data, from, SERIAL_BYTES);
        }
    }

    // ---- writing (10.4)

    /// The rules that bar a page are checked in request E6's order. Of the locks a page has one at most, so their order is never seen.
    fn write(&mut self, page: u8, data: Page) -> Outcome {
        require(page >= LOCK_PAGE, Rule::WritePageLow)?;
        require(page <= LAST_PAGE, Rule::WritePageHigh)?;
        require(self.authenticated() || page < auth0(self.store), Rule::WriteProtected)?;
        require(!self.flips_random_id(page, data), Rule::RandomIdChange)?;
        if let Some((true, lock)) = lock_of(self.store, page) {
            return Err(lock);
        }
        let place = &mut self.store[at(page)..at(page) + PAGE_LEN];
        let old = [place[0], place[1], place[2], place[3]];
        place.copy_from_slice(&written(page, old, data));
        Ok(Reply::Nibble(ACK))
    }

    /// In ACTIVE the Random ID bit may not change (8.5.2); the same bit written again is no change (D12).
    fn flips_random_id(&self, page: u8, data: Page) -> bool {
        page == CFG_0 && self.record.state == State::Active && (self.store[at(CFG_0)] ^ data[0]) & RID_ACT != 0
    }

    // ---- counters (10.5, 10.6)

    /// Counter 2 is open only to AUTHENTICATED, unless its setting opens it (Table 15, D22).
    fn counter_open(&self, index: usize, opened_by: u8) -> bool {
        index != 2 || self.authenticated() || cfg_1_has(self.store, opened_by)
    }

    fn read_counter(&mut self, number: u8) -> Outcome {
        let index = usize::from(number);
        require(index < COUNTERS, Rule::ReadCounterNumber)?;
        require(self.counter_open(index, CNT_RD_EN), Rule::ReadCounterClosed)?;
        let bytes = self.record.counters[index].to_le_bytes();
        self.reply[..COUNTER_LEN].copy_from_slice(&bytes[..COUNTER_LEN]);
        Ok(self.with_crc(COUNTER_LEN))
    }

    /// Both numbers have 24 bits, so the sum fits; an increment of 0 is always possible (8.5.9, D23).
    fn raise_counter(&mut self, number: u8, increment: u32) -> Outcome {
        let index = usize::from(number);
        require(index < COUNTERS, Rule::RaiseCounterNumber)?;
        require(self.counter_open(index, CNT_INC_EN), Rule::RaiseCounterClosed)?;
        let sum = self.record.counters[index] + increment;
        require(sum <= COUNTER_MAX, Rule::CounterPast)?;
        self.record.counters[index] = sum;
        Ok(Reply::Nibble(ACK))
    }

    // ---- authentication (8.6.1, 8.6.5, 10.10)

    /// The key with byte 0 first. A key's pages hold it reversed (8.6.3's commands, D25); the originality key lies in the record.
    fn key(&self, number: u8) -> Block {
        let reversed = |page: u8| std::array::from_fn(|i| self.store[at(page) + KEY_LEN - 1 - i]);
        match number {
            0 => reversed(DATA_PROT_KEY),
            1 => reversed(UID_RETR_KEY),
            _ => self.record.originality_key,
        }
    }

    /// AUTH_LIM 0 switches the limit off; it is checked at both parts, for every key (D26).
    fn below_limit(&self) -> bool {
        let limit = auth_lim(self.store);
        limit == 0 || self.record.failed < limit
    }

    /// One block enciphered from a zero IV, behind the byte that tells how the authentication stands.
    fn reply_block(&mut self, status: u8, aes: &Aes128, block: Block) -> Reply {
        let mut cipher = block;
        aes.cbc_encrypt(&ZERO_IV, &mut cipher);
        self.reply[0] = status;
        self.reply[1..1 + BLOCK].copy_from_slice(&cipher);
        self.with_crc(1 + BLOCK)
    }

    /// Challenges the reader. Any login is gone from here on (D29).
    fn part_1(&mut self, key: u8, random: &Block) -> Outcome {
        require(key_exists(key), Rule::KeyNumber)?;
        require(self.below_limit(), Rule::LimitAtPart1)?;
        let aes = Aes128::new(&self.key(key));
        self.record.state = State::Challenged(key);
        self.record.challenge = *random;
        Ok(self.reply_block(MORE_TO_COME, &aes, *random))
    }

    /// Judges the reader's proof: RndA and the rotated challenge, enciphered (Table 16).
    fn part_2(&mut self, key: u8, proof: &[u8]) -> Outcome {
        require(self.below_limit(), Rule::LimitAtPart2)?;
        let aes = Aes128::new(&self.key(key));
        let mut text = [0; 2 * BLOCK];
        text.copy_from_slice(proof);
        aes.cbc_decrypt(&ZERO_IV, &mut text);
        let rnd_a: Block = std::array::from_fn(|i| text[i]);
        let right = text[BLOCK..] == rotated(&self.record.challenge);
        self.count_proof(right)?;
        let state = match key {
            0 => State::Authenticated,
            1 => State::Traceable,
            _ => State::Active,
        };
        self.record = self.record.moved_to(state);
        Ok(self.reply_block(DONE, &aes, rotated(&rnd_a)))
    }

    /// The failed count after a proof below the limit (8.6.5). With AUTH_LIM 0 it stays (D27). Below the limit it is under 1,023, so it never wraps.
    fn count_proof(&mut self, right: bool) -> Result<(), Rule> {
        if auth_lim(self.store) == 0 {
            return require(right, Rule::ProofFalse);
        }
        let failed = self.record.failed;
        self.record.failed = if right { failed.saturating_sub(FORGIVEN) } else { failed + 1 };
        require(right, Rule::ProofFalseCounted)
    }

    // ---- HLTA (8.4)

    fn halt(&mut self, second: u8) -> Outcome {
        require(second == 0, Rule::HaltArgument)?;
        self.record = self.record.moved_to(State::Waiting);
        Ok(Reply::Silence)
    }
}

/// Rotated left by one byte (Table 16).
fn rotated(block: &Block) -> Block {
    let mut turned = *block;
    turned.rotate_left(1);
    turned
}

/// Zeroes those bytes of `data`, which lay in the store at `from`, that are among the hidden offsets.
fn blank(data: &mut [u8], from: usize, hidden: Range<usize>) {
    let start = hidden.start.max(from);
    let end = hidden.end.min(from + data.len());
    if start < end {
        data[start - from..end - from].fill(0);
    }
}
