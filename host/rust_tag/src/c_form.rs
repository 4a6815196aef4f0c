//! The calls in the box firmware's C form: numbers and byte buffers instead of records and enums. Everything here works on slices;
//! `export.rs` gives it its C names.
//!
//! The record buffer: counters 0, 1 and 2 of four bytes each, the failed count of two, all low byte first; the state; the key number,
//! which counts only while CHALLENGED; the originality key, byte 0 first; the challenge.

use super::rules::Rule;
use super::tag::{self, Answer, Record, Reply, State, COUNTERS, KEY_LEN, RANDOM_LEN, UNUSABLE, WAITS};

pub const RECORD_LEN: usize = 48;

/// Offsets in the record buffer.
pub const FAILED_AT: usize = 12;
pub const STATE_AT: usize = 14;
pub const KEY_NUMBER_AT: usize = 15;
pub const ORIGINALITY_KEY_AT: usize = 16;
pub const CHALLENGE_AT: usize = 32;
const COUNTER_LEN: usize = 4;

/// The state bytes; every other one is a state that does not exist.
pub const WAITING: u8 = 0;
pub const ACTIVE: u8 = 1;
pub const TRACEABLE: u8 = 2;
pub const AUTHENTICATED: u8 = 3;
pub const CHALLENGED: u8 = 4;

/// The reply kinds in a frame's answer.
const SILENCE: u64 = 0;
const NIBBLE: u64 = 1;
const BYTES: u64 = 2;

type Buffer = [u8; RECORD_LEN];

fn state_of(byte: u8, key: u8) -> State {
    match byte {
        WAITING => State::Waiting,
        ACTIVE => State::Active,
        TRACEABLE => State::Traceable,
        AUTHENTICATED => State::Authenticated,
        CHALLENGED => State::Challenged(key),
        other => State::Unknown(other),
    }
}

/// The state byte and the key number, which is 0 in every state but CHALLENGED.
fn state_bytes(state: State) -> [u8; 2] {
    match state {
        State::Waiting => [WAITING, 0],
        State::Active => [ACTIVE, 0],
        State::Traceable => [TRACEABLE, 0],
        State::Authenticated => [AUTHENTICATED, 0],
        State::Challenged(key) => [CHALLENGED, key],
        State::Unknown(byte) => [byte, 0],
    }
}

/// What a record buffer holds, possible or not: the tag judges it.
pub fn record_of(buffer: &Buffer) -> Record {
    let four = |at: usize| u32::from_le_bytes([buffer[at], buffer[at + 1], buffer[at + 2], buffer[at + 3]]);
    Record {
        state: state_of(buffer[STATE_AT], buffer[KEY_NUMBER_AT]),
        counters: std::array::from_fn(|k| four(COUNTER_LEN * k)),
        failed: u16::from_le_bytes([buffer[FAILED_AT], buffer[FAILED_AT + 1]]),
        originality_key: std::array::from_fn(|i| buffer[ORIGINALITY_KEY_AT + i]),
        challenge: std::array::from_fn(|i| buffer[CHALLENGE_AT + i]),
    }
}

/// The buffer of a record; it fills all 48 bytes.
pub fn buffer_of(record: &Record) -> Buffer {
    let mut buffer = [0; RECORD_LEN];
    for k in 0..COUNTERS {
        buffer[COUNTER_LEN * k..COUNTER_LEN * (k + 1)].copy_from_slice(&record.counters[k].to_le_bytes());
    }
    buffer[FAILED_AT..STATE_AT].copy_from_slice(&record.failed.to_le_bytes());
    buffer[STATE_AT..ORIGINALITY_KEY_AT].copy_from_slice(&state_bytes(record.state));
    buffer[ORIGINALITY_KEY_AT..ORIGINALITY_KEY_AT + KEY_LEN].copy_from_slice(&record.originality_key);
    buffer[CHALLENGE_AT..CHALLENGE_AT + RANDOM_LEN].copy_from_slice(&record.challenge);
    buffer
}

/// Power or Select: 10 only for the buffer's length, since both answer 0 for any record.
fn event(record: &mut [u8], call: fn(Record) -> Answer) -> Rule {
    let Ok(buffer) = <&mut Buffer>::try_from(record) else {
        return Rule::RecordLength;
    };
    let answer = call(record_of(buffer));
    *buffer = buffer_of(&answer.record);
    answer.rule
}

/// The calls with the rule behind each number, of which the C form tells no more than why a WRITE was refused.
pub mod by_rule {
    use super::*;

    pub fn power(record: &mut [u8]) -> Rule {
        event(record, tag::power)
    }

    pub fn select(record: &mut [u8]) -> Rule {
        event(record, tag::select)
    }

    /// In this form 10 changes no buffer (document 01, "What the box plays"): only 12 writes the zero record.
    pub fn load(record: &mut [u8], store: &mut [u8], file: &[u8]) -> Rule {
        let Ok(buffer) = <&mut Buffer>::try_from(record) else {
            return Rule::RecordLength;
        };
        let (rule, loaded) = tag::load_by_rule(file, store);
        if rule.number() != UNUSABLE {
            *buffer = buffer_of(&loaded);
        }
        rule
    }

    pub fn save(record: &[u8], store: &[u8], file: &mut [u8]) -> Rule {
        match <&Buffer>::try_from(record) {
            Ok(buffer) => tag::save_by_rule(&record_of(buffer), store, file),
            Err(_) => Rule::RecordLength,
        }
    }

    /// The answers 1 and 10 keep the record as it came, so they do not write its buffer: an unused key number stays too.
    pub fn frame(record: &mut [u8], store: &mut [u8], frame: &[u8], random: &[u8], reply: &mut [u8]) -> (u64, Rule) {
        let Ok(buffer) = <&mut Buffer>::try_from(record) else {
            return (packed(Rule::RecordLength, Reply::Silence), Rule::RecordLength);
        };
        let answer = tag::frame(record_of(buffer), store, frame, random, reply);
        if answer.number != WAITS && answer.number != UNUSABLE {
            *buffer = buffer_of(&answer.record);
        }
        (packed(answer.rule, answer.reply), answer.rule)
    }
}

pub fn power(record: &mut [u8]) -> u8 {
    by_rule::power(record).number()
}

pub fn select(record: &mut [u8]) -> u8 {
    by_rule::select(record).number()
}

pub fn load(record: &mut [u8], store: &mut [u8], file: &[u8]) -> u8 {
    by_rule::load(record, store, file).number()
}

pub fn save(record: &[u8], store: &[u8], file: &mut [u8]) -> u8 {
    by_rule::save(record, store, file).number()
}

pub fn frame(record: &mut [u8], store: &mut [u8], frame: &[u8], random: &[u8], reply: &mut [u8]) -> u64 {
    by_rule::frame(record, store, frame, random, reply).0
}

/// The number in the lowest byte, then the reply kind, the nibble and the reason, a byte each; then the byte count and a bit count that is
/// not used yet, 16 bits each.
fn packed(rule: Rule, reply: Reply) -> u64 {
    let (kind, nibble, count) = match reply {
        Reply::Silence => (SILENCE, 0, 0),
        Reply::Nibble(nibble) => (NIBBLE, nibble, 0),
        Reply::Bytes(count) => (BYTES, 0, count),
    };
    u64::from(rule.number()) | kind << 8 | u64::from(nibble) << 16 | u64::from(rule.reason()) << 24 | (count as u64) << 32
}

const _: () = assert!(CHALLENGE_AT + RANDOM_LEN == RECORD_LEN);
