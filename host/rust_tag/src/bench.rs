//! The bench program (document 01, "Image file and bench program"; docs/SCRIPTS.md).

use super::crc::{crc_a, CRC_LEN};
use super::rules::Rule;
use super::tag::{self, Record, Reply, Store, IMAGE_LEN, RANDOM_LEN, REPLY_LEN, STORE_LEN};
use std::ffi::OsStr;
use std::fs::File;
use std::io::{ErrorKind, Read, Result, Write};

/// The longest frame that a line can hold, without and with the CRC that the program adds.
const PLAIN_MAX: usize = 62;
const FRAME_MAX: usize = PLAIN_MAX + CRC_LEN;
/// `F`, a space and two digits a byte: a longer line is bad at its next byte, without waiting for its end (D54).
const LINE_MAX: usize = 2 + 2 * PLAIN_MAX;
const CHUNK: usize = 1 << 16;

/// What a right line asks for.
enum Line {
    Power,
    Select,
    Frame { bytes: [u8; FRAME_MAX], len: usize },
}

fn hex_digit(c: u8) -> Option<u8> {
    match c {
        b'0'..=b'9' => Some(c - b'0'),
        b'a'..=b'f' => Some(c - b'a' + 10),
        _ => None,
    }
}

/// The frame that the hex digits stand for, its CRC behind it; none if they are no 1 to 62 bytes in lower hex.
fn frame_of(digits: &[u8]) -> Option<Line> {
    let plain = digits.len() / 2;
    if digits.len() % 2 != 0 || !(1..=PLAIN_MAX).contains(&plain) {
        return None;
    }
    let mut bytes = [0; FRAME_MAX];
    for (byte, pair) in bytes.iter_mut().zip(digits.chunks_exact(2)) {
        *byte = hex_digit(pair[0])? << 4 | hex_digit(pair[1])?;
    }
    let crc = crc_a(&bytes[..plain]);
    bytes[plain..plain + CRC_LEN].copy_from_slice(&crc);
    Some(Line::Frame { bytes, len: plain + CRC_LEN })
}

/// A line without its newline; none if it is a bad one (D40).
fn line_of(line: &[u8]) -> Option<Line> {
    match line {
        b"P" => Some(Line::Power),
        b"S" => Some(Line::Select),
        [b'F', b' ', digits @ ..] => frame_of(digits),
        _ => None,
    }
}

fn push_hex(out: &mut Vec<u8>, bytes: &[u8]) {
    const DIGITS: &[u8; 16] = b"0123456789abcdef";
    out.extend(bytes.iter().flat_map(|b| [DIGITS[(b >> 4) as usize], DIGITS[(b & 15) as usize]]));
}

/// A tag on the bench, with the number of the last line played.
pub struct Bench {
    record: Record,
    store: Store,
    reply: [u8; REPLY_LEN],
    lines: u64,
}

impl Bench {
    /// A tag from an image; none if the image is refused.
    pub fn new(image: &[u8]) -> Option<Bench> {
        let mut store = [0; STORE_LEN];
        let (number, record) = tag::load(image, &mut store);
        (number == 0).then_some(Bench { record, store, reply: [0; REPLY_LEN], lines: 0 })
    }

    /// Plays a line and puts its answer behind `out`. False after a bad line: the script stops there.
    pub fn play(&mut self, line: &[u8], out: &mut Vec<u8>) -> bool {
        let Some(line) = line_of(line) else {
            return self.stop_at_bad_line(out);
        };
        self.lines += 1;
        // The low byte of the line number is the number modulo 256 (D39).
        let random = [self.lines as u8; RANDOM_LEN];
        let answer = match line {
            Line::Power => tag::power(self.record),
            Line::Select => tag::select(self.record),
            Line::Frame { bytes, len } => tag::frame(self.record, &mut self.store, &bytes[..len], &random, &mut self.reply),
        };
        self.record = answer.record;
        self.print(answer.rule, answer.reply, out);
        true
    }

    /// The next line is a bad one: says so, and ends the script.
    fn stop_at_bad_line(&mut self, out: &mut Vec<u8>) -> bool {
        self.lines += 1;
        out.extend_from_slice(format!("bad line {}\n", self.lines).as_bytes());
        false
    }

    /// The number, and behind a space any data without CRC, or why a WRITE was refused; a nibble prints nothing.
    fn print(&self, rule: Rule, reply: Reply, out: &mut Vec<u8>) {
        let number = rule.number();
        if number >= 10 {
            out.push(b'0' + number / 10);
        }
        out.push(b'0' + number % 10);
        if let Reply::Bytes(len) = reply {
            out.push(b' ');
            push_hex(out, &self.reply[..len - CRC_LEN]);
        }
        if rule.reason() != 0 {
            out.extend([b' ', b'0' + rule.reason()]);
        }
        out.push(b'\n');
    }
}

/// What is held of a line whose end has not come yet.
struct Held {
    bytes: [u8; LINE_MAX],
    len: usize,
}

/// Plays the lines that end in `chunk` and holds what is left. False when the script stops.
fn play_chunk(bench: &mut Bench, held: &mut Held, chunk: &[u8], out: &mut Vec<u8>) -> bool {
    for &byte in chunk {
        if byte == b'\n' {
            if !bench.play(&held.bytes[..held.len], out) {
                return false;
            }
            held.len = 0;
        } else if held.len == LINE_MAX {
            return bench.stop_at_bad_line(out);
        } else {
            held.bytes[held.len] = byte;
            held.len += 1;
        }
    }
    true
}

/// Plays lines until they are over. Each chunk's answers are written before more is read, so that a person can talk to the program.
/// A reading that fails ends the script without the line held (D55); bytes behind the last newline are a line (D53).
pub fn play_all(bench: &mut Bench, mut input: impl Read, mut output: impl Write) -> Result<()> {
    let mut chunk = vec![0; CHUNK];
    let mut held = Held { bytes: [0; LINE_MAX], len: 0 };
    let mut out = Vec::new();
    loop {
        let count = match input.read(&mut chunk) {
            Err(e) if e.kind() == ErrorKind::Interrupted => continue,
            other => other?,
        };
        let going = if count > 0 {
            play_chunk(bench, &mut held, &chunk[..count], &mut out)
        } else {
            held.len > 0 && bench.play(&held.bytes[..held.len], &mut out)
        };
        output.write_all(&out)?;
        output.flush()?;
        out.clear();
        if count == 0 || !going {
            return Ok(());
        }
    }
}

/// The image file's bytes, one more than an image at most: a longer file is refused for its length all the same (D36).
fn image_file(name: Option<&OsStr>) -> Option<Vec<u8>> {
    let mut image = Vec::new();
    File::open(name?).ok()?.take(IMAGE_LEN as u64 + 1).read_to_end(&mut image).ok()?;
    Some(image)
}

/// The whole program. An image that is refused or can't be opened prints `12` and nothing more.
pub fn run(name: Option<&OsStr>, input: impl Read, mut output: impl Write) -> Result<()> {
    match image_file(name).and_then(|image| Bench::new(&image)) {
        Some(mut bench) => play_all(&mut bench, input, output),
        None => {
            output.write_all(b"12\n")?;
            output.flush()
        }
    }
}
