//! Bench scripts: the bench program and the Rust tag's play the same lines on the same image, and print the same.

use crate::coverage::{Call, Coverage};
use crate::frames::{self, View};
use crate::images::{self, Image};
use crate::pair::hex;
use crate::random::Random;
use crate::reasons::{Met, Reasons};
use crate::table::Table;
use rust_tag::bench;
use rust_tag::rules::Rule;
use rust_tag::tag::{self, Record, State, Store, RANDOM_LEN, REPLY_LEN, STORE_LEN};
use std::fs::File;
use std::io::{self, Write};
use std::path::{Path, PathBuf};
use std::process::{Child, Command, Stdio};

/// The ways in which a line can be bad.
const BAD_LINES: [&str; 12] = [
    "empty", "carriage return", "another letter", "space too many or too few", "digit that is none", "odd digit count", "no byte", "63 bytes or more",
    "far too long", "NUL", "random bytes", "bytes above 7Fh",
];

fn bad_line(r: &mut Random, kind: usize) -> Vec<u8> {
    let spaces: [&[u8]; 11] = [b" S", b"S ", b"P ", b"\tS", b" ", b" F 3004", b"F 3004 ", b"F  3004", b"F\t3004", b"F 30 04", b"F3004"];
    let letters: [&[u8]; 10] = [b"p", b"s", b"f 3004", b"PP", b"SS", b"PS", b"X", b"?", b"#", b"\xef\xbb\xbfS"];
    let digits: [&[u8]; 9] = [b"F 3A0405", b"F AF", b"F 0x30", b"F 3g", b"F -3", b"F 30,04", b"F 300:", b"F 30/4", b"F 30`4"];
    let nuls: [&[u8]; 5] = [b"\0", b"S\0", b"P\0", b"F 3004\0", b"F\x003004"];
    let (odd, few, any) = (1 + 2 * r.below(62), 1 + r.below(40), 63 + r.below(100));
    let (many, long) = (r.pick(&[63, 63, 64, any]), r.pick(&[126, 127, 128, 4096, 65536, 100_000]));
    let (letter, byte) = (r.pick(b"PSF 0"), r.pick(&["30", "00", "af"]));
    match kind {
        0 => Vec::new(),
        1 => r.pick(&[&b"P\r"[..], b"S\r", b"F 3004\r", b"\r"]).to_vec(),
        2 => r.pick(&letters).to_vec(),
        3 => r.pick(&spaces).to_vec(),
        4 => r.pick(&digits).to_vec(),
        5 => [b"F ".to_vec(), vec![b'0'; odd]].concat(),
        6 => r.pick(&[&b"F"[..], b"F "]).to_vec(),
        7 => ["F ".to_string(), byte.repeat(many)].concat().into_bytes(),
        8 => vec![letter; long],
        9 => r.pick(&nuls).to_vec(),
        10 => not_right(r.bytes(few)),
        _ => [b"F ".to_vec(), r.bytes(few).iter().map(|b| b | 0x80).collect()].concat(),
    }
}

/// Random bytes as one line that is surely bad.
fn not_right(mut line: Vec<u8>) -> Vec<u8> {
    line.retain(|&b| b != b'\n');
    line.insert(0, 0x0B);
    line
}

/// A tag that plays along while its script is written, so that most lines meet a state in which they matter.
struct Bench<'a> {
    record: Record,
    store: Store,
    lines: usize,
    coverage: &'a mut Coverage,
    reasons: &'a mut Reasons,
}

impl Bench<'_> {
    fn play(&mut self, line: &Line) {
        self.lines += 1;
        let before = self.store;
        let answer = match line {
            Line::Power => tag::power(self.record),
            Line::Select => tag::select(self.record),
            Line::Frame(plain) => {
                let random = [self.lines as u8; RANDOM_LEN];
                tag::frame(self.record, &mut self.store, &frames::with_crc(plain), &random, &mut [0; REPLY_LEN])
            }
        };
        match line {
            Line::Power => self.coverage.note(Call::Power, answer.rule),
            Line::Select => self.coverage.note(Call::Select, answer.rule),
            Line::Frame(plain) => {
                let (met, frame) = (Met { state: self.record.state, store: &before }, frames::with_crc(plain));
                self.reasons.note(&met, &frame, answer.number, answer.rule.reason());
                self.coverage.note_frame(self.record.state, &frame, answer.rule);
            }
        }
        self.record = answer.record;
    }

    fn line(&self, r: &mut Random) -> Line {
        let (waiting, chance) = (self.record.state == State::Waiting, r.below(100));
        match chance {
            0..=84 if waiting => Line::Select,
            0 | 1 => Line::Power,
            2 => Line::Select,
            _ => {
                let mut plain = frames::usual(r, &View { record: self.record, store: &self.store });
                plain.truncate(62);
                Line::Frame(plain)
            }
        }
    }
}

enum Line {
    Power,
    Select,
    Frame(Vec<u8>),
}

impl Line {
    fn text(&self) -> Vec<u8> {
        match self {
            Line::Power => b"P".to_vec(),
            Line::Select => b"S".to_vec(),
            Line::Frame(plain) => format!("F {}", hex(plain)).into_bytes(),
        }
    }
}

struct Script {
    /// The image file's bytes, or no file at all.
    image: Option<Vec<u8>>,
    text: Vec<u8>,
}

/// A script that the bench program plays right now.
struct Running {
    script: Script,
    image: PathBuf,
    child: Child,
}

/// So many at a time: while one program starts, another can run.
pub const AT_A_TIME: u64 = 8;

pub struct Scripts {
    program: PathBuf,
    folder: PathBuf,
    coverage: Coverage,
    reasons: Reasons,
    bad_lines: [u64; BAD_LINES.len()],
    missing: u64,
    unended: u64,
    past_255: u64,
    pub lines: u64,
}

impl Scripts {
    pub fn new(program: &Path, folder: &Path) -> Scripts {
        let (program, folder) = (program.to_path_buf(), folder.to_path_buf());
        let (coverage, reasons, bad_lines) = (Coverage::new(true), Reasons::new(), [0; BAD_LINES.len()]);
        Scripts { program, folder, coverage, reasons, bad_lines, missing: 0, unended: 0, past_255: 0, lines: 0 }
    }

    fn some_image(&mut self, r: &mut Random) -> Option<Vec<u8>> {
        match r.below(100) {
            0 => {
                self.missing += 1;
                None
            }
            1..=12 => Some(images::refused(r)),
            _ if r.chance(70) => Some(Image::wild(r).0.to_vec()),
            _ => Some(Image::open(r).0.to_vec()),
        }
    }

    /// The script of a seed, with a look at what the tag answers.
    fn script(&mut self, seed: u64) -> Script {
        // not what the calls of the same seed make
        let r = &mut Random::new(!seed);
        let image = self.some_image(r);
        let mut store = [0; STORE_LEN];
        let (rule, record) = tag::load_by_rule(image.as_deref().unwrap_or(&[]), &mut store);
        if image.is_some() {
            self.coverage.note(Call::Load, rule);
        }
        if rule != Rule::CarriedOut {
            let text = r.pick(&[&b"S\nF 3004\n"[..], b"", b"S", b"bad\n"]).to_vec();
            return Script { image, text };
        }
        let text = self.lines_for(r, record, store);
        Script { image, text }
    }

    fn lines_for(&mut self, r: &mut Random, record: Record, store: Store) -> Vec<u8> {
        let mut bench = Bench { record, store, lines: 0, coverage: &mut self.coverage, reasons: &mut self.reasons };
        let (first, count) = (if r.chance(2) { 250 } else { 0 }, r.pick(&[0, 1, 3, 10, 40, 80, 150]));
        let mut text = Vec::new();
        for i in 0..first + count {
            let line = if i < first { Line::Power } else { bench.line(r) };
            bench.play(&line);
            text.extend(line.text());
            text.push(b'\n');
        }
        self.past_255 += u64::from(bench.lines > 255);
        self.lines += bench.lines as u64;
        if r.chance(30) {
            let kind = r.below(BAD_LINES.len());
            self.bad_lines[kind] += 1;
            text.extend(bad_line(r, kind));
            text.extend_from_slice(b"\nS\nF 3900\n");
        } else if !text.is_empty() && r.chance(20) {
            self.unended += 1;
            text.pop();
        }
        text
    }

    /// Plays the scripts of these seeds on both; for each, what differs, if anything does.
    pub fn compare(&mut self, seeds: std::ops::Range<u64>) -> Vec<Result<(), String>> {
        let running: Vec<_> = seeds.map(|seed| self.start(seed)).collect();
        running.into_iter().map(|started| started.map_err(|e| e.to_string()).and_then(finish)).collect()
    }

    fn start(&mut self, seed: u64) -> io::Result<Running> {
        let script = self.script(seed);
        let slot = seed % AT_A_TIME;
        let (mut image, lines) = (self.folder.join(format!("compare.image.{slot}")), self.folder.join(format!("compare.script.{slot}")));
        match &script.image {
            Some(bytes) => rewrite(&image, bytes)?,
            None => image = self.folder.join("compare.no_such_image"),
        }
        rewrite(&lines, &script.text)?;
        let child = Command::new(&self.program).arg(&image).stdin(File::open(&lines)?).stdout(Stdio::piped()).stderr(Stdio::piped()).spawn()?;
        Ok(Running { script, image, child })
    }

    /// The script of a seed, to be read.
    pub fn words(&mut self, seed: u64) -> String {
        self.script(seed).words(usize::MAX)
    }

    pub fn tables(&self) -> Vec<Table> {
        let mut tables = self.coverage.tables();
        tables.push(self.reasons.table());
        let mut table = Table::new("Lines and files");
        table.line("bad line", BAD_LINES.iter().zip(self.bad_lines).map(|(kind, n)| (kind.to_string(), n)));
        table.line("no image file", [(String::new(), self.missing)]);
        table.line("last line without newline", [(String::new(), self.unended)]);
        table.line("more than 255 lines", [(String::new(), self.past_255)]);
        tables.push(table);
        tables
    }

    pub fn surprises(&self) -> Vec<String> {
        [self.coverage.surprises(), self.reasons.surprises()].concat()
    }
}

/// Puts other bytes into a file. It is cut to its new length and not to nothing before, which some file systems answer with a wait for the disk.
fn rewrite(path: &Path, bytes: &[u8]) -> io::Result<()> {
    let mut file = File::options().write(true).create(true).truncate(false).open(path)?;
    file.write_all(bytes)?;
    file.set_len(bytes.len() as u64)
}

fn finish(running: Running) -> Result<(), String> {
    let Running { script, image, child } = running;
    let mut expected = Vec::new();
    bench::run(Some(image.as_os_str()), &script.text[..], &mut expected).map_err(|e| e.to_string())?;
    let ended = child.wait_with_output().map_err(|e| e.to_string())?;
    if ended.status.success() && ended.stderr.is_empty() && ended.stdout == expected {
        return Ok(());
    }
    Err(told(&script, &ended.stdout, &expected, &ended.status.to_string()))
}

fn lines_of(bytes: &[u8]) -> Vec<String> {
    bytes.split(|&b| b == b'\n').map(|line| String::from_utf8_lossy(line).into_owned()).collect()
}

impl Script {
    /// The image and so many lines; of a long line its beginning.
    fn words(&self, lines: usize) -> String {
        let image = self.image.as_ref().map_or("none".to_string(), |bytes| hex(bytes));
        let beginning = |line: &String| line.chars().take(130).chain(['\n']).collect::<String>();
        let lines: String = lines_of(&self.text).iter().take(lines).map(beginning).collect();
        format!("image {image}\n{lines}")
    }
}

/// The script up to the line whose answers differ, and both answers.
fn told(script: &Script, got: &[u8], expected: &[u8], status: &str) -> String {
    let (got, expected) = (lines_of(got), lines_of(expected));
    let at = (0..got.len()).find(|&i| got.get(i) != expected.get(i)).unwrap_or(got.len());
    let of = |lines: &[String]| lines.get(at).cloned().unwrap_or("no such line".to_string());
    format!("bench program: {status}\n{}bench program: {}\nRust tag: {}\n", script.words(at + 1), of(&got), of(&expected))
}
