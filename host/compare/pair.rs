//! The two tags side by side: the library and the Rust tag get the same calls on equal buffers, and everything is compared after each:
//! the answer's 64 bits, and every byte of every buffer with the guard bytes around it.

use crate::coverage::{Call, Coverage};
use crate::effects::{Effects, Seen};
use crate::frames::View;
use crate::library;
use crate::random::Random;
use crate::reasons::{Met, Reasons};
use rust_tag::c_form::{by_rule, record_of, RECORD_LEN};
use rust_tag::rules::Rule;
use rust_tag::tag::{Record, Store, IMAGE_LEN, RANDOM_LEN, REPLY_LEN, STORE_LEN};

/// Bytes before and behind each buffer that no call may touch.
const GUARD: usize = 16;

/// A buffer to lend, with room for more than its right length.
#[derive(Clone, PartialEq)]
struct Lent(Vec<u8>);

impl Lent {
    fn new(room: usize) -> Lent {
        Lent(vec![0; GUARD + room + GUARD])
    }

    fn part(&self, len: usize) -> &[u8] {
        &self.0[GUARD..GUARD + len]
    }

    fn part_mut(&mut self, len: usize) -> &mut [u8] {
        &mut self.0[GUARD..GUARD + len]
    }

    fn put(&mut self, bytes: &[u8]) {
        self.part_mut(bytes.len()).copy_from_slice(bytes);
    }
}

/// The buffers of one tag.
#[derive(Clone, PartialEq)]
struct Side {
    record: Lent,
    store: Lent,
    frame: Lent,
    random: Lent,
    reply: Lent,
    file: Lent,
}

impl Side {
    fn new() -> Side {
        Side { record: Lent::new(80), store: Lent::new(300), frame: Lent::new(100), random: Lent::new(40), reply: Lent::new(300), file: Lent::new(600) }
    }

    fn buffers(&mut self) -> [(&'static str, &mut Lent); 6] {
        [
            ("record", &mut self.record),
            ("store", &mut self.store),
            ("frame", &mut self.frame),
            ("random", &mut self.random),
            ("reply", &mut self.reply),
            ("file", &mut self.file),
        ]
    }

    fn rust_call(&mut self, call: Call, lens: Lens) -> (u64, Rule) {
        let alone = |rule: Rule| (u64::from(rule.number()), rule);
        let (record, store, file) = (self.record.part_mut(lens.record), self.store.part_mut(lens.store), self.file.part_mut(lens.file));
        let (frame, random, reply) = (self.frame.part(lens.frame), self.random.part(lens.random), self.reply.part_mut(lens.reply));
        match call {
            Call::Power => alone(by_rule::power(record)),
            Call::Select => alone(by_rule::select(record)),
            Call::Load => alone(by_rule::load(record, store, file)),
            Call::Save => alone(by_rule::save(record, store, file)),
            Call::Frame => by_rule::frame(record, store, frame, random, reply),
        }
    }

    fn library_call(&mut self, call: Call, lens: Lens) -> u64 {
        let (record, store, file) = (self.record.part_mut(lens.record), self.store.part_mut(lens.store), self.file.part_mut(lens.file));
        let (frame, random, reply) = (self.frame.part(lens.frame), self.random.part(lens.random), self.reply.part_mut(lens.reply));
        match call {
            Call::Power => library::power(record).into(),
            Call::Select => library::select(record).into(),
            Call::Load => library::load(record, store, file).into(),
            Call::Save => library::save(record, store, file).into(),
            Call::Frame => library::frame(record, store, frame, random, reply),
        }
    }
}

/// The lengths that a call tells of its buffers.
#[derive(Clone, Copy)]
pub struct Lens {
    pub record: usize,
    pub store: usize,
    pub frame: usize,
    pub random: usize,
    pub reply: usize,
    pub file: usize,
}

impl Lens {
    pub const RIGHT: Lens = Lens { record: RECORD_LEN, store: STORE_LEN, frame: 0, random: RANDOM_LEN, reply: REPLY_LEN, file: IMAGE_LEN };
}

/// The record buffer and the store at one moment.
#[derive(Clone, Copy)]
pub struct Moment {
    pub buffer: [u8; RECORD_LEN],
    pub record: Record,
    pub store: Store,
}

/// What was done since the last loading, for whoever has to find a difference.
enum Entry {
    Call { call: Call, lens: Lens, frame: Vec<u8>, random: Vec<u8>, file: Vec<u8>, answer: u64 },
    Record(Vec<u8>),
    Store(Vec<u8>),
}

/// The first difference, in words.
pub struct Difference(pub String);

pub struct Pair {
    rust: Side,
    library: Side,
    journal: Vec<Entry>,
    pub calls: u64,
    pub coverage: Coverage,
    pub effects: Effects,
    pub reasons: Reasons,
}

impl Pair {
    pub fn new() -> Pair {
        let (rust, library) = (Side::new(), Side::new());
        let (coverage, effects, reasons) = (Coverage::new(false), Effects::new(), Reasons::new());
        Pair { rust, library, journal: Vec::new(), calls: 0, coverage, effects, reasons }
    }

    /// Both sides start with the same random bytes in every buffer, so a run of calls depends on its seed alone.
    pub fn begin(&mut self, r: &mut Random) {
        for (_, lent) in self.rust.buffers() {
            r.fill(&mut lent.0);
        }
        self.library.clone_from(&self.rust);
        self.journal.clear();
    }

    pub fn view(&self) -> View<'_> {
        View { record: self.record(), store: self.rust.store.part(STORE_LEN) }
    }

    pub fn buffer(&self) -> [u8; RECORD_LEN] {
        std::array::from_fn(|i| self.rust.record.part(RECORD_LEN)[i])
    }

    pub fn record(&self) -> Record {
        record_of(&self.buffer())
    }

    pub fn reply(&self) -> &[u8] {
        self.rust.reply.part(REPLY_LEN)
    }

    pub fn file(&self) -> &[u8] {
        self.rust.file.part(IMAGE_LEN)
    }

    fn moment(&self) -> Moment {
        let store = std::array::from_fn(|i| self.rust.store.part(STORE_LEN)[i]);
        Moment { buffer: self.buffer(), record: self.record(), store }
    }

    // ---- what the caller puts into the buffers

    fn put(&mut self, lent: fn(&mut Side) -> &mut Lent, bytes: &[u8]) {
        lent(&mut self.rust).put(bytes);
        lent(&mut self.library).put(bytes);
    }

    /// A record that the caller made up.
    pub fn put_record(&mut self, record: &[u8]) {
        self.put(|side| &mut side.record, record);
        self.journal.push(Entry::Record(record.to_vec()));
    }

    /// A store that the caller made up.
    pub fn put_store(&mut self, store: &[u8]) {
        self.put(|side| &mut side.store, store);
        self.journal.push(Entry::Store(store.to_vec()));
    }

    fn refill(&mut self, r: &mut Random, lent: fn(&mut Side) -> &mut Lent) {
        r.fill(&mut lent(&mut self.rust).0);
        let bytes = lent(&mut self.rust).0.clone();
        lent(&mut self.library).0.copy_from_slice(&bytes);
    }

    // ---- calls

    pub fn power(&mut self, lens: Lens) -> Result<u64, Difference> {
        self.call(Call::Power, lens)
    }

    pub fn select(&mut self, lens: Lens) -> Result<u64, Difference> {
        self.call(Call::Select, lens)
    }

    pub fn load(&mut self, file: &[u8], lens: Lens) -> Result<u64, Difference> {
        self.put(|side| &mut side.file, file);
        self.call(Call::Load, Lens { file: file.len(), ..lens })
    }

    /// The image buffer holds other bytes before each writing.
    pub fn save(&mut self, r: &mut Random, lens: Lens) -> Result<u64, Difference> {
        self.refill(r, |side| &mut side.file);
        self.call(Call::Save, lens)
    }

    /// The reply buffer holds other bytes before each frame.
    pub fn frame(&mut self, r: &mut Random, frame: &[u8], random: &[u8], lens: Lens) -> Result<u64, Difference> {
        self.refill(r, |side| &mut side.reply);
        self.put(|side| &mut side.frame, frame);
        self.put(|side| &mut side.random, random);
        self.call(Call::Frame, Lens { frame: frame.len(), ..lens })
    }

    fn call(&mut self, call: Call, lens: Lens) -> Result<u64, Difference> {
        let before = self.moment();
        let (answer, rule) = self.rust.rust_call(call, lens);
        let of_library = self.library.library_call(call, lens);
        self.calls += 1;
        if call == Call::Load && answer == 0 {
            self.journal.clear();
        }
        self.note_down(call, lens, answer);
        if answer != of_library || self.rust != self.library {
            return Err(self.difference(answer, rule, of_library));
        }
        let after = self.moment();
        let (frame, file) = (self.rust.frame.part(lens.frame), self.rust.file.part(lens.file));
        let seen = Seen { call, lens, before: &before, after: &after, frame, file, rule };
        match call {
            Call::Frame => {
                let met = Met { state: before.record.state, store: &before.store };
                self.reasons.note(&met, seen.frame, rule.number(), (answer >> 24) as u8);
                self.coverage.note_frame(before.record.state, seen.frame, rule);
            }
            _ => self.coverage.note(call, rule),
        }
        self.effects.note(&seen);
        Ok(answer)
    }

    // ---- words

    fn note_down(&mut self, call: Call, lens: Lens, answer: u64) {
        let side = &self.rust;
        let of = |wanted: bool, lent: &Lent, len: usize| if wanted { lent.part(len).to_vec() } else { Vec::new() };
        self.journal.push(Entry::Call {
            call,
            lens,
            frame: of(call == Call::Frame, &side.frame, lens.frame),
            random: of(call == Call::Frame, &side.random, lens.random),
            file: of(call == Call::Load, &side.file, lens.file),
            answer,
        });
    }

    /// The calls since the last loading, each with the Rust tag's answer.
    pub fn journal(&self) -> String {
        self.journal.iter().map(|entry| entry.words() + "\n").collect()
    }

    fn difference(&mut self, rust: u64, rule: Rule, library: u64) -> Difference {
        let mut text = format!("answers: library {library:016x}, Rust tag {rust:016x} ({})\n", rule.words());
        for ((name, a), (_, b)) in self.library.buffers().into_iter().zip(self.rust.buffers()) {
            let places: Vec<usize> = (0..a.0.len()).filter(|&i| a.0[i] != b.0[i]).collect();
            for &i in places.iter().take(4) {
                let at = i as isize - GUARD as isize;
                text += &format!("{name} buffer, byte {at}: library {:02x}, Rust tag {:02x}\n", a.0[i], b.0[i]);
            }
            if places.len() > 4 {
                text += &format!("{name} buffer: {} bytes differ\n", places.len());
            }
        }
        Difference(text)
    }
}

pub fn hex(bytes: &[u8]) -> String {
    bytes.iter().map(|b| format!("{b:02x}")).collect()
}

impl Entry {
    fn words(&self) -> String {
        match self {
            Entry::Record(bytes) => format!("record set to {}", hex(bytes)),
            Entry::Store(bytes) => format!("store set to {}", hex(bytes)),
            Entry::Call { call, lens, frame, random, file, answer } => {
                let buffers = format!("record {} store {} random {} reply {} file {}", lens.record, lens.store, lens.random, lens.reply, lens.file);
                let input = match call {
                    Call::Frame => format!("frame {} random {} ", hex(frame), hex(random)),
                    Call::Load => format!("file {} ", hex(file)),
                    _ => String::new(),
                };
                format!("{call:?} {input}(lengths: {buffers}) -> {answer:016x}")
            }
        }
    }
}
