//! What was met beyond numbers and rules: which lock bits were set and which stayed frozen, which pages were read, written and refused,
//! what logins did to the failed count, and the like.

use crate::coverage::{state_row, Call, STATES};
use crate::frames::{FAST_READ, INCR_CNT, PROOF, READ, READ_CNT, WRITE};
use crate::images::{wrong_check_bits, CHECK_BYTES_AT, COUNTER_MAX};
use crate::pair::{Lens, Moment};
use crate::table::Table;
use rust_tag::c_form::{CHALLENGED, KEY_NUMBER_AT, RECORD_LEN, STATE_AT};
use rust_tag::rules::Rule;
use rust_tag::tag::{State, IMAGE_LEN, REPLY_LEN, STORE_LEN};

/// One call with all that it met and left.
pub struct Seen<'a> {
    pub call: Call,
    pub lens: Lens,
    pub before: &'a Moment,
    pub after: &'a Moment,
    pub frame: &'a [u8],
    pub file: &'a [u8],
    pub rule: Rule,
}

macro_rules! marks {
    ($($mark:ident $words:literal,)+) => {
        #[derive(Clone, Copy)]
        enum Mark {
            $($mark,)+
        }

        const MARKS: &[&str] = &[$($words,)+];
    };
}

marks! {
    LoginDataProt "login with DataProtKey",
    LoginUidRetr "login with UIDRetrKey",
    LoginOriginality "login with the originality key",
    LoginNewDataProt "login with a DataProtKey written since the loading",
    LoginNewUidRetr "login with a UIDRetrKey written since the loading",
    LoginLockedKey "login with a locked key",
    LoginLeft "part 1 in AUTHENTICATED or TRACEABLE ends the login",
    CountLowered "right proof takes 16 off the count",
    CountReset "right proof resets a count of 1 to 16",
    CountKept "right proof keeps the count, AUTH_LIM 0",
    CountAtLimit "false proof brings the count to the limit",
    CountTop "false proof brings the count to 1,023",
    DamagedProof "damaged AFh frame, count kept below the limit",
    ProofWrongLength "AFh frame of another length, count kept below the limit",
    SerialHidden "READ or FAST_READ of page 00h-02h in ACTIVE under Random ID",
    SerialTraceable "the same in TRACEABLE",
    SerialAuthenticated "the same in AUTHENTICATED",
    RandomIdTraceable "Random ID bit changed in TRACEABLE",
    RandomIdAuthenticated "Random ID bit changed in AUTHENTICATED",
    RandomIdSame "CFG_0 written in ACTIVE with the Random ID bit as it was",
    ProtectionChanged "AUTH0 changed by a WRITE",
    ProtSet "PROT set by a WRITE",
    ProtCleared "PROT cleared by a WRITE",
    WriteAtAuth0 "WRITE to page AUTH0 refused",
    WriteBelowAuth0 "WRITE to the page below AUTH0 carried out without login",
    WriteAboveAuth0 "WRITE at or above AUTH0 carried out in AUTHENTICATED",
    ReadAtAuth0 "reading up to page AUTH0 under PROT refused",
    ReadBelowAuth0 "reading up to the page below AUTH0 under PROT carried out without login",
    ReadWrapsEnd "READ wraps at 3Bh",
    ReadWrapsAuth0 "READ wraps at AUTH0",
    ReadWrapsTwice "READ wraps more than once",
    ReadOnePage "READ gives page 00h four times",
    ReadWrapsHidden "READ wraps into hidden bytes",
    ReadWrapsShown "READ wraps into the serial number after a login under Random ID",
    ReadNoPage "READ 00h refused, AUTH0 00h under PROT",
    ReadOpen "reading at or above AUTH0 without PROT carried out without login",
    ReadAboveAuth0 "reading at or above AUTH0 under PROT carried out in AUTHENTICATED",
    KeysRead "key pages read",
    Counter2Read "counter 2 read by CNT_RD_EN",
    Counter2ReadByLogin "counter 2 read in AUTHENTICATED, CNT_RD_EN clear",
    Counter2Raised "counter 2 raised by CNT_INC_EN",
    Counter2RaisedByLogin "counter 2 raised in AUTHENTICATED, CNT_INC_EN clear",
    CounterFull "counter raised to FFFFFFh",
    CounterStaysFull "increment 0 at FFFFFFh",
    FourthByte "fourth value byte not 0",
    DataProtChanged "byte of DataProtKey changed",
    UidRetrChanged "byte of UIDRetrKey changed",
    OtpSet "OTP bit set",
    OtpKept "OTP bit kept that the data leaves out",
    LockBitKept "lock bit kept that the data leaves out, page 02h",
    PairLockBitKept "lock bit kept that the data leaves out, page 28h",
    AllFrozen "every bit sent to page 02h frozen",
    PairsAllFrozen "every bit sent to page 28h frozen",
    ReservedKept "reserved bits and byte of page 28h kept",
    ConfigurationLock "LOCK_USR_CFG set by a WRITE",
    Key0Lock "LOCK_AES_KEY0 set by a WRITE",
    Key1Lock "LOCK_AES_KEY1 set by a WRITE",
    BlockLock "BLOCK_LOCK_KEY set by a WRITE",
    AllKeyLocks "all three bits of LOCK_KEYS set in one WRITE",
    Key0LockKept "LOCK_AES_KEY0 kept that the data leaves out",
    Key1LockKept "LOCK_AES_KEY1 kept that the data leaves out",
    StrayDropped "stray challenge bytes dropped by a frame",
    StrayKept "stray challenge bytes kept at number 1",
    UnusedKeyDropped "unused key number zeroed by a frame",
    UnusedKeyAt1 "unused key number kept at number 1",
    UnusedKeyAt10 "unused key number kept at number 10",
    UnusedKeyHigh "unused key number above 2 zeroed by a frame",
    UnusedKeySaved "image written with an unused key number above 2",
    WholeMemory "FAST_READ of the whole memory",
    PowerCounterHigh "Power keeps a counter above FFFFFFh",
    PowerCountHigh "Power keeps a count above 1,023",
    PowerNoState "Power from a state that doesn't exist",
    PowerNoKey "Power from a key number that doesn't exist",
    SelectCounterHigh "Select keeps a counter above FFFFFFh",
    SelectCountHigh "Select keeps a count above 1,023",
    SelectNoState "Select from a state that doesn't exist",
    SelectNoKey "Select from a key number that doesn't exist",
    LongImageBuffer "image written into a longer buffer",
    LongReplyBuffer "data reply in a longer buffer",
    WrongImageAndStore "10 before 12: store and image both wrong",
    CheckBytesAndStore "10 before 12: store and check bytes both wrong",
    CheckBytesAndRecord "10 before 12: record buffer and check bytes both wrong",
    ZeroSerial "image with a serial number of zeros loaded",
    Bcc0Without88 "image refused, 88h not in BCC0",
    Bcc1With88 "image refused, 88h in BCC1",
    CheckBytesBoth "image refused, both check bytes wrong",
    CheckBytesSaved "image written with wrong check bytes",
    CheckBytesRefused "image of the store refused for its check bytes",
    CheckBytesRead "wrong check bytes read as stored",
    CheckBytesHidden "wrong check bytes hidden in ACTIVE under Random ID",
    CheckByteKept "wrong BCC1 kept by a WRITE to page 02h",
}

const PAGES: usize = 0x3C;
const FRAME_LENS: usize = 71;
const ODD_RECORD_LENS: [usize; 4] = [0, 1, 47, 49];
const IMAGE_LENS: [usize; 6] = [0, 1, 270, 271, 272, 542];
/// Lock bytes 0 to 4: where they lie in the store, their lock bits and their block bits.
const LOCK_BYTES: [(usize, u8, u8); 5] = [(10, 0xF8, 0x07), (11, 0xFF, 0), (160, 0xFF, 0), (161, 0x0F, 0), (162, 0, 0x3F)];
const CFG_0: usize = 4 * 0x29;
const CFG_1: usize = 4 * 0x2A;
const LOCK_KEYS: usize = 4 * 0x2D;

pub struct Effects {
    marks: Vec<u64>,
    written: [u64; 64],
    protected: [u64; 64],
    locked: [u64; 64],
    read_from: [u64; 64],
    /// READ carried out without login under PROT with AUTH0 at most 3Bh, and refused there.
    read_limited: [u64; 64],
    read_refused: [u64; 64],
    fast_from: [u64; 64],
    fast_to: [u64; 64],
    lock_set: [[u64; 8]; 5],
    lock_frozen: [[u64; 8]; 5],
    lens_right: [u64; FRAME_LENS],
    lens_wrong: [u64; FRAME_LENS],
    record_lens: [[u64; 4]; 5],
    image_lens: [u64; 6],
    /// Images refused for one bit of BCC0 or BCC1.
    check_bits: [[u64; 8]; 2],
    /// Calls other than frames, by the state they met.
    states: [[u64; STATES.len()]; 4],
    /// Counters above FFFFFFh that made a writing or a frame 10.
    high_counters: [[u64; 3]; 2],
    /// Keys written since the loading.
    new_key: [bool; 2],
}

impl Effects {
    pub fn new() -> Effects {
        Effects {
            marks: vec![0; MARKS.len()],
            written: [0; 64],
            protected: [0; 64],
            locked: [0; 64],
            read_from: [0; 64],
            read_limited: [0; 64],
            read_refused: [0; 64],
            fast_from: [0; 64],
            fast_to: [0; 64],
            lock_set: [[0; 8]; 5],
            lock_frozen: [[0; 8]; 5],
            lens_right: [0; FRAME_LENS],
            lens_wrong: [0; FRAME_LENS],
            record_lens: [[0; 4]; 5],
            image_lens: [0; 6],
            check_bits: [[0; 8]; 2],
            states: [[0; STATES.len()]; 4],
            high_counters: [[0; 3]; 2],
            new_key: [false; 2],
        }
    }

    fn mark(&mut self, mark: Mark) {
        self.marks[mark as usize] += 1;
    }

    fn mark_if(&mut self, met: bool, mark: Mark) {
        if met {
            self.mark(mark);
        }
    }

    pub fn note(&mut self, seen: &Seen) {
        if let Some(i) = ODD_RECORD_LENS.iter().position(|&len| len == seen.lens.record) {
            self.record_lens[seen.call as usize][i] += 1;
        }
        if seen.call != Call::Frame && seen.lens.record == RECORD_LEN {
            self.states[seen.call as usize][state_row(seen.before.record.state)] += 1;
        }
        if seen.rule == Rule::CounterHigh {
            for k in (0..3).filter(|&k| seen.before.record.counters[k] > COUNTER_MAX) {
                self.high_counters[usize::from(seen.call == Call::Frame)][k] += 1;
            }
        }
        match seen.call {
            Call::Load => self.note_load(seen),
            Call::Save => self.note_save(seen),
            Call::Frame => self.note_frame(seen),
            Call::Power | Call::Select => self.note_event(seen),
        }
    }

    fn note_save(&mut self, seen: &Seen) {
        let buffer = &seen.before.buffer;
        if seen.rule.number() == 0 {
            self.mark_if(seen.lens.file > IMAGE_LEN, Mark::LongImageBuffer);
            self.mark_if(buffer[STATE_AT] != CHALLENGED && buffer[KEY_NUMBER_AT] > 2, Mark::UnusedKeySaved);
            self.mark_if(wrong_check_bits(&seen.before.store) != [0; 2], Mark::CheckBytesSaved);
        }
    }

    fn note_load(&mut self, seen: &Seen) {
        if let Some(i) = IMAGE_LENS.iter().position(|&len| len == seen.lens.file) {
            self.image_lens[i] += 1;
        }
        self.mark_if(seen.rule == Rule::StoreLength && seen.lens.file != IMAGE_LEN, Mark::WrongImageAndStore);
        if seen.rule.number() == 0 {
            self.new_key = [false; 2];
        }
        if seen.file.len() == IMAGE_LEN {
            self.note_check_bytes(seen, &seen.file[1..1 + STORE_LEN]);
        }
    }

    fn note_check_bytes(&mut self, seen: &Seen, pages: &[u8]) {
        let wrong = wrong_check_bits(pages);
        self.mark_if(seen.rule.number() == 0 && pages[..3] == [0; 3] && pages[4..8] == [0; 4], Mark::ZeroSerial);
        self.mark_if(seen.rule == Rule::StoreLength && wrong != [0; 2], Mark::CheckBytesAndStore);
        self.mark_if(seen.rule == Rule::RecordLength && wrong != [0; 2], Mark::CheckBytesAndRecord);
        if !matches!(seen.rule, Rule::CheckByte0 | Rule::CheckByte1) {
            return;
        }
        self.mark_if(wrong == [0x88, 0], Mark::Bcc0Without88);
        self.mark_if(wrong == [0, 0x88], Mark::Bcc1With88);
        self.mark_if(wrong[0] != 0 && wrong[1] != 0, Mark::CheckBytesBoth);
        self.mark_if(pages == seen.before.store, Mark::CheckBytesRefused);
        for bit in 0..8 {
            self.check_bits[0][bit] += u64::from(wrong == [1 << bit, 0]);
            self.check_bits[1][bit] += u64::from(wrong == [0, 1 << bit]);
        }
    }

    /// Odd records that Power and Select bring back to a state.
    fn note_event(&mut self, seen: &Seen) {
        if seen.rule.number() != 0 {
            return;
        }
        let record = &seen.before.record;
        let odd = [
            record.counters.iter().any(|&c| c > COUNTER_MAX),
            record.failed > 1023,
            matches!(record.state, State::Unknown(_)),
            matches!(record.state, State::Challenged(key) if key > 2),
        ];
        let marks = match seen.call {
            Call::Power => [Mark::PowerCounterHigh, Mark::PowerCountHigh, Mark::PowerNoState, Mark::PowerNoKey],
            _ => [Mark::SelectCounterHigh, Mark::SelectCountHigh, Mark::SelectNoState, Mark::SelectNoKey],
        };
        for (met, mark) in odd.into_iter().zip(marks) {
            self.mark_if(met, mark);
        }
    }

    fn note_frame(&mut self, seen: &Seen) {
        if seen.before.record.state != State::Waiting && seen.frame.len() < FRAME_LENS && seen.rule.number() != 10 {
            let lens = if seen.rule == Rule::CrcWrong { &mut self.lens_wrong } else { &mut self.lens_right };
            lens[seen.frame.len()] += 1;
        }
        self.note_fleeting(seen);
        if seen.rule.number() == 0 && seen.lens.reply > REPLY_LEN {
            self.mark_if(matches!(seen.frame[0], READ | FAST_READ | READ_CNT), Mark::LongReplyBuffer);
        }
        let plain = &seen.frame[..seen.frame.len().saturating_sub(2)];
        match (seen.rule.number(), plain) {
            (0, &[READ, page]) => self.note_window(seen, page),
            (6, &[READ, page]) => {
                self.read_refused[usize::from(page)] += 1;
                self.mark_if(page == 0, Mark::ReadNoPage);
            }
            (0, &[FAST_READ, start, end]) => {
                self.fast_from[usize::from(start)] += 1;
                self.fast_to[usize::from(end)] += 1;
            }
            (6, &[WRITE, page, ..]) => self.protected[usize::from(page)] += 1,
            (7, &[WRITE, page, ..]) => self.locked[usize::from(page)] += 1,
            (0, &[WRITE, page, a, b, c, d]) => self.note_write(seen, page, [a, b, c, d]),
            (0, &[INCR_CNT, number, ref value @ ..]) => self.note_raise(seen, number, value),
            _ => (),
        }
        match *plain {
            [READ, page] => self.note_reading(seen, page, page.saturating_add(3).min(last_readable(seen))),
            [FAST_READ, start, end] if start <= end => self.note_reading(seen, start, end),
            [READ_CNT, 2] if seen.rule.number() == 0 => self.note_counter_2(seen, 0x04, Mark::Counter2Read, Mark::Counter2ReadByLogin),
            _ => (),
        }
        self.note_protection(seen, plain);
        self.note_login(seen, plain);
    }

    /// Challenge bytes outside CHALLENGED, and a key number there.
    fn note_fleeting(&mut self, seen: &Seen) {
        let (before, number) = (&seen.before.buffer, seen.rule.number());
        if before[STATE_AT] >= CHALLENGED {
            return;
        }
        if before[32..] != [0; 16] {
            self.mark_if(number == 1, Mark::StrayKept);
            self.mark_if(number != 1 && number != 10, Mark::StrayDropped);
        }
        if before[KEY_NUMBER_AT] != 0 {
            self.mark_if(number == 1, Mark::UnusedKeyAt1);
            self.mark_if(number == 10, Mark::UnusedKeyAt10);
            self.mark_if(number != 1 && number != 10, Mark::UnusedKeyDropped);
            self.mark_if(number != 1 && number != 10 && before[KEY_NUMBER_AT] > 2, Mark::UnusedKeyHigh);
        }
    }

    // ---- reading and protection

    fn note_reading(&mut self, seen: &Seen, start: u8, end: u8) {
        let (store, state) = (&seen.before.store, seen.before.record.state);
        if seen.rule.number() != 0 {
            return;
        }
        let hidden = state == State::Active && store[CFG_0] & 1 != 0;
        self.mark_if(wrong_check_byte_in(store, start, end), if hidden { Mark::CheckBytesHidden } else { Mark::CheckBytesRead });
        if start <= 2 && store[CFG_0] & 1 != 0 {
            self.mark(match state {
                State::Active => Mark::SerialHidden,
                State::Traceable => Mark::SerialTraceable,
                _ => Mark::SerialAuthenticated,
            });
        }
        self.mark_if(start == 0 && end == 0x3B, Mark::WholeMemory);
        let keys = store[4 * 0x30..4 * 0x38].iter().any(|&b| b != 0);
        self.mark_if(keys && start <= 0x37 && end >= 0x30, Mark::KeysRead);
        let (prot, above, login) = (store[CFG_1] & 0x80 != 0, end >= auth0(store), state == State::Authenticated);
        self.mark_if(prot && above && login, Mark::ReadAboveAuth0);
        self.mark_if(!prot && above && !login, Mark::ReadOpen);
        self.mark_if(prot && end + 1 == auth0(store) && !login, Mark::ReadBelowAuth0);
    }

    /// A READ that was carried out, and how often its window began again at page 00h.
    fn note_window(&mut self, seen: &Seen, page: u8) {
        let (last, store, state) = (last_readable(seen), &seen.before.store, seen.before.record.state);
        self.read_from[usize::from(page)] += 1;
        if is_limited(seen) {
            self.read_limited[usize::from(page)] += 1;
        }
        let window: Vec<u8> = (0..4).map(|n| (page + n) % (last + 1)).collect();
        let wraps = window[1..].iter().filter(|&&p| p == 0).count();
        self.mark_if(wraps > 0 && !is_limited(seen), Mark::ReadWrapsEnd);
        self.mark_if(wraps > 0 && is_limited(seen), Mark::ReadWrapsAuth0);
        self.mark_if(wraps > 1, Mark::ReadWrapsTwice);
        self.mark_if(window == [0; 4], Mark::ReadOnePage);
        if wraps > 0 && store[CFG_0] & 1 != 0 && store[..9] != [0; 9] {
            self.mark(if state == State::Active { Mark::ReadWrapsHidden } else { Mark::ReadWrapsShown });
        }
    }

    fn note_protection(&mut self, seen: &Seen, plain: &[u8]) {
        let (auth0, number) = (auth0(&seen.before.store), seen.rule.number());
        let login = seen.before.record.state == State::Authenticated;
        match *plain {
            [WRITE, page, ..] => {
                self.mark_if(seen.rule == Rule::WriteProtected && page == auth0, Mark::WriteAtAuth0);
                self.mark_if(number == 0 && page + 1 == auth0 && !login, Mark::WriteBelowAuth0);
                self.mark_if(number == 0 && page >= auth0 && login, Mark::WriteAboveAuth0);
            }
            [READ, page] => self.mark_if(number == 6 && page == auth0, Mark::ReadAtAuth0),
            [FAST_READ, _, end] => self.mark_if(number == 6 && end == auth0, Mark::ReadAtAuth0),
            _ => (),
        }
    }

    // ---- writing

    fn note_write(&mut self, seen: &Seen, page: u8, data: [u8; 4]) {
        self.written[usize::from(page)] += 1;
        let at = 4 * usize::from(page);
        let (old, new) = (&seen.before.store[at..at + 4], &seen.after.store[at..at + 4]);
        match page {
            0x02 => {
                self.mark_if(wrong_check_bits(&seen.before.store)[1] != 0 && data[0] != old[0], Mark::CheckByteKept);
                self.note_lock_bits(seen, data, 0);
            }
            0x28 => self.note_lock_bits(seen, data, 2),
            0x03 => {
                self.mark_if((0..4).any(|i| new[i] & !old[i] != 0), Mark::OtpSet);
                self.mark_if((0..4).any(|i| old[i] & !data[i] != 0), Mark::OtpKept);
            }
            0x29 => self.note_config_0(seen, old, new),
            0x2A => {
                self.mark_if(new[0] & !old[0] & 0x80 != 0, Mark::ProtSet);
                self.mark_if(old[0] & !new[0] & 0x80 != 0, Mark::ProtCleared);
                self.mark_if(new[0] & !old[0] & 0x40 != 0, Mark::ConfigurationLock);
            }
            0x2D => self.note_key_locks(old[0], data[0], new[0]),
            0x30..=0x37 if old != new => {
                let key = usize::from(page >= 0x34);
                self.new_key[key] = true;
                self.mark([Mark::DataProtChanged, Mark::UidRetrChanged][key]);
            }
            _ => (),
        }
    }

    fn note_config_0(&mut self, seen: &Seen, old: &[u8], new: &[u8]) {
        let changed = (old[0] ^ new[0]) & 1 != 0;
        match seen.before.record.state {
            State::Active => self.mark(Mark::RandomIdSame),
            State::Traceable => self.mark_if(changed, Mark::RandomIdTraceable),
            _ => self.mark_if(changed, Mark::RandomIdAuthenticated),
        }
        self.mark_if((old[3] ^ new[3]) & 0x7F != 0, Mark::ProtectionChanged);
    }

    fn note_key_locks(&mut self, old: u8, data: u8, new: u8) {
        let set = new & !old;
        for (bit, mark) in [(0x40, Mark::Key0Lock), (0x80, Mark::Key1Lock), (0x20, Mark::BlockLock)] {
            self.mark_if(set & bit != 0, mark);
        }
        self.mark_if(set & 0xE0 == 0xE0, Mark::AllKeyLocks);
        self.mark_if(old & !data & 0x40 != 0, Mark::Key0LockKept);
        self.mark_if(old & !data & 0x80 != 0, Mark::Key1LockKept);
    }

    /// Page 02h holds lock bytes 0 and 1, page 28h holds 2 to 4.
    fn note_lock_bits(&mut self, seen: &Seen, data: [u8; 4], first: usize) {
        let (mut asked, mut set, mut left_out) = (0, 0, 0);
        let last = if first == 0 { 2 } else { 5 };
        for b in first..last {
            let (at, lock_bits, block_bits) = LOCK_BYTES[b];
            let (old, new, sent) = (seen.before.store[at], seen.after.store[at], data[at % 4] & (lock_bits | block_bits));
            for i in 0..8 {
                self.lock_set[b][i] += u64::from((new & !old) >> i & 1);
                self.lock_frozen[b][i] += u64::from((sent & lock_bits & !new) >> i & 1);
            }
            asked |= sent & !old;
            set |= new & !old;
            left_out |= old & lock_bits & !sent;
        }
        let frozen = asked != 0 && set == 0;
        self.mark_if(frozen, if first == 0 { Mark::AllFrozen } else { Mark::PairsAllFrozen });
        self.mark_if(left_out != 0, if first == 0 { Mark::LockBitKept } else { Mark::PairLockBitKept });
        let old = &seen.before.store[160..164];
        let reserved = (data[1] ^ old[1]) & 0xF0 != 0 && (data[2] ^ old[2]) & 0xC0 != 0 && data[3] != old[3];
        self.mark_if(first == 2 && reserved, Mark::ReservedKept);
    }

    // ---- counters and logins

    fn note_counter_2(&mut self, seen: &Seen, bit: u8, opened: Mark, login: Mark) {
        let (authenticated, enabled) = (seen.before.record.state == State::Authenticated, seen.before.store[CFG_1] & bit != 0);
        self.mark_if(enabled && !authenticated, opened);
        self.mark_if(!enabled && authenticated, login);
    }

    fn note_raise(&mut self, seen: &Seen, number: u8, value: &[u8]) {
        let k = usize::from(number);
        let (old, new) = (seen.before.record.counters[k], seen.after.record.counters[k]);
        self.mark_if(old < COUNTER_MAX && new == COUNTER_MAX, Mark::CounterFull);
        self.mark_if(old == COUNTER_MAX, Mark::CounterStaysFull);
        self.mark_if(value[3] != 0, Mark::FourthByte);
        if number == 2 {
            self.note_counter_2(seen, 0x08, Mark::Counter2Raised, Mark::Counter2RaisedByLogin);
        }
    }

    fn note_login(&mut self, seen: &Seen, plain: &[u8]) {
        let (state, number) = (seen.before.record.state, seen.rule.number());
        if number == 0 && matches!(state, State::Traceable | State::Authenticated) {
            self.mark_if(matches!(seen.after.record.state, State::Challenged(_)), Mark::LoginLeft);
        }
        let (State::Challenged(key), Some(&PROOF)) = (state, plain.first()) else { return };
        let limit = u16::from_le_bytes([seen.before.store[CFG_1 + 2], seen.before.store[CFG_1 + 3] & 3]);
        let (old, new) = (seen.before.record.failed, seen.after.record.failed);
        let below = limit != 0 && old < limit;
        match number {
            0 => self.note_right_proof(seen, key, old, new),
            2 => self.mark_if(below, Mark::DamagedProof),
            4 => self.mark_if(below, Mark::ProofWrongLength),
            8 => {
                self.mark_if(new != old && new == limit, Mark::CountAtLimit);
                self.mark_if(new != old && new == 1023, Mark::CountTop);
            }
            _ => (),
        }
    }

    fn note_right_proof(&mut self, seen: &Seen, key: u8, old: u16, new: u16) {
        self.mark_if(old > 16 && new + 16 == old, Mark::CountLowered);
        self.mark_if((1..=16).contains(&old) && new == 0, Mark::CountReset);
        self.mark_if(old != 0 && old == new, Mark::CountKept);
        self.mark([Mark::LoginDataProt, Mark::LoginUidRetr, Mark::LoginOriginality][usize::from(key)]);
        let locks = seen.before.store[LOCK_KEYS];
        self.mark_if(key == 0 && locks & 0x40 != 0 || key == 1 && locks & 0x80 != 0, Mark::LoginLockedKey);
        self.mark_if(key == 0 && self.new_key[0], Mark::LoginNewDataProt);
        self.mark_if(key == 1 && self.new_key[1], Mark::LoginNewUidRetr);
    }

    // ---- tables

    fn pages(&self) -> Table {
        let mut table = Table::new("Pages");
        let cells = |counts: &[u64; 64], pages: Vec<usize>| -> Vec<(String, u64)> {
            pages.into_iter().map(|page| (format!("{page:02x}"), counts[page])).collect()
        };
        let lockable = (0x03..0x28).chain([0x29, 0x2A, 0x2D]).chain(0x30..0x38).collect();
        table.line("WRITE carried out", cells(&self.written, (2..PAGES).collect()));
        table.line("WRITE refused by 6", cells(&self.protected, (2..PAGES).collect()));
        table.line("WRITE refused by 7", cells(&self.locked, lockable));
        table.line("READ from", cells(&self.read_from, (0..PAGES).collect()));
        table.line("READ below AUTH0 under PROT from", cells(&self.read_limited, (0..0x3B).collect()));
        table.line("READ refused by 6", cells(&self.read_refused, (0..PAGES).collect()));
        table.line("FAST_READ from", cells(&self.fast_from, (0..PAGES).collect()));
        table.line("FAST_READ to", cells(&self.fast_to, (0..PAGES).collect()));
        table
    }

    fn locks(&self) -> Table {
        let mut table = Table::new("Lock bits");
        for (b, (_, lock_bits, block_bits)) in LOCK_BYTES.into_iter().enumerate() {
            let bits = |mask: u8, counts: [u64; 8]| (0..8).filter(move |i| mask >> i & 1 != 0).map(move |i| (format!("bit {i}"), counts[i]));
            table.line(format!("lock byte {b}, set by a WRITE"), bits(lock_bits | block_bits, self.lock_set[b]));
            table.line(format!("lock byte {b}, kept clear by a block bit"), bits(lock_bits, self.lock_frozen[b]));
        }
        table
    }

    fn lengths(&self) -> Table {
        let mut table = Table::new("Lengths");
        let lens = |counts: [u64; FRAME_LENS], from: usize, to: usize| (from..to).map(move |len| (len.to_string(), counts[len]));
        table.line("frames, selected, CRC not wrong", lens(self.lens_right, 0, FRAME_LENS));
        table.line("frames, selected, CRC wrong", lens(self.lens_wrong, 3, 65));
        for (call, counts) in ["Power", "Select", "Load", "Save", "Frame"].iter().zip(self.record_lens) {
            table.line(format!("record buffer, {call}"), ODD_RECORD_LENS.iter().zip(counts).map(|(len, n)| (len.to_string(), n)));
        }
        table.line("image files", IMAGE_LENS.iter().zip(self.image_lens).map(|(len, n)| (len.to_string(), n)));
        table
    }

    fn check_bytes(&self) -> Table {
        let mut table = Table::new("Images refused for one bit");
        for (name, counts) in ["BCC0", "BCC1"].iter().zip(self.check_bits) {
            table.line(*name, (0..8).map(|i| (format!("bit {i}"), counts[i])));
        }
        table
    }

    fn records(&self) -> Table {
        let mut table = Table::new("Records");
        for (call, counts) in ["Power", "Select", "Load", "Save"].iter().zip(self.states) {
            table.line(format!("{call} in state"), STATES.iter().zip(counts).map(|(state, n)| (state.to_string(), n)));
        }
        for (call, counts) in ["Save", "Frame"].iter().zip(self.high_counters) {
            table.line(format!("{call} with a counter above FFFFFFh"), (0..3).map(|k| (format!("counter {k}"), counts[k])));
        }
        table
    }

    pub fn tables(&self) -> Vec<Table> {
        let mut table = Table::new("Effects");
        for (words, &count) in MARKS.iter().zip(&self.marks) {
            table.line(*words, [(String::new(), count)]);
        }
        vec![self.pages(), self.locks(), self.lengths(), self.check_bytes(), self.records(), table]
    }
}

fn auth0(store: &[u8]) -> u8 {
    store[CFG_0 + 3] & 0x7F
}

/// Whether AUTH0 bars pages from reading: under PROT, without the login that opens them.
fn is_limited(seen: &Seen) -> bool {
    let store = &seen.before.store;
    store[CFG_1] & 0x80 != 0 && seen.before.record.state != State::Authenticated && usize::from(auth0(store)) < PAGES
}

/// The last page that READ may give, where it was carried out.
fn last_readable(seen: &Seen) -> u8 {
    if is_limited(seen) { auth0(&seen.before.store).saturating_sub(1) } else { PAGES as u8 - 1 }
}

/// Whether a check byte in these pages is not the serial number's.
fn wrong_check_byte_in(store: &[u8], start: u8, end: u8) -> bool {
    let wrong = wrong_check_bits(store);
    (0..2).any(|i| wrong[i] != 0 && (start..=end).contains(&(CHECK_BYTES_AT[i] as u8 / 4)))
}
