//! Unit tests: `rustc --test --edition 2021 -O tests.rs`. Section and table numbers are those of 009 unless a paper is named.

#![forbid(unsafe_code)]

#[allow(dead_code)]
#[path = "lib.rs"]
mod rust_tag;

use rust_tag::aes::{Aes128, Block};
use rust_tag::bench;
use rust_tag::c_form::{self, buffer_of, record_of, RECORD_LEN};
use rust_tag::crc::crc_a;
use rust_tag::rules::Rule;
use rust_tag::tag::*;

fn hex(digits: &str) -> Vec<u8> {
    let digits: Vec<u8> = digits.bytes().filter(|c| !c.is_ascii_whitespace()).collect();
    digits.chunks(2).map(|pair| u8::from_str_radix(std::str::from_utf8(pair).unwrap(), 16).unwrap()).collect()
}

fn block(digits: &str) -> Block {
    hex(digits).try_into().unwrap()
}

fn with_crc(plain: &[u8]) -> Vec<u8> {
    [plain, &crc_a(plain)].concat()
}

// ---- AES

#[test]
fn fips_197_appendix_b_and_c1() {
    let rows = [
        ("2b7e151628aed2a6abf7158809cf4f3c", "3243f6a8885a308d313198a2e0370734", "3925841d02dc09fbdc118597196a0b32"),
        ("000102030405060708090a0b0c0d0e0f", "00112233445566778899aabbccddeeff", "69c4e0d86a7b0430d8cdb78070b4c55a"),
    ];
    for (key, text, cipher) in rows {
        let aes = Aes128::new(&block(key));
        assert_eq!(aes.encrypt(&block(text)), block(cipher));
        assert_eq!(aes.decrypt(&block(cipher)), block(text));
    }
}

const SP_KEY: &str = "2b7e151628aed2a6abf7158809cf4f3c";
const SP_TEXT: &str = "6bc1bee22e409f96e93d7e117393172a ae2d8a571e03ac9c9eb76fac45af8e51
                       30c81c46a35ce411e5fbc1191a0a52ef f69f2445df4f9b17ad2b417be66c3710";

#[test]
fn sp_800_38a_f11_ecb() {
    let aes = Aes128::new(&block(SP_KEY));
    let cipher = hex("3ad77bb40d7a3660a89ecaf32466ef97 f5d3d58503b9699de785895a96fdbaaf
                      43b1cd7f598ece23881b00e3ed030688 7b0c785e27e8ad3f8223207104725dd4");
    for (t, c) in hex(SP_TEXT).chunks(16).zip(cipher.chunks(16)) {
        assert_eq!(aes.encrypt(t.try_into().unwrap()), c);
        assert_eq!(aes.decrypt(c.try_into().unwrap()), t);
    }
}

#[test]
fn sp_800_38a_f21_and_f22_cbc() {
    let aes = Aes128::new(&block(SP_KEY));
    let iv = block("000102030405060708090a0b0c0d0e0f");
    let cipher = hex("7649abac8119b246cee98e9b12e9197d 5086cb9b507219ee95db113a917678b2
                      73bed6b8e3c1743b7116e69e22229516 3ff1caa1681fac09120eca307586e1a7");
    let mut data = hex(SP_TEXT);
    aes.cbc_encrypt(&iv, &mut data);
    assert_eq!(data, cipher);
    aes.cbc_decrypt(&iv, &mut data);
    assert_eq!(data, hex(SP_TEXT));
}

#[test]
fn deciphering_undoes_enciphering() {
    let mut text = [7; 16];
    for i in 0..500u16 {
        let aes = Aes128::new(&std::array::from_fn(|j| (i as usize * 31 + j * 17) as u8));
        let cipher = aes.encrypt(&text);
        assert_eq!(aes.decrypt(&cipher), text);
        text = cipher;
    }
}

// ---- CRC_A (ISO/IEC 14443-3 Annex B, docs/DATASHEET.md section 18)

#[test]
fn crc_a_examples() {
    let rows = [("", "6363"), ("0000", "a01e"), ("1234", "26cf"), ("3000", "02a8"), ("3900", "1a7f"), ("5000", "57cd"), ("a50001000000", "4dbf")];
    for (bytes, crc) in rows {
        assert_eq!(crc_a(&hex(bytes)).to_vec(), hex(crc), "{bytes}");
    }
}

// ---- a tag for the cases

#[derive(Clone)]
struct Rig {
    record: Record,
    store: Vec<u8>,
    reply: Vec<u8>,
    random: Vec<u8>,
}

impl Rig {
    /// No protection and no locks (D37), ACTIVE.
    fn new() -> Rig {
        let mut store = vec![0; STORE_LEN];
        store[..9].copy_from_slice(&hex("04112233445566778899")[..9]);
        store[3] = 0x88 ^ store[0] ^ store[1] ^ store[2];
        store[8] = store[4] ^ store[5] ^ store[6] ^ store[7];
        store[4 * 0x29 + 3] = 0x3C;
        store[4 * 0x2A] = 0x0C;
        Rig { record: select(Record::ZERO).record, store, reply: vec![0x5A; 300], random: vec![0; 16] }
    }

    fn put(mut self, page: usize, bytes: &str) -> Rig {
        let bytes = hex(bytes);
        self.store[4 * page..4 * page + bytes.len()].copy_from_slice(&bytes);
        self
    }

    /// Sends a frame as it is. In every case no byte behind the reply is written; silence and nibbles write none.
    fn raw(&mut self, frame_bytes: &[u8]) -> Answer {
        self.reply.fill(0x5A);
        let answer = frame(self.record, &mut self.store, frame_bytes, &self.random, &mut self.reply);
        let written = if let Reply::Bytes(len) = answer.reply { len } else { 0 };
        assert!(self.reply[written..].iter().all(|&b| b == 0x5A), "bytes behind the reply were written");
        self.record = answer.record;
        answer
    }

    fn send(&mut self, plain: &str) -> Answer {
        self.raw(&with_crc(&hex(plain)))
    }

    fn number(&mut self, plain: &str) -> u8 {
        self.send(plain).number
    }

    /// The data of a reply, after checking its CRC.
    fn data(&mut self, plain: &str) -> Vec<u8> {
        let Reply::Bytes(len) = self.send(plain).reply else { panic!("no data for {plain}") };
        assert_eq!(self.reply[len - 2..len], crc_a(&self.reply[..len - 2]));
        self.reply[..len - 2].to_vec()
    }

    fn select(&mut self) {
        self.record = select(self.record).record;
    }

    fn page(&self, page: usize) -> &[u8] {
        &self.store[4 * page..4 * page + 4]
    }

    /// Logs in with a key of zero bytes: RndA and the rotated challenge enciphered.
    fn proof(&self, key: Block, turn: usize) -> String {
        let mut text = [[9; 16].to_vec(), self.record.challenge.to_vec()].concat();
        text[16..].rotate_left(turn);
        Aes128::new(&key).cbc_encrypt(&[0; 16], &mut text);
        "af".to_string() + &text.iter().map(|b| format!("{b:02x}")).collect::<String>()
    }

    fn login(&mut self, number: u8) -> u8 {
        self.random = (1..17).collect();
        assert_eq!(self.number(&format!("1a{number:02x}")), 0);
        let proof = self.proof([0; 16], 1);
        self.number(&proof)
    }
}

// ---- document 01's starred cases

#[test]
fn starred_frames_and_reading() {
    assert_eq!(Rig::new().raw(&[]).number, 2);
    let mut waiting = Rig::new();
    waiting.record = power(waiting.record).record;
    assert_eq!(waiting.raw(&[0]).number, 1);
    assert_eq!(Rig::new().number("3038"), 0);
    assert_eq!(Rig::new().number("3039"), 0);
    assert_eq!(Rig::new().number("3a0504"), 5);
    assert_eq!(Rig::new().data("3a3b3b"), [0; 4]);
}

#[test]
fn starred_writing() {
    assert_eq!(Rig::new().number("a20100000000"), 5);
    let mut otp = Rig::new().put(3, "0f000000");
    assert_eq!(otp.number("a203f0000000"), 0);
    assert_eq!(otp.page(3), hex("ff000000"));
    let mut frozen = Rig::new().put(2, "88990100");
    assert_eq!(frozen.number("a20200000800"), 0);
    assert_eq!(frozen.page(2), hex("88990100"));
    let mut open = Rig::new().put(2, "88990000");
    assert_eq!(open.number("a20200000900"), 0);
    assert_eq!(open.page(2), hex("88990900"));
    assert_eq!(Rig::new().put(2, "88990800").number("a20300000000"), 7);
}

#[test]
fn starred_counters_and_protection() {
    let mut low = Rig::new();
    low.record.counters[0] = 0xFFFFFE;
    let mut high = low.clone();
    assert_eq!(low.number("a50001000000"), 0);
    assert_eq!(low.record.counters[0], 0xFFFFFF);
    assert_eq!(high.send("a50002000000").reply, Reply::Nibble(4));
    assert_eq!(high.record.counters[0], 0xFFFFFE);
    assert_eq!(Rig::new().put(0x29, "00000004").number("a20400000000"), 6);
    assert_eq!(Rig::new().put(0x29, "00000004").number("a20300000000"), 0);
}

// ---- authentication

#[test]
fn table_17_in_full() {
    let mut rig = Rig::new();
    rig.random = hex("1AE4174CA173EBBC59165CEBE2F20821");
    assert_eq!(with_crc(&hex("1a00")), hex("1A004176"));
    assert_eq!(rig.data("1a00"), hex("AFD5A847B84862FF3874A7F07B8DDF351B"));
    assert_eq!(rig.record.state, State::Challenged(0));
    let step_3 = "AFCDF22C5F7A92F0AF0155612B9B236AC7A424BC5238D41AD041B8165B7D99E524";
    assert_eq!(with_crc(&hex(step_3))[33..], hex("334A"));
    assert_eq!(rig.data(step_3), hex("002C743D6B1E128F8076BD197B76012CE8"));
    assert_eq!(rig.record.state, State::Authenticated);
    assert_eq!(rig.record.challenge, [0; 16]);
    let aes = Aes128::new(&[0; 16]);
    let mut text = hex(&step_3[2..]);
    aes.cbc_decrypt(&[0; 16], &mut text);
    assert_eq!(text, hex("F29B0123F5C00DF612487BBF42468C7EE4174CA173EBBC59165CEBE2F208211A"));
    assert_eq!(aes.decrypt(&block("2C743D6B1E128F8076BD197B76012CE8")), block("9B0123F5C00DF612487BBF42468C7EF2"));
}

#[test]
fn keys_and_their_states() {
    for (number, state) in [(0, State::Authenticated), (1, State::Traceable), (2, State::Active)] {
        let mut rig = Rig::new();
        assert_eq!(rig.login(number), 0);
        assert_eq!(rig.record.state, state);
    }
    assert_eq!(Rig::new().number("1a03"), 5);
}

#[test]
fn a_key_lies_reversed_in_its_pages() {
    let mut rig = Rig::new();
    for line in ["a2300f0e0d0c", "a2310b0a0908", "a23207060504", "a23303020100"] {
        assert_eq!(rig.number(line), 0);
    }
    assert_eq!(rig.number("1a00"), 0);
    let proof = rig.proof(block("000102030405060708090A0B0C0D0E0F"), 1);
    assert_eq!(rig.number(&proof), 0);
    assert_eq!(rig.data("3030"), [0; 16]);
}

#[test]
fn failed_count_by_8_6_5() {
    for (limit, failed, right, number, after) in [
        ("0000", 5, false, 8, 5), ("0000", 5, true, 0, 5), ("0a00", 5, false, 8, 6), ("0a00", 5, true, 0, 0),
        ("ffff", 1022, false, 8, 1023), ("ff03", 17, true, 0, 1), ("ff03", 16, true, 0, 0),
    ] {
        let mut rig = Rig::new().put(0x2A, &format!("0c05{limit}"));
        rig.record.failed = failed;
        rig.random = (1..17).collect();
        assert_eq!(rig.number("1a02"), 0);
        let proof = rig.proof([0; 16], if right { 1 } else { 2 });
        assert_eq!(rig.number(&proof), number, "{limit} {failed} {right}");
        assert_eq!(rig.record.failed, after, "{limit} {failed} {right}");
        assert_eq!(rig.record.state, if right { State::Active } else { State::Waiting });
    }
}

#[test]
fn limit_reached_is_11_at_both_parts() {
    let mut rig = Rig::new().put(0x2A, "0c050500");
    rig.record.failed = 5;
    let mut bad_key = rig.clone();
    assert_eq!(rig.send("1a00").reply, Reply::Nibble(4));
    assert_eq!(bad_key.number("1a03"), 5);
    let mut second = Rig::new().put(0x2A, "0c050500");
    assert_eq!(second.number("1a00"), 0);
    second.record.failed = 5;
    let proof = second.proof([0; 16], 1);
    assert_eq!(second.number(&proof), 11);
    assert_eq!((second.record.failed, second.record.state), (5, State::Waiting));
}

#[test]
fn only_afh_while_challenged() {
    let false_proof = "af".repeat(33);
    assert_eq!(Rig::new().number(&false_proof), 3);
    for (plain, number) in [("3000", 3), ("5000", 3), ("1a00", 3), ("30", 3), ("af", 4), (&false_proof, 8), (&"af".repeat(34), 4)] {
        let mut rig = Rig::new().put(0x2A, "0c050500");
        assert_eq!(rig.number("1a00"), 0);
        assert_eq!(rig.number(plain), number, "{plain}");
        assert_eq!(rig.record.failed, u16::from(number == 8));
        assert_eq!(rig.record.challenge, [0; 16]);
    }
}

// ---- checks, their order and nibbles

#[test]
fn numbers_2_to_5() {
    let mut rig = Rig::new();
    assert_eq!(rig.raw(&hex("300002a9")).reply, Reply::Nibble(1));
    assert_eq!(rig.number("3000"), 1);
    for (plain, number) in [
        ("60", 3), ("af", 3), ("30", 4), ("300000", 4), ("3a00", 4), ("a2", 4), ("a500010000", 4), ("50", 4), ("5001", 5), ("3903", 5), ("a50301000000", 5),
        ("3a003c", 5), ("3a3c3c", 5), ("a23c00000000", 5), ("a20000000000", 5),
    ] {
        let mut rig = Rig::new();
        let before = rig.store.clone();
        assert_eq!(rig.send(plain).reply, Reply::Nibble(0), "{plain}");
        rig.select();
        assert_eq!(rig.number(plain), number, "{plain}");
        assert_eq!((rig.record.state, rig.store), (State::Waiting, before));
    }
    let long = vec![0x30; 63];
    assert_eq!(Rig::new().raw(&with_crc(&long)).number, 2);
    assert_eq!(Rig::new().raw(&with_crc(&long[1..])).number, 4);
}

#[test]
fn halt_is_silent() {
    let mut rig = Rig::new();
    let answer = rig.send("5000");
    assert_eq!((answer.number, answer.reply, answer.record.state), (0, Reply::Silence, State::Waiting));
}

#[test]
fn number_10_changes_nothing() {
    let good = Rig::new();
    let spoils: [fn(&mut Rig); 9] = [
        |r| r.store.truncate(239),
        |r| r.store.push(0),
        |r| r.reply.truncate(241),
        |r| r.random.truncate(15),
        |r| r.record.counters[2] = 0x1000000,
        |r| r.record.failed = 1024,
        |r| r.record.state = State::Unknown(9),
        |r| r.record.state = State::Challenged(3),
        |r| r.random.push(0),
    ];
    for (i, spoil) in spoils.iter().enumerate() {
        let mut rig = good.clone();
        rig.record.challenge = [3; 16];
        spoil(&mut rig);
        let before = rig.clone();
        let answer = rig.send("a20401020304");
        assert_eq!((answer.number, answer.reply, answer.record), (10, Reply::Silence, before.record), "spoil {i}");
        assert_eq!((&rig.store, &rig.reply), (&before.store, &before.reply));
        assert_eq!((power(before.record).number, power(before.record).reply), (0, Reply::Silence));
        assert_eq!(power(before.record), power(answer.record));
        assert_eq!(power(before.record).record.challenge, [0; 16]);
    }
}

#[test]
fn number_1_keeps_stray_challenge_bytes_and_others_drop_them() {
    let mut rig = Rig::new();
    rig.record.challenge = [3; 16];
    let mut waiting = rig.clone();
    waiting.record.state = State::Waiting;
    assert_eq!(waiting.send("3000").record, waiting.record);
    assert_eq!(waiting.record.challenge, [3; 16]);
    assert_eq!(rig.send("3000").record.challenge, [0; 16]);
}

// ---- pages

#[test]
fn random_id_hides_nine_bytes_in_active() {
    let mut rig = Rig::new().put(0x29, "01");
    let shown = rig.store[..16].to_vec();
    let hidden = [vec![0; 9], shown[9..].to_vec()].concat();
    assert_eq!(rig.data("3000"), hidden);
    assert_eq!(rig.data("3a0202"), hidden[8..12]);
    assert_eq!(rig.number("a2290000003c"), 6);
    rig.select();
    assert_eq!(rig.number("a2290100003c"), 0);
    assert_eq!(rig.login(1), 0);
    assert_eq!(rig.data("3000"), shown);
    assert_eq!(rig.number("a2290000003c"), 0);
}

#[test]
fn protection_of_reading() {
    let mut rig = Rig::new().put(0x29, "00000010").put(0x2A, "8c");
    assert_eq!(rig.number("300c"), 0);
    assert_eq!(rig.number("300d"), 0);
    assert_eq!(rig.number("3a0d10"), 6);
    rig.select();
    assert_eq!(rig.number("3010"), 6);
    rig.select();
    assert_eq!(rig.login(0), 0);
    assert_eq!(rig.number("3010"), 0);
    let mut bit_7 = Rig::new().put(0x29, "000000bc").put(0x2A, "8c");
    assert_eq!(bit_7.number("3a003b"), 0);
}

/// A tag whose pages but the settings and keys have their number in each byte, under PROT with this AUTH0.
fn numbered(config_0: &str) -> Rig {
    let pages = (0..0x28).chain([0x2B, 0x2C]).chain(0x38..0x3C);
    let rig = pages.fold(Rig::new(), |rig, page| rig.put(page, &format!("{page:02x}").repeat(4)));
    rig.put(0x29, config_0).put(0x2A, "8c")
}

/// The first bytes of the four pages that a READ gives.
fn window(rig: &mut Rig, plain: &str) -> Vec<u8> {
    let data = rig.data(plain);
    assert!(data.len() == 16 && data.chunks(4).all(|page| page.iter().all(|&b| b == page[0])), "{plain}");
    data.iter().copied().step_by(4).collect()
}

#[test]
fn read_continues_behind_the_last_page() {
    let mut rig = numbered("0000003c");
    assert_eq!(window(&mut rig, "3038"), [0x38, 0x39, 0x3A, 0x3B]);
    assert_eq!(window(&mut rig, "3039"), [0x39, 0x3A, 0x3B, 0]);
    assert_eq!(window(&mut rig, "303a"), [0x3A, 0x3B, 0, 1]);
    assert_eq!(window(&mut rig, "303b"), [0x3B, 0, 1, 2]);
    assert_eq!(rig.number("303c"), 5);
}

#[test]
fn read_continues_before_auth0() {
    let windows = [("3000", [0, 1, 2, 3]), ("3001", [1, 2, 3, 0]), ("3002", [2, 3, 0, 1]), ("3003", [3, 0, 1, 2])];
    let mut rig = numbered("00000004");
    for (plain, pages) in windows {
        assert_eq!(window(&mut rig, plain), pages, "{plain}");
    }
    assert_eq!(rig.number("3004"), 6);
    rig.select();
    assert_eq!(rig.login(0), 0);
    assert_eq!(window(&mut rig, "3003"), [3, 4, 5, 6]);
    assert_eq!(window(&mut rig, "3004"), [4, 5, 6, 7]);
    assert_eq!(window(&mut rig, "303b"), [0x3B, 0, 1, 2]);
    let mut open = numbered("00000004").put(0x2A, "0c");
    assert_eq!(window(&mut open, "3003"), [3, 4, 5, 6]);
}

#[test]
fn read_continues_more_than_once() {
    assert_eq!(window(&mut numbered("00000002"), "3001"), [1, 0, 1, 0]);
    assert_eq!(window(&mut numbered("00000001"), "3000"), [0; 4]);
    assert_eq!(numbered("00000000").number("3000"), 6);
    assert_eq!(numbered("00000000").number("303c"), 5);
}

#[test]
fn hidden_bytes_behind_the_last_page() {
    let mut rig = numbered("01000004");
    assert_eq!(rig.data("3003"), hex("03030303000000000000000000020202"));
    assert_eq!(rig.login(1), 0);
    assert_eq!(window(&mut rig, "3003"), [3, 0, 1, 2]);
    assert_eq!(numbered("00000038").put(0x34, "11111111111111111111111111111111").data("3036")[..8], [0; 8]);
}

#[test]
fn dynamic_lock_bytes() {
    let mut rig = Rig::new().put(0x28, "00f0c177");
    assert_eq!(rig.number("a228ffffffff"), 0);
    assert_eq!(rig.page(0x28), hex("fcffff77"));
    assert_eq!(rig.number("a21300000000"), 0);
    assert_eq!(rig.number("a21400000000"), 7);
    rig.select();
    assert_eq!(rig.number("a22700000000"), 7);
}

#[test]
fn configuration_locks() {
    let mut cfg = Rig::new().put(0x2A, "4c");
    for (plain, number) in [("a2290000003c", 7), ("a22a00000000", 7), ("a22b01020304", 0), ("a22d40010203", 0), ("a23000000000", 7), ("a23400000000", 0)] {
        cfg.select();
        assert_eq!(cfg.number(plain), number, "{plain}");
    }
    assert_eq!(cfg.number("a22d80010203"), 0);
    assert_eq!(cfg.page(0x2D), hex("c0010203"));
    assert_eq!(cfg.number("a22d3f000000"), 0);
    assert_eq!(cfg.page(0x2D), hex("ff000000"));
    assert_eq!(cfg.number("a22dff000000"), 7);
    let mut random_id = Rig::new().put(0x2A, "4c");
    assert_eq!(random_id.number("a2290100003c"), 6);
}

#[test]
fn counter_2_by_its_settings() {
    for (bits, reading, raising) in [("00", 6, 6), ("04", 0, 6), ("08", 6, 0), ("0c", 0, 0)] {
        let mut rig = Rig::new().put(0x2A, bits);
        rig.record.counters[2] = COUNTER_TOP;
        assert_eq!(rig.number("3902"), reading);
        rig.select();
        assert_eq!(rig.number("a502000000ff"), raising);
        rig.select();
        assert_eq!(rig.number("a50201000000"), if raising == 0 { 9 } else { 6 });
    }
}

const COUNTER_TOP: u32 = 0xFFFFFF;

// ---- why a WRITE was refused (request E6)

/// The number and the reason that the C form answers. Beside them a refusal has a NAK of its number, whatever the reason.
fn why(rig: &Rig, plain: &str) -> (u8, u8) {
    let (mut record, mut store, mut reply) = (buffer_of(&rig.record), rig.store.clone(), rig.reply.clone());
    let answer = c_form::frame(&mut record, &mut store, &with_crc(&hex(plain)), &rig.random, &mut reply);
    let (number, reason) = (answer as u8, (answer >> 24) as u8);
    if reason != 0 {
        assert_eq!(answer, 1 << 8 | u64::from(reason) << 24 | u64::from(number), "{plain}");
        assert_eq!(store, rig.store, "{plain}");
    }
    (number, reason)
}

fn auth0(page: &str) -> Rig {
    Rig::new().put(0x29, &format!("000000{page}"))
}

/// A tag with every lock set, and Random ID off.
fn all_locked(auth0: &str) -> Rig {
    Rig::new().put(2, "8899f8ff").put(0x28, "ff0f0000").put(0x29, &format!("000000{auth0}")).put(0x2A, "4c").put(0x2D, "e0")
}

#[test]
fn each_rule_is_told() {
    let rows = [
        (auth0("04"), "a20400000000", (6, 1)),
        (auth0("00"), "a20200000100", (6, 1)),
        (Rig::new(), "a2290100003c", (6, 2)),
        (Rig::new().put(0x29, "01"), "a2290000003c", (6, 2)),
        (Rig::new().put(2, "88990800"), "a20300000000", (7, 3)),
        (Rig::new().put(2, "88990080"), "a20f00000000", (7, 3)),
        (Rig::new().put(0x28, "01"), "a21100000000", (7, 4)),
        (Rig::new().put(0x28, "0008"), "a22600000000", (7, 4)),
        (Rig::new().put(0x2D, "40"), "a23000000000", (7, 5)),
        (Rig::new().put(0x2D, "80"), "a23700000000", (7, 5)),
        (Rig::new().put(0x2D, "20"), "a22d00000000", (7, 5)),
        (Rig::new().put(0x2A, "4c"), "a2290000003c", (7, 6)),
        (Rig::new().put(0x2A, "4c"), "a22a00000000", (7, 6)),
    ];
    for (rig, plain, answer) in rows {
        assert_eq!(why(&rig, plain), answer, "{plain}");
    }
}

/// The locked pages, one or more of each kind, and the reason where AUTH0 does not bar them.
const LOCKED: [(&str, u8); 10] = [
    ("a20300000000", 3), ("a20f00000000", 3), ("a21000000000", 4), ("a22700000000", 4), ("a22d00000000", 5), ("a23000000000", 5),
    ("a23700000000", 5), ("a22900000000", 6), ("a22a00000000", 6), ("a22a4c000000", 6),
];

#[test]
fn auth0_is_told_before_each_lock() {
    for (plain, lock) in LOCKED {
        assert_eq!(why(&all_locked("3c"), plain), (7, lock), "{plain}");
        assert_eq!(why(&all_locked("00"), plain), (6, 1), "{plain}");
        let mut login = all_locked("00");
        assert_eq!(login.login(0), 0);
        assert_eq!(why(&login, plain), (7, lock), "{plain}");
    }
}

/// All three rules of page 29h: each with each, and AUTH0 and Random ID away one after the other.
#[test]
fn the_first_of_three_rules_is_told() {
    let random_id = "a22901000029";
    assert_eq!(why(&all_locked("29"), random_id), (6, 1));
    assert_eq!(why(&auth0("29"), random_id), (6, 1));
    assert_eq!(why(&all_locked("2a"), random_id), (6, 2));
    assert_eq!(why(&all_locked("2a"), "a22900000029"), (7, 6));
    let mut traceable = all_locked("29");
    assert_eq!(traceable.login(1), 0);
    assert_eq!(why(&traceable, random_id), (6, 1));
    let mut unprotected = all_locked("2a");
    assert_eq!(unprotected.login(1), 0);
    assert_eq!(why(&unprotected, random_id), (7, 6));
}

/// On a tag where each WRITE is barred, and reading and counter 2 too.
#[test]
fn other_answers_have_no_reason() {
    let closed = all_locked("00").put(0x2A, "c0050500");
    for (plain, number) in [
        ("3004", 6), ("3a0404", 6), ("3902", 6), ("a50201000000", 6), ("a20000000000", 5), ("a20100000000", 5), ("a23c00000000", 5), ("a2ff00000000", 5),
        ("303c", 5), ("a20400", 4), ("a2", 4), ("af", 3), ("3900", 0), ("a50001000000", 0), ("1a00", 0), ("5000", 0),
    ] {
        assert_eq!(why(&closed, plain), (number, 0), "{plain}");
    }
    let mut login = closed.clone();
    assert_eq!(login.login(0), 0);
    assert_eq!(why(&login, "a22800000000"), (0, 0));
    let (mut limit, mut full, mut waiting, mut short) = (closed.clone(), closed.clone(), closed.clone(), closed.clone());
    limit.record.failed = 5;
    assert_eq!(why(&limit, "1a00"), (11, 0));
    full.record.counters[0] = COUNTER_TOP;
    assert_eq!(why(&full, "a50001000000"), (9, 0));
    waiting.record.state = State::Waiting;
    assert_eq!(why(&waiting, "a20400000000"), (1, 0));
    short.store.pop();
    assert_eq!(why(&short, "a20400000000"), (10, 0));
    let mut challenged = closed;
    assert_eq!(challenged.number("1a00"), 0);
    assert_eq!(why(&challenged, "a20400000000"), (3, 0));
    assert_eq!(why(&challenged, &"af".repeat(33)), (8, 0));
}

/// The reason belongs to one answer: the record is that of any refusal, and the next frame is 1 without one.
#[test]
fn no_reason_is_kept() {
    let mut rig = all_locked("3c");
    let mut other = rig.clone();
    assert_eq!(rig.send("a20400000000").rule.reason(), 3);
    assert_eq!(other.send("a20000000000").rule.reason(), 0);
    assert_eq!(buffer_of(&rig.record), buffer_of(&other.record));
    assert_eq!(why(&rig, "a20400000000"), (1, 0));
    rig.select();
    assert_eq!(why(&rig, "a21000000000"), (7, 4));
}

#[test]
fn reasons_go_with_6_and_7() {
    for place in 1..=6 {
        let number = if place <= 2 { 6 } else { 7 };
        assert!(Rule::ALL.iter().any(|rule| rule.reason() == place), "{place}");
        assert!(Rule::ALL.iter().filter(|rule| rule.reason() == place).all(|rule| rule.number() == number), "{place}");
    }
    let without = Rule::ALL.iter().filter(|rule| rule.number() == 7 && rule.reason() == 0).count();
    assert_eq!((without, Rule::ALL.iter().filter(|rule| rule.reason() > 6).count()), (0, 0));
}

// ---- image

fn sample_image() -> Vec<u8> {
    let rig = Rig::new();
    let mut image = vec![0xEE; 280];
    let record = Record { counters: [10, 0x010203, COUNTER_TOP], failed: 1023, originality_key: [7; 16], ..Record::ZERO };
    assert_eq!(save(&record, &rig.store, &mut image), 0);
    assert_eq!(image[271..], [0xEE; 9]);
    image.truncate(271);
    image
}

#[test]
fn image_round_trip() {
    let image = sample_image();
    assert_eq!(image[241..255], hex("030a0000030201ffffff01ff0301"));
    let mut store = vec![0; 240];
    let (number, record) = load(&image, &mut store);
    assert_eq!((number, record.state, record.counters[1]), (0, State::Waiting, 0x010203));
    let mut again = vec![0; 271];
    assert_eq!(save(&record, &store, &mut again), 0);
    assert_eq!(again, image);
}

#[test]
fn refused_images() {
    let image = sample_image();
    let spoils: [fn(&mut Vec<u8>); 7] = [
        |i| i.push(0), |i| i.truncate(270), |i| i[0] = 59, |i| i[241] = 2, |i| i[251] = 0, |i| i[254] = 2, |i| i[253] = 4,
    ];
    for spoil in spoils {
        let mut wrong = image.clone();
        spoil(&mut wrong);
        let mut store = vec![9; 240];
        assert_eq!(load(&wrong, &mut store), (12, Record::ZERO));
        assert_eq!(store, vec![9; 240]);
        assert_eq!(load(&wrong, &mut [9; 239]), (10, Record::ZERO));
    }
    let mut short = [1; 270];
    assert_eq!(save(&Record::ZERO, &[0; 240], &mut short), 10);
    assert_eq!(save(&Record::ZERO, &[0; 241], &mut [0; 271]), 10);
    assert_eq!(save(&Record { failed: 1024, ..Record::ZERO }, &[0; 240], &mut [0; 271]), 10);
    assert_eq!(short, [1; 270]);
}

/// Places of the check bytes in an image, with the rule of each.
const CHECK_BYTES: [(usize, Rule); 2] = [(4, Rule::CheckByte0), (9, Rule::CheckByte1)];

/// Refused by 12 with the store as before and the zero record, in both forms; in a store or record buffer of another length by 10.
fn refused_for(image: &[u8], rule: Rule) {
    let (mut record, mut store) = ([0xEE; RECORD_LEN], [9; STORE_LEN]);
    assert_eq!(c_form::load(&mut record[..47], &mut store, image), 10);
    assert_eq!(c_form::load(&mut record, &mut store[..239], image), 10);
    assert_eq!(load(image, &mut store[..239]), (10, Record::ZERO));
    assert_eq!((record, store), ([0xEE; RECORD_LEN], [9; STORE_LEN]));
    assert_eq!(load_by_rule(image, &mut store), (rule, Record::ZERO));
    assert_eq!((load(image, &mut store), store), ((12, Record::ZERO), [9; STORE_LEN]));
    assert_eq!(c_form::load(&mut record, &mut store, image), 12);
    assert_eq!((record, store), ([0; RECORD_LEN], [9; STORE_LEN]));
}

#[test]
fn each_wrong_bit_of_a_check_byte_is_12() {
    let image = sample_image();
    for (at, rule) in CHECK_BYTES {
        for bit in 0..8 {
            let mut wrong = image.clone();
            wrong[at] ^= 1 << bit;
            refused_for(&wrong, rule);
        }
    }
    // taken together they would be right
    let mut both = image.clone();
    both[4] ^= 0x10;
    both[9] ^= 0x10;
    refused_for(&both, Rule::CheckByte0);
}

#[test]
fn only_bcc0_has_88h_in_it() {
    let with_serial = |digits: &str| [&sample_image()[..1], &hex(digits), &sample_image()[10..]].concat();
    let zeros = with_serial("000000 88 00000000 00");
    let mut store = [9; STORE_LEN];
    assert_eq!(load(&zeros, &mut store).0, 0);
    assert_eq!(store[..], zeros[1..241]);
    refused_for(&with_serial("000000 00 00000000 00"), Rule::CheckByte0);
    refused_for(&with_serial("000000 88 00000000 88"), Rule::CheckByte1);
    refused_for(&with_serial("000000 00 00000000 88"), Rule::CheckByte0);
    assert_eq!(load(&with_serial("8488ff 7b 12345678 08"), &mut store).0, 0);
}

/// A serial number that is changed without its check byte.
#[test]
fn each_byte_of_the_serial_number_counts() {
    for (at, rule) in (1..4).map(|at| (at, Rule::CheckByte0)).chain((5..9).map(|at| (at, Rule::CheckByte1))) {
        for bit in 0..8 {
            let mut wrong = sample_image();
            wrong[at] ^= 1 << bit;
            refused_for(&wrong, rule);
        }
    }
}

/// A store that was changed by another than the tag: frames send its check bytes as they are, saving keeps them, and only loading refuses.
#[test]
fn only_loading_judges_check_bytes() {
    for (at, rule) in CHECK_BYTES {
        let mut rig = Rig::new();
        rig.store[at - 1] ^= 0x20;
        let stored = rig.store.clone();
        assert_eq!(rig.data("3000"), stored[..16]);
        assert_eq!(rig.number("a204deadbeef"), 0);
        assert_eq!(rig.login(1), 0);
        assert_eq!(rig.data("3a0002"), stored[..12]);
        let mut image = [0xEE; 271];
        assert_eq!(save(&rig.record, &rig.store, &mut image), 0);
        assert_eq!(image[1..241], rig.store[..]);
        assert_eq!(c_form::save(&buffer_of(&rig.record), &rig.store, &mut [0; 271]), 0);
        refused_for(&image, rule);
    }
}

// ---- C form

/// A record in ACTIVE with a byte of its own in each stored place.
fn sample_buffer() -> [u8; RECORD_LEN] {
    let mut buffer: [u8; RECORD_LEN] = std::array::from_fn(|i| i as u8);
    for at in [3, 7, 11, 13, 15] {
        buffer[at] = 0;
    }
    buffer[c_form::STATE_AT] = c_form::ACTIVE;
    buffer[c_form::CHALLENGE_AT..].fill(0);
    buffer
}

#[test]
fn record_buffer_layout() {
    let record = record_of(&sample_buffer());
    assert_eq!(record.counters, [0x020100, 0x060504, 0x0A0908]);
    assert_eq!((record.failed, record.state), (0x0C, State::Active));
    assert_eq!((record.originality_key[0], record.originality_key[15]), (16, 31));
    assert_eq!(buffer_of(&record), sample_buffer());
    let challenged = Record { state: State::Challenged(2), challenge: [0xC3; 16], ..record };
    assert_eq!(buffer_of(&challenged)[14..16], [4, 2]);
    assert_eq!(buffer_of(&challenged)[32..], [0xC3; 16]);
    assert_eq!(record_of(&buffer_of(&challenged)), challenged);
}

#[test]
fn c_events_take_any_record_of_48_bytes() {
    for len in [0, 1, 47, 49] {
        let mut record = vec![0xFF; len];
        assert_eq!((c_form::power(&mut record), c_form::select(&mut record)), (10, 10));
        assert_eq!(record, vec![0xFF; len]);
    }
    for (call, state) in [(c_form::power as fn(&mut [u8]) -> u8, c_form::WAITING), (c_form::select, c_form::ACTIVE)] {
        let mut record = [0xFF; RECORD_LEN];
        assert_eq!(call(&mut record), 0);
        assert_eq!((&record[..14], &record[16..32]), (&[0xFF; 14][..], &[0xFF; 16][..]));
        assert_eq!((record[14], record[15], &record[32..]), (state, 0, &[0; 16][..]));
    }
}

#[test]
fn c_load_and_save() {
    let image = sample_image();
    let (mut record, mut store) = ([0xEE; RECORD_LEN], [0xEE; STORE_LEN]);
    assert_eq!(c_form::load(&mut record, &mut store[..239], &image), 10);
    assert_eq!(c_form::load(&mut record[..47], &mut store, &image), 10);
    assert_eq!(c_form::load(&mut record[..47], &mut store, &[]), 10);
    assert_eq!((record, store), ([0xEE; RECORD_LEN], [0xEE; STORE_LEN]));
    assert_eq!(c_form::load(&mut record, &mut store, &image[1..]), 12);
    assert_eq!((record, store), ([0; RECORD_LEN], [0xEE; STORE_LEN]));
    assert_eq!(c_form::load(&mut record, &mut store, &image), 0);
    assert_eq!((record[0], record[14], record[16]), (10, c_form::WAITING, 7));
    let mut file = [0xDD; 280];
    assert_eq!(c_form::save(&record[..47], &store, &mut file), 10);
    assert_eq!(c_form::save(&record, &store, &mut file[..270]), 10);
    assert_eq!(file, [0xDD; 280]);
    assert_eq!(c_form::save(&record, &store, &mut file), 0);
    assert_eq!((&file[..271], &file[271..]), (&image[..], &[0xDD; 9][..]));
}

#[test]
fn c_frame_packs_its_answer() {
    let (mut record, mut store, mut reply) = (sample_buffer(), [0; STORE_LEN], [0; REPLY_LEN]);
    store[4 * 0x29 + 3] = 0x3C;
    let mut send = |record: &mut [u8], plain: &str| c_form::frame(record, &mut store, &with_crc(&hex(plain)), &[5; 16], &mut reply);
    assert_eq!(send(&mut record, "3004"), 18 << 32 | 2 << 8);
    assert_eq!(send(&mut record, "a20401020304"), 0xA << 16 | 1 << 8);
    assert_eq!(send(&mut record, "1a02"), 19 << 32 | 2 << 8);
    assert_eq!((record[14], record[15], &record[32..]), (c_form::CHALLENGED, 2, &[5; 16][..]));
    assert_eq!(send(&mut record, "3004"), 1 << 8 | 3);
    assert_eq!((record[14], record[15], &record[32..]), (c_form::WAITING, 0, &[0; 16][..]));
    record[15] = 9;
    assert_eq!(send(&mut record, "3004"), 1);
    assert_eq!(record[15], 9);
    assert_eq!(c_form::select(&mut record), 0);
    assert_eq!(send(&mut record, "5000"), 0);
    assert_eq!(send(&mut record[..47], "3004"), 10);
}

#[test]
fn rules_tell_the_reason() {
    let rows = [
        ("60", Rule::CodeUnknown), ("af", Rule::ProofUnasked), ("30", Rule::ReadLength), ("3a0504", Rule::FastReadOrder), ("3a003c", Rule::FastReadEndHigh),
        ("a20100000000", Rule::WritePageLow), ("a23c00000000", Rule::WritePageHigh), ("1a03", Rule::KeyNumber), ("5001", Rule::HaltArgument),
        ("a2290100003c", Rule::RandomIdChange), ("3000", Rule::CarriedOut),
    ];
    for (plain, rule) in rows {
        let answer = Rig::new().send(plain);
        assert_eq!((answer.rule, answer.number), (rule, rule.number()), "{plain}");
    }
    assert!(Rule::ALL.iter().enumerate().all(|(i, &rule)| rule as usize == i));
    assert!(Rule::ALL.windows(2).all(|pair| pair[0].number() <= pair[1].number()));
}

// ---- bench program

fn played(lines: &[u8]) -> String {
    let mut tag = bench::Bench::new(&sample_image()).unwrap();
    let mut out = Vec::new();
    bench::play_all(&mut tag, lines, &mut out).unwrap();
    String::from_utf8(out).unwrap()
}

#[test]
fn the_bench_example_of_document_01() {
    assert_eq!(played(b"S\nF 3900\nF a20000000000\nF 3900\n"), "0\n0 0a0000\n5\n1\n");
    assert_eq!(played(b"S\nF 3900"), "0\n0 0a0000\n");
    assert_eq!(played(b""), "");
}

#[test]
fn the_place_is_printed_behind_the_number() {
    assert_eq!(played(b"S\nF a2290100003c\nF 3900\n"), "0\n6 2\n1\n");
    assert_eq!(played(b"S\nF a22d60000000\nF a23000000000\nS\nF a22d00000000\n"), "0\n0\n7 5\n0\n7 5\n");
    assert_eq!(played(b"S\nF a22900000004\nF a20400000000\nS\nF a20300000000\n"), "0\n0\n6 1\n0\n0\n");
    assert_eq!(played(b"S\nF a22a00050000\nF 3902\nS\nF a20000000000\n"), "0\n0\n6\n0\n5\n");
}

#[test]
fn bad_lines() {
    let long = [b"F ".to_vec(), vec![b'0'; 126]].concat();
    for bad in [&b""[..], b"S\r", b"s", b"F", b"F ", b"F 3", b"F 3A", b"F  30", b"F 30 ", b" S", b"\0", b"PS", &long, &long[..127]] {
        let script = [b"P\n", bad, b"\nS\n"].concat();
        assert_eq!(played(&script), "0\nbad line 2\n", "{bad:?}");
    }
    assert_eq!(played(&[b"S\n", &long[..126]].concat()), "0\n3\n");
    assert_eq!(played(&long), "bad line 1\n");
}

#[test]
fn line_256_challenges_with_zero_bytes() {
    let script = "P\n".repeat(254) + "S\nF 1a02\n";
    let cipher = Aes128::new(&[7; 16]).encrypt(&[0; 16]);
    let digits: String = cipher.iter().map(|b| format!("{b:02x}")).collect();
    assert!(played(script.as_bytes()).ends_with(&format!("\n0 af{digits}\n")));
}
