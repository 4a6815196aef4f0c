//! AES-128 (FIPS 197) with T-tables, and CBC (NIST SP 800-38A).
//!
//! A T-table joins SubBytes and MixColumns of one byte into one 32-bit lookup, so a round is 16 lookups. The tables are computed at
//! compile time from the field's definition (FIPS 197 section 4.2), so no printed table has to be trusted.
//! Lookups depend on secret bytes: right for a test box, not for a tag that has to resist timing measurements.

pub const BLOCK: usize = 16;
pub type Block = [u8; BLOCK];

const ROUNDS: usize = 10;
const COLUMNS: usize = 4;
const SCHEDULE: usize = COLUMNS * (ROUNDS + 1);

type Columns = [u32; COLUMNS];
type Schedule = [u32; SCHEDULE];
type Tables = [[u32; 256]; 4];

/// x times the polynomial x, modulo x^8 + x^4 + x^3 + x + 1 (FIPS 197 section 4.2.1).
const fn xtime(x: u8) -> u8 {
    (x << 1) ^ (if x & 0x80 != 0 { 0x1B } else { 0 })
}

/// The product in GF(2^8).
const fn product(mut a: u8, mut b: u8) -> u8 {
    let mut sum = 0;
    while b != 0 {
        if b & 1 != 0 {
            sum ^= a;
        }
        a = xtime(a);
        b >>= 1;
    }
    sum
}

/// The affine step of SubBytes (FIPS 197 section 5.1.1).
const fn affine(x: u8) -> u8 {
    x ^ x.rotate_left(1) ^ x.rotate_left(2) ^ x.rotate_left(3) ^ x.rotate_left(4) ^ 0x63
}

/// The S-box: p walks through the powers of 03h, q through those of its inverse F6h, so q is always 1/p.
const fn make_sbox() -> [u8; 256] {
    let mut sbox = [0; 256];
    sbox[0] = affine(0);
    let (mut p, mut q) = (1u8, 1u8);
    let mut i = 0;
    while i < 255 {
        sbox[p as usize] = affine(q);
        p = product(p, 0x03);
        q = product(q, 0xF6);
        i += 1;
    }
    sbox
}

const fn make_inverse(sbox: &[u8; 256]) -> [u8; 256] {
    let mut inverse = [0; 256];
    let mut i = 0;
    while i < 256 {
        inverse[sbox[i] as usize] = i as u8;
        i += 1;
    }
    inverse
}

/// Table r holds what a byte of row r adds to its column: the substituted byte times `column`, turned down by r rows.
const fn make_tables(sbox: &[u8; 256], column: [u8; 4]) -> Tables {
    let mut tables = [[0; 256]; 4];
    let mut i = 0;
    while i < 256 {
        let s = sbox[i];
        let bytes = [product(s, column[0]), product(s, column[1]), product(s, column[2]), product(s, column[3])];
        let word = u32::from_be_bytes(bytes);
        let mut row = 0;
        while row < 4 {
            tables[row][i] = word.rotate_right(8 * row as u32);
            row += 1;
        }
        i += 1;
    }
    tables
}

const SBOX: [u8; 256] = make_sbox();
static SUB: [u8; 256] = SBOX;
static INV_SUB: [u8; 256] = make_inverse(&SBOX);
/// MixColumns (FIPS 197 section 5.1.3), its first column.
static MIX: Tables = make_tables(&SBOX, [2, 1, 1, 3]);
/// InvMixColumns (FIPS 197 section 5.3.3), its first column.
static INV_MIX: Tables = make_tables(&make_inverse(&SBOX), [14, 9, 13, 11]);

/// ShiftRows takes row r of column c from column c + r; InvShiftRows from c - r, which is c + 3r modulo 4.
const SHIFT: usize = 1;
const INV_SHIFT: usize = 3;

/// Byte `row` of a column; row 0 is the high byte.
fn byte(column: u32, row: usize) -> usize {
    column.to_be_bytes()[row] as usize
}

fn round(tables: &Tables, shift: usize, state: &Columns, key: &[u32]) -> Columns {
    std::array::from_fn(|c| {
        tables[0][byte(state[c], 0)]
            ^ tables[1][byte(state[(c + shift) % 4], 1)]
            ^ tables[2][byte(state[(c + 2 * shift) % 4], 2)]
            ^ tables[3][byte(state[(c + 3 * shift) % 4], 3)]
            ^ key[c]
    })
}

/// The last round has no MixColumns (FIPS 197 section 5.1).
fn last_round(sub: &[u8; 256], shift: usize, state: &Columns, key: &[u32]) -> Columns {
    std::array::from_fn(|c| {
        let bytes = std::array::from_fn(|row| sub[byte(state[(c + row * shift) % 4], row)]);
        u32::from_be_bytes(bytes) ^ key[c]
    })
}

fn columns(block: &Block) -> Columns {
    std::array::from_fn(|c| u32::from_be_bytes([block[4 * c], block[4 * c + 1], block[4 * c + 2], block[4 * c + 3]]))
}

fn block(columns: &Columns) -> Block {
    std::array::from_fn(|i| columns[i / 4].to_be_bytes()[i % 4])
}

/// All rounds over one block, forwards or backwards by the tables, shift and schedule given.
fn cipher(tables: &Tables, sub: &[u8; 256], shift: usize, schedule: &Schedule, input: &Block) -> Block {
    let start = columns(input);
    let mut state: Columns = std::array::from_fn(|c| start[c] ^ schedule[c]);
    for r in 1..ROUNDS {
        state = round(tables, shift, &state, &schedule[4 * r..4 * r + 4]);
    }
    block(&last_round(sub, shift, &state, &schedule[4 * ROUNDS..]))
}

fn sub_word(word: u32) -> u32 {
    u32::from_be_bytes(word.to_be_bytes().map(|b| SUB[b as usize]))
}

/// KeyExpansion (FIPS 197 section 5.2).
fn expand(key: &Block) -> Schedule {
    let mut w = [0; SCHEDULE];
    w[..COLUMNS].copy_from_slice(&columns(key));
    let mut rcon = 1u8;
    for i in COLUMNS..SCHEDULE {
        let mut word = w[i - 1];
        if i % COLUMNS == 0 {
            word = sub_word(word.rotate_left(8)) ^ (rcon as u32) << 24;
            rcon = xtime(rcon);
        }
        w[i] = w[i - COLUMNS] ^ word;
    }
    w
}

/// InvMixColumns of one column: the tables substitute by the inverse S-box first, so each byte goes in through the S-box.
fn inv_mix(column: u32) -> u32 {
    (0..4).fold(0, |sum, row| sum ^ INV_MIX[row][SUB[byte(column, row)] as usize])
}

/// The schedule of the equivalent inverse cipher (FIPS 197 section 5.3.5): rounds backwards, the middle ones through InvMixColumns.
fn backwards(schedule: &Schedule) -> Schedule {
    std::array::from_fn(|i| {
        let word = schedule[4 * (ROUNDS - i / 4) + i % 4];
        if (1..ROUNDS).contains(&(i / 4)) { inv_mix(word) } else { word }
    })
}

/// A key made ready for enciphering and deciphering.
pub struct Aes128 {
    schedule: Schedule,
}

impl Aes128 {
    /// Key byte 0 first, as FIPS 197 numbers them.
    pub fn new(key: &Block) -> Aes128 {
        Aes128 { schedule: expand(key) }
    }

    pub fn encrypt(&self, input: &Block) -> Block {
        cipher(&MIX, &SUB, SHIFT, &self.schedule, input)
    }

    pub fn decrypt(&self, input: &Block) -> Block {
        cipher(&INV_MIX, &INV_SUB, INV_SHIFT, &backwards(&self.schedule), input)
    }

    /// CBC enciphering in place (SP 800-38A section 6.2). Bytes behind the last whole block stay as they are.
    pub fn cbc_encrypt(&self, iv: &Block, data: &mut [u8]) {
        let mut before = *iv;
        for chunk in data.chunks_exact_mut(BLOCK) {
            let mixed: Block = std::array::from_fn(|i| chunk[i] ^ before[i]);
            before = self.encrypt(&mixed);
            chunk.copy_from_slice(&before);
        }
    }

    /// CBC deciphering in place (SP 800-38A section 6.2). Bytes behind the last whole block stay as they are.
    pub fn cbc_decrypt(&self, iv: &Block, data: &mut [u8]) {
        let schedule = backwards(&self.schedule);
        let mut before = *iv;
        for chunk in data.chunks_exact_mut(BLOCK) {
            let text: Block = std::array::from_fn(|i| chunk[i]);
            let mixed = cipher(&INV_MIX, &INV_SUB, INV_SHIFT, &schedule, &text);
            for i in 0..BLOCK {
                chunk[i] = mixed[i] ^ before[i];
            }
            before = text;
        }
    }
}
