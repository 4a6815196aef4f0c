//! CRC_A of ISO/IEC 14443-3 type A, which every frame and every data reply carries (009 section 8.3).

/// Start value and reflected polynomial x^16 + x^12 + x^5 + 1.
const START: u16 = 0x6363;
const POLYNOMIAL: u16 = 0x8408;

pub const CRC_LEN: usize = 2;

/// What one byte does to the CRC: eight single-bit steps, done once for each byte value.
const fn make_table() -> [u16; 256] {
    let mut table = [0; 256];
    let mut i = 0;
    while i < 256 {
        let mut crc = i as u16;
        let mut bit = 0;
        while bit < 8 {
            crc = (crc >> 1) ^ (if crc & 1 != 0 { POLYNOMIAL } else { 0 });
            bit += 1;
        }
        table[i] = crc;
        i += 1;
    }
    table
}

static TABLE: [u16; 256] = make_table();

/// The CRC of `bytes` as it is sent: low byte first (document 01, "What the box plays").
pub fn crc_a(bytes: &[u8]) -> [u8; CRC_LEN] {
    let step = |crc: u16, b: &u8| (crc >> 8) ^ TABLE[(crc as u8 ^ b) as usize];
    bytes.iter().fold(START, step).to_le_bytes()
}
