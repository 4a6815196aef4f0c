#!/usr/bin/env python3
"""The values of the bench cases, worked out from document 01, 009 and FIPS 197.

    tools/cases.py            writes the base image and the rows into specs/ of the crates model, cases and login_cases
    tools/cases.py --check    says whether they are there as they would be written; exit 1 if not

The script has an AES-128 and a CRC_A of its own and uses nothing of the definition of the tag, which is held against these values. In each of the
files that FILES names, at the end, it replaces what stands behind the line that names it. Python 3, no library.
"""

import os
import sys

# ---- CRC_A, ISO/IEC 14443-3 type A


def crc(data):
    r = 0x6363
    for byte in data:
        r ^= byte
        for _ in range(8):
            r = (r >> 1) ^ (0x8408 if r & 1 else 0)
    return bytes([r & 0xFF, r >> 8])


def with_crc(data):
    return bytes(data) + crc(data)


# ---- AES-128, FIPS 197, from the field and not from tables


def times(a, b):
    r = 0
    while b:
        if b & 1:
            r ^= a
        a = (a << 1) ^ (0x11B if a & 0x80 else 0)
        b >>= 1
    return r


def substitute(b):
    inverse = next((c for c in range(256) if times(b, c) == 1), 0)
    r = 0x63
    for turn in range(5):
        r ^= ((inverse << turn) | (inverse >> (8 - turn))) & 0xFF
    return r


SBOX = [substitute(b) for b in range(256)]


def schedule(key):
    words = [list(key[i:i + 4]) for i in range(0, 16, 4)]
    constant = 1
    for i in range(4, 44):
        word = list(words[i - 1])
        if i % 4 == 0:
            word = [SBOX[b] for b in word[1:] + word[:1]]
            word[0] ^= constant
            constant = times(constant, 2)
        words.append([a ^ b for a, b in zip(words[i - 4], word)])
    return [sum(words[4 * n:4 * n + 4], []) for n in range(11)]


def encipher(key, block):
    keys = schedule(key)
    s = [a ^ b for a, b in zip(block, keys[0])]
    for n in range(1, 11):
        s = [SBOX[b] for b in s]
        s = [s[(r + 4 * (c + r)) % 16] for c in range(4) for r in range(4)]
        if n < 10:
            s = [times(s[4 * c + r], 2) ^ times(s[4 * c + (r + 1) % 4], 3) ^ s[4 * c + (r + 2) % 4] ^ s[4 * c + (r + 3) % 4]
                 for c in range(4) for r in range(4)]
        s = [a ^ b for a, b in zip(s, keys[n])]
    return bytes(s)


# CBC, NIST SP 800-38A, from a zero initialization vector
def cbc(key, data):
    chain, out = bytes(16), b""
    for i in range(0, len(data), 16):
        chain = encipher(key, bytes(a ^ b for a, b in zip(data[i:i + 16], chain)))
        out += chain
    return out


def rotated(block):
    return block[1:] + block[:1]


def hexed(text):
    return bytes.fromhex(text)


# the vectors of the documents, before anything is written: ISO/IEC 14443-3 Annex B, FIPS 197 appendix C.1, SP 800-38A F.2.1
assert crc(hexed("0000")) == hexed("a01e") and crc(hexed("1234")) == hexed("26cf")
assert encipher(bytes(range(16)), hexed("00112233445566778899aabbccddeeff")) == hexed("69c4e0d86a7b0430d8cdb78070b4c55a")
assert encipher(hexed("2b7e151628aed2a6abf7158809cf4f3c"), bytes(
    a ^ b for a, b in zip(bytes(range(16)), hexed("6bc1bee22e409f96e93d7e117393172a")))) == hexed("7649abac8119b246cee98e9b12e9197d")

# 009 Table 17, as it is printed
TABLE_KEY = bytes(16)
RND_B = hexed("1AE4174CA173EBBC59165CEBE2F20821")
STEP_2 = hexed("D5A847B84862FF3874A7F07B8DDF351B")
RND_A = hexed("F29B0123F5C00DF612487BBF42468C7E")
STEP_3 = hexed("CDF22C5F7A92F0AF0155612B9B236AC7A424BC5238D41AD041B8165B7D99E524")
STEP_4 = hexed("2C743D6B1E128F8076BD197B76012CE8")
assert cbc(TABLE_KEY, RND_B) == STEP_2 and cbc(TABLE_KEY, RND_A + rotated(RND_B)) == STEP_3 and cbc(TABLE_KEY, rotated(RND_A)) == STEP_4

# ---- the base image: no protection (AUTH0 3Ch, CFG_1 byte 0 at 0Ch), no lock, AUTH_LIM 0, counters and failed count 0

SERIAL = [0x04, 0x51, 0x2C], [0x5A, 0x93, 0xC7, 0x1E]
INTERNAL = 0x48
# a key that is not its own reverse: FIPS 197 appendix A.1
ORIGINALITY = hexed("2b7e151628aed2a6abf7158809cf4f3c")


# a page of user memory, of a key or reserved: four bytes, none 0, and no two pages alike
def filled(p):
    return bytes([p, 0xFF - p, p * 7 % 251 + 1, p * 13 % 241 + 1])


def check(start, data):
    for byte in data:
        start ^= byte
    return start


PAGES = {
    0x00: bytes(SERIAL[0] + [check(0x88, SERIAL[0])]),
    0x01: bytes(SERIAL[1]),
    0x02: bytes([check(0x00, SERIAL[1]), INTERNAL, 0x00, 0x00]),
    0x03: bytes(4),
    0x28: bytes(4),
    0x29: bytes([0x00, 0x00, 0x00, 0x3C]),
    0x2A: bytes([0x0C, 0x05, 0x00, 0x00]),
    0x2D: bytes(4),
}
STORE = b"".join(PAGES.get(p, filled(p)) for p in range(60))
BASE = bytes([60]) + STORE + bytes([3]) + bytes(9) + bytes([1]) + bytes(2) + bytes([1]) + ORIGINALITY
assert len(STORE) == 240 and len(BASE) == 271


# ---- rows. A change of an image: the bytes of the pages from p on, of counter k, or of the failed count


def page(p, data):
    return ("page", p, bytes(data))


def counter(k, n):
    return ("counter", k, n.to_bytes(3, "little"))


def failed(n):
    return ("failed", None, n.to_bytes(2, "little"))


# the bytes of the pages first to last of the base image
def stored(first, last):
    return STORE[4 * first:4 * last + 4]


# the same of pages one by one, where they don't follow one another
def pages_of(*numbers):
    return b"".join(stored(p, p) for p in numbers)


SILENCE = ("silence",)
ACK = ("nibble", 0xA)


def nak(n):
    return ("nibble", {2: 0x1, 9: 0x4, 11: 0x4}.get(n, 0x0))


def data(payload):
    return ("bytes", with_crc(payload))


# the random block of frames that use none
SPARE = bytes([0xA5] * 16)


# a line: the frame with its CRC, its random block, the number, the reply, and the place of the rule that stops a WRITE. A WRITE that gets 6 or 7 has a
# place, and no other frame
def framed(frame, number, reply=None, random=SPARE, place=0):
    if reply is None:
        reply = SILENCE if number == 1 else nak(number) if number else ACK
    assert (place > 0) == (bytes(frame[:1]) == b"\xa2" and number in (6, 7)), bytes(frame).hex()
    return ("frame", bytes(frame), random, number, reply, place)


def sent(payload, number, reply=None, random=SPARE):
    return framed(with_crc(payload), number, reply, random)


# a WRITE that a rule stops, by the place of the first that does in E6's order: 1 AUTH0, 2 Random ID bit, 3 own lock bit, 4 pair lock bit, 5 key lock,
# 6 configuration lock
def stopped(place, payload, number):
    return framed(with_crc(payload), number, place=place)


POWER = ("power",)
SELECT = ("select",)
TO_ACTIVE = ("to_active",)


def part_1(k, key, rnd_b):
    return sent([0x1A, k], 0, data(b"\xaf" + cbc(key, rnd_b)), rnd_b)


def part_2(key, rnd_a, rnd_b):
    return sent(b"\xaf" + cbc(key, rnd_a + rotated(rnd_b)), 0, data(b"\x00" + cbc(key, rotated(rnd_a))))


# 8.6.3's example: the key 000102..0F, written by four WRITEs, its last byte first
KEY_863 = bytes(range(16))


def key_writes(first):
    return [sent(bytes([0xA2, first + n]) + KEY_863[::-1][4 * n:4 * n + 4], 0) for n in range(4)]


def key_pages(first):
    return [page(first, KEY_863[::-1])]


# another pair of random blocks
B_2 = hexed("00112233445566778899aabbccddeeff")
A_2 = hexed("fedcba98765432100123456789abcdef")


# the lock page: its check byte and internal byte are the base image's
def locks(byte_0, byte_1):
    return page(0x02, STORE[8:10] + bytes([byte_0, byte_1]))


AUTH_LIM_0102 = page(0x2A, [0x0C, 0x05, 0x02, 0x01])
AUTH_LIM_0028 = page(0x2A, [0x0C, 0x05, 0x28, 0x00])
AUTH0_04 = page(0x29, [0x00, 0x00, 0x00, 0x04])
RANDOM_ID = page(0x29, [0x01, 0x00, 0x00, 0x3C])
TABLE_KEY_PAGES = page(0x30, TABLE_KEY)
# the base image's DataProtKey: its byte 0 lies last
BASE_KEY = stored(0x30, 0x33)[::-1]
# the proof with the last bit of the last byte wrong
FALSE_PROOF = cbc(TABLE_KEY, RND_A + rotated(RND_B)[:15] + bytes([rotated(RND_B)[15] ^ 0x01]))
# Table 17's step 3 with one bit of its ciphertext changed and the CRC kept
GARBLED = bytearray(with_crc(b"\xaf" + STEP_3))
GARBLED[20] ^= 0x10

# ---- commands, without CRC


def read(p):
    return bytes([0x30, p])


def fast_read(p, q):
    return bytes([0x3A, p, q])


def write(p, text):
    return bytes([0xA2, p]) + hexed(text)


def read_cnt(k):
    return bytes([0x39, k])


def incr_cnt(k, text):
    return bytes([0xA5, k]) + hexed(text)


HLTA = bytes([0x50, 0x00])


# frames from ACTIVE, with a selection after each that is refused but the last
def each(*frames):
    lines = [TO_ACTIVE]
    for line in frames:
        lines += [line]
        if line[3] != 0 and line is not frames[-1]:
            lines += [SELECT]
    return lines


# CFG_0 and CFG_1
def auth0(p, byte_0=0x00):
    return page(0x29, [byte_0, 0x00, 0x00, p])


def cfg_1(byte_0):
    return page(0x2A, [byte_0, 0x05, 0x00, 0x00])


def pair_locks(text):
    return page(0x28, hexed(text))


def key_locks(text):
    return page(0x2D, hexed(text))


# PROT with counter 2 open, as delivered; LOCK_USR_CFG
PROT = cfg_1(0x8C)
CONFIG_LOCKED = cfg_1(0x4C)
EVERY_LOCK = [locks(0xF8, 0xFF), pair_locks("ff0f0000"), CONFIG_LOCKED, key_locks("e0000000")]

# Each row: name, words (document 01's where marked *), changes of the base image, lines, what is changed afterwards, state afterwards.

# document 01's starred cases and its bench example
DOCUMENT = [
    ("empty_frame", "* Empty frame, ACTIVE: 2.", [], [TO_ACTIVE, framed([], 2)], [], "Waiting"),
    ("one_byte_waiting", "* The one byte 00h, WAITING: 1.", [], [POWER, framed([0x00], 1)], [], "Waiting"),
    ("read38", "* READ 38h: 0.", [], [TO_ACTIVE, sent([0x30, 0x38], 0, data(stored(0x38, 0x3B)))], [], "Active"),
    ("read39", "* READ 39h: 0, and behind page 3Bh it continues at 00h (E3).", [],
     [TO_ACTIVE, sent([0x30, 0x39], 0, data(pages_of(0x39, 0x3A, 0x3B, 0x00)))], [], "Active"),
    ("fast_read_order", "* FAST_READ 05h to 04h: 5.", [], [TO_ACTIVE, sent([0x3A, 0x05, 0x04], 5)], [], "Waiting"),
    ("fast_read_last", "* FAST_READ 3Bh to 3Bh: 0, with zero bytes stored there.", [page(0x3B, bytes(4))],
     [TO_ACTIVE, sent([0x3A, 0x3B, 0x3B], 0, data(bytes(4)))], [], "Active"),
    ("write01", "* WRITE 01h: 5.", [], [TO_ACTIVE, sent([0xA2, 0x01, 0x11, 0x22, 0x33, 0x44], 5)], [], "Waiting"),
    ("otp_set", "* OTP 0Fh,00,00,00, write F0h,00,00,00: FFh,00,00,00.", [page(0x03, [0x0F, 0x00, 0x00, 0x00])],
     [TO_ACTIVE, sent([0xA2, 0x03, 0xF0, 0x00, 0x00, 0x00], 0)], [page(0x03, [0xFF, 0x00, 0x00, 0x00])], "Active"),
    ("frozen_bit", "* Lock bytes 01h,00h, write 08h,00h: stay 01h,00h. The first two data bytes are ignored.", [locks(0x01, 0x00)],
     [TO_ACTIVE, sent([0xA2, 0x02, 0xFF, 0xFF, 0x08, 0x00], 0)], [locks(0x01, 0x00)], "Active"),
    ("lock_and_block", "* Lock bytes 00h,00h, write 09h,00h: 09h,00h.", [locks(0x00, 0x00)],
     [TO_ACTIVE, sent([0xA2, 0x02, 0x00, 0x00, 0x09, 0x00], 0)], [locks(0x09, 0x00)], "Active"),
    ("locked_page", "* Lock byte 0 at 08h, write page 03h: 7.", [locks(0x08, 0x00)],
     [TO_ACTIVE, stopped(3, [0xA2, 0x03, 0x01, 0x00, 0x00, 0x00], 7)], [], "Waiting"),
    ("counter_to_highest", "* Counter FFFFFEh plus 1: 0.", [counter(0, 0xFFFFFE)],
     [TO_ACTIVE, sent([0xA5, 0x00, 0x01, 0x00, 0x00, 0x00], 0)], [counter(0, 0xFFFFFF)], "Active"),
    ("counter_past_highest", "* Counter FFFFFEh plus 2: 9, unchanged.", [counter(0, 0xFFFFFE)],
     [TO_ACTIVE, sent([0xA5, 0x00, 0x02, 0x00, 0x00, 0x00], 9)], [], "Waiting"),
    ("protected_page", "* AUTH0 04h, ACTIVE, write 04h: 6.", [AUTH0_04],
     [TO_ACTIVE, stopped(1, [0xA2, 0x04, 0x11, 0x22, 0x33, 0x44], 6)], [], "Waiting"),
    ("below_auth0", "* AUTH0 04h, ACTIVE, write 03h: 0.", [AUTH0_04],
     [TO_ACTIVE, sent([0xA2, 0x03, 0x11, 0x22, 0x33, 0x44], 0)], [page(0x03, [0x11, 0x22, 0x33, 0x44])], "Active"),
    ("bench_example", "The bench program's example, counter 0 at 10: S, READ_CNT 0, WRITE 00h, READ_CNT 0; the random block is the line number.",
     [counter(0, 10)],
     [SELECT, sent([0x39, 0x00], 0, data([0x0A, 0x00, 0x00]), bytes([2] * 16)), sent([0xA2, 0, 0, 0, 0, 0], 5, random=bytes([3] * 16)),
      sent([0x39, 0x00], 1, random=bytes([4] * 16))], [], "Waiting"),
]

# numbers 1 to 4, and HLTA
LONG = bytes([0x30, 0x04]) + bytes(range(0x80, 0x80 + 61))
READ_04 = with_crc(read(0x04))
# the codes but AFh, each with its length without CRC
LENGTHS = [(0x30, 2), (0x3A, 3), (0xA2, 6), (0x39, 2), (0xA5, 6), (0x1A, 2), (0x50, 2)]
# the bytes behind a code
PAYLOAD = hexed("0405112233445566")

FRAMES = [
    ("waiting_from_loading", "Loading an image leaves the tag in WAITING: 1.", [], [framed(READ_04, 1)], [], "Waiting"),
    ("two_bytes", "Two bytes, the CRC of no byte: 2.", [], each(framed(crc(b""), 2)), [], "Waiting"),
    ("longest_frame", "64 bytes with a right CRC are no damaged frame: 4 for READ's code, 3 for an unknown one.", [],
     each(sent(LONG[:62], 4), sent(b"\x60" + LONG[1:62], 3)), [], "Waiting"),
    ("too_long_frame", "65 bytes with a right CRC: 2.", [], each(sent(LONG[:63], 2)), [], "Waiting"),
    ("wrong_crc", "READ 04h with a wrong bit in the CRC's low byte, in its high byte and in the page, and with the CRC's high byte first: 2.", [],
     each(framed(READ_04[:2] + bytes([READ_04[2] ^ 0x01, READ_04[3]]), 2), framed(READ_04[:3] + bytes([READ_04[3] ^ 0x80]), 2),
          framed(b"\x30\x05" + READ_04[2:], 2), framed(READ_04[:2] + READ_04[:1:-1], 2)), [], "Waiting"),
    ("crc_before_code", "An unknown code with a wrong CRC: 2.", [], each(framed(hexed("60000000"), 2)), [], "Waiting"),
    ("unknown_code", "60h (GET_VERSION) alone, and with one and with five bytes behind it: 3.", [],
     each(sent([0x60], 3), sent([0x60, 0x00], 3), sent(hexed("600411223344"), 3)), [], "Waiting"),
    ("codes_not_in_base", "The other codes of 009 that are not in the base, 26h, 3Ch, 4Bh, 52h, 93h, 95h, A9h and ACh: 3.", [],
     each(*[sent([code, 0x00], 3) for code in (0x26, 0x3C, 0x4B, 0x52, 0x93, 0x95, 0xA9, 0xAC)]), [], "Waiting"),
    ("proof_in_active", "AFh in ACTIVE: 3, with its own length and with another.", [], each(sent(b"\xaf" + STEP_3, 3), sent(b"\xaf", 3)), [],
     "Waiting"),
    ("read_of_three", "READ with three bytes before its CRC: 4, with a page above 3Bh too.", [],
     each(sent([0x30, 0x04, 0x00], 4), sent([0x30, 0x3C, 0x00], 4)), [], "Waiting"),
    ("code_alone", "Each code alone with its CRC, three bytes: 4.", [], each(*[sent([code], 4) for code, _ in LENGTHS]), [], "Waiting"),
    ("byte_too_few", "FAST_READ, WRITE and INCR_CNT with a byte too few: 4.", [],
     each(*[sent(bytes([code]) + PAYLOAD[:n - 2], 4) for code, n in LENGTHS if n > 2]), [], "Waiting"),
    ("byte_too_many", "Each code with a byte too many: 4.", [], each(*[sent(bytes([code]) + PAYLOAD[:n], 4) for code, n in LENGTHS]), [], "Waiting"),
    ("halt", "HLTA: 0 with silence, and WAITING; the next frame is 1.", [], each(sent(HLTA, 0, SILENCE), framed(READ_04, 1)), [], "Waiting"),
    ("halt_other", "HLTA with another second byte, 01h and FFh: 5.", [], each(sent([0x50, 0x01], 5), sent([0x50, 0xFF], 5)), [], "Waiting"),
]

# READ and FAST_READ
# OTP bytes for windows that continue at page 00h: no other page of the image has them, and hidden bytes are zeros
OTP = hexed("0f1e2d3c")
OTP_PAGE = page(0x03, OTP)


# the changes of an image in which no two pages are alike: the base image has zeros in three
def apart(*changes):
    whole = (OTP_PAGE, page(0x28, [0x00, 0x00, 0x00, 0x28]), page(0x2D, [0x00, 0x00, 0x00, 0x2D])) + changes
    store = bytearray(STORE)
    for _, first, data_bytes in whole:
        store[4 * first:4 * first + len(data_bytes)] = data_bytes
    assert len({bytes(store[at:at + 4]) for at in range(0, 240, 4)}) == 60
    return list(whole)



READING = [
    ("read_serial", "READ 00h in ACTIVE without Random ID shows all.", [locks(0x10, 0x20), page(0x03, hexed("0f1e2d3c"))],
     each(sent(read(0x00), 0, data(stored(0x00, 0x01) + stored(0x02, 0x02)[:2] + hexed("10200f1e2d3c")))), [], "Active"),
    ("read_past_end", "READ 3Ch and FFh: 5.", [], each(sent(read(0x3C), 5), sent(read(0xFF), 5)), [], "Waiting"),
    ("read_wraps", "READ 39h, 3Ah and 3Bh continue at page 00h behind page 3Bh.", apart(),
     each(sent(read(0x39), 0, data(pages_of(0x39, 0x3A, 0x3B, 0x00))), sent(read(0x3A), 0, data(pages_of(0x3A, 0x3B, 0x00, 0x01))),
          sent(read(0x3B), 0, data(pages_of(0x3B, 0x00, 0x01, 0x02)))), [], "Active"),
    ("read_wraps_at_auth0", "AUTH0 04h with PROT: READ 03h, 02h and 01h continue at page 00h behind page 03h, READ 00h fits, READ 04h is 6.",
     apart(AUTH0_04, PROT),
     each(sent(read(0x03), 0, data(OTP + stored(0x00, 0x02))), sent(read(0x02), 0, data(stored(0x02, 0x02) + OTP + stored(0x00, 0x01))),
          sent(read(0x01), 0, data(stored(0x01, 0x02) + OTP + stored(0x00, 0x00))), sent(read(0x00), 0, data(stored(0x00, 0x02) + OTP)),
          sent(read(0x04), 6)), [], "Waiting"),
    ("read_wraps_at03", "AUTH0 03h with PROT: READ 02h begins again at page 02h.", apart(auth0(0x03), PROT),
     each(sent(read(0x02), 0, data(pages_of(0x02, 0x00, 0x01, 0x02))), sent(read(0x00), 0, data(pages_of(0x00, 0x01, 0x02, 0x00)))), [], "Active"),
    ("read_wraps_twice", "AUTH0 02h with PROT: READ 01h continues at page 00h twice, READ 00h once, READ 02h is 6.", apart(auth0(0x02), PROT),
     each(sent(read(0x01), 0, data(pages_of(0x01, 0x00, 0x01, 0x00))), sent(read(0x00), 0, data(pages_of(0x00, 0x01, 0x00, 0x01))),
          sent(read(0x02), 6)), [], "Waiting"),
    ("read_one_page", "AUTH0 01h with PROT: READ 00h gives page 00h four times, READ 01h is 6.", apart(auth0(0x01), PROT),
     each(sent(read(0x00), 0, data(stored(0x00, 0x00) * 4)), sent(read(0x01), 6)), [], "Waiting"),
    ("read_no_page", "AUTH0 00h with PROT: READ 00h, 38h and 3Bh are 6.", [auth0(0x00), PROT],
     each(sent(read(0x00), 6), sent(read(0x38), 6), sent(read(0x3B), 6)), [], "Waiting"),
    ("read_wraps_no_prot", "AUTH0 04h without PROT: READ 03h doesn't end at AUTH0, and READ 3Bh continues behind page 3Bh.", apart(AUTH0_04),
     each(sent(read(0x03), 0, data(OTP + stored(0x04, 0x06))), sent(read(0x3B), 0, data(pages_of(0x3B, 0x00, 0x01, 0x02)))), [], "Active"),
    ("read_wraps_random_id", "Random ID on, ACTIVE: READ 39h and 3Bh show the nine bytes as zeros behind page 3Bh.",
     apart(RANDOM_ID, locks(0x10, 0x20)),
     each(sent(read(0x39), 0, data(stored(0x39, 0x3B) + bytes(4))),
          sent(read(0x3B), 0, data(stored(0x3B, 0x3B) + bytes(9) + bytes([INTERNAL, 0x10, 0x20])))), [], "Active"),
    ("read_wraps_random_id_auth0", "The same before AUTH0 04h with PROT: READ 03h and 02h.", apart(auth0(0x04, 0x01), PROT, locks(0x10, 0x20)),
     each(sent(read(0x03), 0, data(OTP + bytes(9) + bytes([INTERNAL, 0x10, 0x20]))),
          sent(read(0x02), 0, data(bytes([0x00, INTERNAL, 0x10, 0x20]) + OTP + bytes(8)))), [], "Active"),
    ("read_wraps_keys", "AUTH0 38h with PROT: READ 36h shows the key pages as zeros, then pages 00h and 01h.", apart(auth0(0x38), PROT),
     each(sent(read(0x36), 0, data(bytes(8) + stored(0x00, 0x01)))), [], "Active"),
    ("fast_read_past_end", "FAST_READ 3Bh to 3Ch, 3Ch to 3Ch and 00h to FFh: 5.", [],
     each(sent(fast_read(0x3B, 0x3C), 5), sent(fast_read(0x3C, 0x3C), 5), sent(fast_read(0x00, 0xFF), 5)), [], "Waiting"),
    ("fast_read_all", "FAST_READ 00h to 3Bh: all pages, reserved pages as stored and key pages as zeros.", [],
     each(sent(fast_read(0x00, 0x3B), 0, data(stored(0x00, 0x2F) + bytes(32) + stored(0x38, 0x3B)))), [], "Active"),
    ("reserved_byte", "Byte 3 of page 28h reads as stored (D10).", [pair_locks("0102045a")],
     each(sent(fast_read(0x28, 0x28), 0, data(hexed("0102045a")))), [], "Active"),
    ("random_id", "Random ID on, ACTIVE: READ 00h shows nine zero bytes, then the internal byte, the lock bytes and OTP.",
     [RANDOM_ID, locks(0x10, 0x20), page(0x03, [0x0F, 0x1E, 0x2D, 0x3C])],
     [TO_ACTIVE, sent([0x30, 0x00], 0, data(bytes(9) + bytes([INTERNAL, 0x10, 0x20, 0x0F, 0x1E, 0x2D, 0x3C])))], [], "Active"),
    ("random_id_fast_read", "Random ID on, ACTIVE: the same in FAST_READ, wherever it starts.", [RANDOM_ID, locks(0x10, 0x20)],
     each(sent(fast_read(0x00, 0x02), 0, data(bytes(9) + bytes([INTERNAL, 0x10, 0x20]))), sent(fast_read(0x01, 0x01), 0, data(bytes(4))),
          sent(fast_read(0x02, 0x02), 0, data(bytes([0x00, INTERNAL, 0x10, 0x20])))), [], "Active"),
    ("other_bits_no_random_id", "CFG_0 byte 0 at FEh: Random ID is off, and READ 00h shows all.", [auth0(0x3C, 0xFE)],
     each(sent(read(0x00), 0, data(stored(0x00, 0x03)))), [], "Active"),
    ("key_pages", "Key pages read as zeros, in READ and in FAST_READ; the pages beside them show.", [],
     [TO_ACTIVE, sent([0x30, 0x30], 0, data(bytes(16))),
      sent([0x3A, 0x2F, 0x38], 0, data(stored(0x2F, 0x2F) + bytes(32) + stored(0x38, 0x38)))], [], "Active"),
    ("read_across_auth0", "AUTH0 10h with PROT: READ 0Ch ends before AUTH0, READ 0Dh and 0Fh continue at page 00h, READ 10h is 6.", [auth0(0x10), PROT],
     each(sent(read(0x0C), 0, data(stored(0x0C, 0x0F))), sent(read(0x0D), 0, data(stored(0x0D, 0x0F) + stored(0x00, 0x00))),
          sent(read(0x0F), 0, data(stored(0x0F, 0x0F) + stored(0x00, 0x02))), sent(read(0x10), 6)), [], "Waiting"),
    ("fast_read_across_auth0", "AUTH0 10h with PROT: FAST_READ 0Bh to 0Fh is 0, 0Fh to 10h is 6.", [auth0(0x10), PROT],
     each(sent(fast_read(0x0B, 0x0F), 0, data(stored(0x0B, 0x0F))), sent(fast_read(0x0F, 0x10), 6)), [], "Waiting"),
    ("prot_off", "AUTH0 04h without PROT: READ 04h and FAST_READ 3Bh to 3Bh are 0.", [AUTH0_04],
     each(sent(read(0x04), 0, data(stored(0x04, 0x07))), sent(fast_read(0x3B, 0x3B), 0, data(stored(0x3B, 0x3B)))), [], "Active"),
    ("other_bits_no_prot", "AUTH0 04h and CFG_1 byte 0 at 7Fh, all but PROT: READ 04h and FAST_READ 04h to 04h are 0.", [AUTH0_04, cfg_1(0x7F)],
     each(sent(read(0x04), 0, data(stored(0x04, 0x07))), sent(fast_read(0x04, 0x04), 0, data(stored(0x04, 0x04)))), [], "Active"),
    ("auth0_last_page", "AUTH0 3Bh with PROT: FAST_READ 38h to 3Ah is 0, READ 38h continues at page 00h behind 3Ah, READ 3Bh is 6.",
     [auth0(0x3B), PROT],
     each(sent(fast_read(0x38, 0x3A), 0, data(stored(0x38, 0x3A))), sent(read(0x38), 0, data(stored(0x38, 0x3A) + stored(0x00, 0x00))),
          sent(read(0x3B), 6)), [], "Waiting"),
    ("auth0_past_end", "AUTH0 3Ch with PROT protects nothing: READ 38h is 0, and READ 3Bh continues behind page 3Bh.", [PROT],
     each(sent(read(0x38), 0, data(stored(0x38, 0x3B))), sent(read(0x3B), 0, data(pages_of(0x3B, 0x00, 0x01, 0x02)))), [], "Active"),
    ("auth0_high_bit", "BCh in AUTH0's byte is AUTH0 3Ch: with PROT, READ 38h and WRITE 3Bh are 0.", [auth0(0xBC), PROT],
     each(sent(read(0x38), 0, data(stored(0x38, 0x3B))), sent(write(0x3B, "11223344"), 0)), [page(0x3B, hexed("11223344"))], "Active"),
    ("auth0_high_bit_low", "84h in AUTH0's byte is AUTH0 04h: with PROT, READ 01h continues at page 00h, READ 04h and WRITE 04h are 6.",
     [auth0(0x84), PROT, OTP_PAGE],
     each(sent(read(0x01), 0, data(stored(0x01, 0x02) + OTP + stored(0x00, 0x00))), sent(read(0x04), 6),
          stopped(1, write(0x04, "11223344"), 6)), [], "Waiting"),
    ("range_before_prot", "AUTH0 00h with PROT: READ 3Ch, FAST_READ 05h to 04h and 00h to 3Ch are 5, READ 00h is 6.", [auth0(0x00), PROT],
     each(sent(read(0x3C), 5), sent(fast_read(0x05, 0x04), 5), sent(fast_read(0x00, 0x3C), 5), sent(read(0x00), 6)), [], "Waiting"),
    ("key_pages_prot", "Key pages under PROT, AUTH0 30h: READ 2Ch is 0, READ 30h and FAST_READ 37h to 37h are 6.", [auth0(0x30), PROT],
     each(sent(read(0x2C), 0, data(stored(0x2C, 0x2F))), sent(read(0x30), 6), sent(fast_read(0x37, 0x37), 6)), [], "Waiting"),
]


# page 28h with block bit k of lock byte 4 set, and every bit sent as 1; what it freezes, and what is left
def pair_block(k, frozen, text):
    words = "Lock byte 4 at %02Xh, write FFh,FFh,FFh,FFh: block bit %d freezes %s." % (1 << k, k, frozen)
    return ("pair_block_bit%d" % k, words, [pair_locks("0000%02x00" % (1 << k))], each(sent(write(0x28, "ffffffff"), 0)),
            [pair_locks(text)], "Active")


# user pages, OTP, and the lock bytes of pages 02h and 28h
LOCKS = [
    ("user_page", "WRITE 04h and 27h store the bytes as sent; the next frame reads them.", [],
     each(sent(write(0x04, "00ff5aa5"), 0), sent(write(0x27, "80402010"), 0),
          sent(fast_read(0x04, 0x05), 0, data(hexed("00ff5aa5") + stored(0x05, 0x05)))),
     [page(0x04, hexed("00ff5aa5")), page(0x27, hexed("80402010"))], "Active"),
    ("otp_or", "OTP: each of the four bytes is old OR data.", [page(0x03, hexed("81422418"))], each(sent(write(0x03, "12345678"), 0)),
     [page(0x03, hexed("93767678"))], "Active"),
    ("otp_locked", "OTP locked: a write that would change nothing is 7 too.", [locks(0x08, 0x00), page(0x03, hexed("ff0000ff"))],
     each(stopped(3, write(0x03, "00000000"), 7), stopped(3, write(0x03, "ff0000ff"), 7)), [], "Waiting"),
    ("block_bit0", "Lock bytes 01h,00h, write FFh,FFh: F7h,FFh. Data bytes 0 and 1, here FFh, are ignored.", [locks(0x01, 0x00)],
     each(sent(write(0x02, "ffffffff"), 0)), [locks(0xF7, 0xFF)], "Active"),
    ("block_bit1", "Lock bytes 02h,00h, write FFh,FFh: 0Fh,FCh. Data bytes 0 and 1, here 00h, are ignored.", [locks(0x02, 0x00)],
     each(sent(write(0x02, "0000ffff"), 0)), [locks(0x0F, 0xFC)], "Active"),
    ("block_bit2", "Lock bytes 04h,00h, write FFh,FFh: FFh,03h.", [locks(0x04, 0x00)], each(sent(write(0x02, "a55affff"), 0)), [locks(0xFF, 0x03)],
     "Active"),
    ("frozen_kept", "Lock bytes 12h,01h, write FFh,FFh: frozen bits keep their value, set or not: 1Fh,FDh.", [locks(0x12, 0x01)],
     each(sent(write(0x02, "0000ffff"), 0)), [locks(0x1F, 0xFD)], "Active"),
    ("all_frozen", "Lock bytes 07h,00h, write F8h,FFh: every bit is frozen, and the write is 0.", [locks(0x07, 0x00)],
     each(sent(write(0x02, "fffff8ff"), 0)), [], "Active"),
    ("all_locked", "Lock bytes FFh,FFh: page 02h is not locked itself. A write of 00h,00h is 0, and clears nothing.", [locks(0xFF, 0xFF)],
     each(sent(write(0x02, "00000000"), 0)), [], "Active"),
    ("lock_bits_again", "Lock bytes 88h,81h, write 88h,81h: a bit that is sent again stays.", [locks(0x88, 0x81)],
     each(sent(write(0x02, "00008881"), 0)), [], "Active"),
    ("lock_bits_freeze_nothing", "Lock bytes F0h,00h, write 0Fh,FFh: FFh,FFh. Only block bits freeze.", [locks(0xF0, 0x00)],
     each(sent(write(0x02, "00000fff"), 0)), [locks(0xFF, 0xFF)], "Active"),
    ("lock_holds", "A lock bit holds from the next frame on: WRITE 02h with 10h,00h, then WRITE 04h: 7.", [],
     each(sent(write(0x02, "00001000"), 0), stopped(3, write(0x04, "11223344"), 7)), [locks(0x10, 0x00)], "Waiting"),
    ("block_bits_lock_nothing", "Lock bytes 07h,00h: WRITE 03h, 04h and 0Ah are 0.", [locks(0x07, 0x00)],
     each(sent(write(0x03, "01020304"), 0), sent(write(0x04, "11223344"), 0), sent(write(0x0A, "55667788"), 0)),
     [page(0x03, hexed("01020304")), page(0x04, hexed("11223344")), page(0x0A, hexed("55667788"))], "Active"),
    ("lock04", "Lock bytes 10h,00h: WRITE 04h is 7, 03h and 05h are 0.", [locks(0x10, 0x00)],
     each(sent(write(0x03, "01020304"), 0), sent(write(0x05, "11223344"), 0), stopped(3, write(0x04, "11223344"), 7)),
     [page(0x03, hexed("01020304")), page(0x05, hexed("11223344"))], "Waiting"),
    ("lock07", "Lock bytes 80h,00h: WRITE 07h is 7, 06h and 08h are 0.", [locks(0x80, 0x00)],
     each(sent(write(0x06, "01020304"), 0), sent(write(0x08, "11223344"), 0), stopped(3, write(0x07, "11223344"), 7)),
     [page(0x06, hexed("01020304")), page(0x08, hexed("11223344"))], "Waiting"),
    ("lock08", "Lock bytes 00h,01h: WRITE 08h is 7, 07h and 09h are 0.", [locks(0x00, 0x01)],
     each(sent(write(0x07, "01020304"), 0), sent(write(0x09, "11223344"), 0), stopped(3, write(0x08, "11223344"), 7)),
     [page(0x07, hexed("01020304")), page(0x09, hexed("11223344"))], "Waiting"),
    ("lock_0f", "Lock bytes 00h,80h: WRITE 0Fh is 7, 0Eh and 10h are 0.", [locks(0x00, 0x80)],
     each(sent(write(0x0E, "01020304"), 0), sent(write(0x10, "11223344"), 0), stopped(3, write(0x0F, "11223344"), 7)),
     [page(0x0E, hexed("01020304")), page(0x10, hexed("11223344"))], "Waiting"),
    ("lock_each", "Lock bytes F8h,FFh: WRITE 03h to 0Fh are 7 each.", [locks(0xF8, 0xFF)],
     each(*[stopped(3, write(p, "11223344"), 7) for p in range(0x03, 0x10)]), [], "Waiting"),
    ("lock_byte0_only", "Lock bytes F8h,00h: WRITE 08h to 0Fh are 0.", [locks(0xF8, 0x00)],
     each(*[sent(write(p, "11223344"), 0) for p in range(0x08, 0x10)]), [page(0x08, hexed("11223344" * 8))], "Active"),
    ("lock_byte1_only", "Lock bytes 00h,FFh: WRITE 03h to 07h are 0.", [locks(0x00, 0xFF)],
     each(*[sent(write(p, "11223344"), 0) for p in range(0x03, 0x08)]), [page(0x03, hexed("11223344" * 5))], "Active"),
]

# lock bytes 2 to 4
PAIR_LOCKS = [
    ("pair_locks_set", "Lock bytes 2 to 4 at 00h, write 81h,0Ah,00h: 81h,0Ah,00h.", [], each(sent(write(0x28, "810a0000"), 0)),
     [pair_locks("810a0000")], "Active"),
    ("pair_locks_all", "Write FFh,FFh,FFh,FFh: FFh,0Fh,3Fh,00h. Reserved bits stay 0, and the block bits just written freeze nothing.", [],
     each(sent(write(0x28, "ffffffff"), 0)), [pair_locks("ff0f3f00")], "Active"),
    ("pair_reserved_kept", "Reserved bits, lock byte 3 at 50h, lock byte 4 at 80h and byte 3 at 5Ah, write FFh,FFh,FFh,FFh: FFh,5Fh,BFh,5Ah.",
     [pair_locks("0050805a")], each(sent(write(0x28, "ffffffff"), 0)), [pair_locks("ff5fbf5a")], "Active"),
    ("pair_locks_stay", "Page 28h at A5h,FAh,EAh,5Ah, write of zeros: nothing is cleared.", [pair_locks("a5faea5a")],
     each(sent(write(0x28, "00000000"), 0)), [], "Active"),
    ("pair_locks_again", "Lock bytes 2 to 4 at 81h,09h,00h, write 81h,09h,00h: a bit that is sent again stays.", [pair_locks("81090000")],
     each(sent(write(0x28, "81090000"), 0)), [], "Active"),
    ("pair_block_bits", "Lock byte 4 at 3Fh, write FFh,FFh,FFh,FFh: every lock bit is frozen, and the write is 0.", [pair_locks("00003f00")],
     each(sent(write(0x28, "ffffffff"), 0)), [], "Active"),
    pair_block(0, "03h of lock byte 2", "fc0f3f00"),
    pair_block(1, "0Ch of lock byte 2", "f30f3f00"),
    pair_block(2, "30h of lock byte 2", "cf0f3f00"),
    pair_block(3, "C0h of lock byte 2", "3f0f3f00"),
    pair_block(4, "03h of lock byte 3", "ff0c3f00"),
    pair_block(5, "0Ch of lock byte 3", "ff033f00"),
    ("pair_frozen_kept", "Lock bytes 2 to 4 at 01h,08h,21h, write FFh,FFh,FFh: frozen bits keep their value, set or not: FDh,0Bh,3Fh.",
     [pair_locks("01082100")], each(sent(write(0x28, "ffffff00"), 0)), [pair_locks("fd0b3f00")], "Active"),
    ("pair_lock_holds", "A pair's lock bit holds from the next frame on: WRITE 28h with 02h,00h,00h, then WRITE 13h: 7.", [],
     each(sent(write(0x28, "02000000"), 0), stopped(4, write(0x13, "11223344"), 7)), [pair_locks("02000000")], "Waiting"),
    ("pair_lock10", "Lock byte 2 at 01h: WRITE 10h and 11h are 7, 0Fh and 12h are 0.", [pair_locks("01000000")],
     each(stopped(4, write(0x10, "11223344"), 7), stopped(4, write(0x11, "11223344"), 7), sent(write(0x0F, "11223344"), 0),
          sent(write(0x12, "55667788"), 0)),
     [page(0x0F, hexed("11223344")), page(0x12, hexed("55667788"))], "Active"),
    ("pair_lock_1e", "Lock byte 2 at 80h: WRITE 1Eh and 1Fh are 7, 1Dh and 20h are 0.", [pair_locks("80000000")],
     each(stopped(4, write(0x1E, "11223344"), 7), stopped(4, write(0x1F, "11223344"), 7), sent(write(0x1D, "11223344"), 0),
          sent(write(0x20, "55667788"), 0)),
     [page(0x1D, hexed("11223344")), page(0x20, hexed("55667788"))], "Active"),
    ("pair_lock20", "Lock byte 3 at 01h: WRITE 20h and 21h are 7, 1Fh and 22h are 0.", [pair_locks("00010000")],
     each(stopped(4, write(0x20, "11223344"), 7), stopped(4, write(0x21, "11223344"), 7), sent(write(0x1F, "11223344"), 0),
          sent(write(0x22, "55667788"), 0)),
     [page(0x1F, hexed("11223344")), page(0x22, hexed("55667788"))], "Active"),
    ("pair_lock26", "Lock byte 3 at 08h: WRITE 26h and 27h are 7, 25h is 0, and 28h is not locked.", [pair_locks("00080000")],
     each(stopped(4, write(0x26, "11223344"), 7), stopped(4, write(0x27, "11223344"), 7), sent(write(0x25, "11223344"), 0),
          sent(write(0x28, "01000000"), 0)),
     [page(0x25, hexed("11223344")), pair_locks("01080000")], "Active"),
    ("pair_lock_each", "Lock bytes 2 and 3 at FFh,0Fh: WRITE 11h, 13h and on to 27h are 7 each.", [pair_locks("ff0f0000")],
     each(*[stopped(4, write(p, "11223344"), 7) for p in range(0x11, 0x28, 2)]), [], "Waiting"),
    ("pair_byte2_only", "Lock bytes 2 and 3 at FFh,00h: WRITE 20h, 22h, 24h and 26h are 0.", [pair_locks("ff000000")],
     each(*[sent(write(p, "11223344"), 0) for p in range(0x20, 0x28, 2)]), [page(p, hexed("11223344")) for p in range(0x20, 0x28, 2)], "Active"),
    ("pair_byte3_only", "Lock bytes 2 and 3 at 00h,0Fh: WRITE 10h, 12h and on to 1Eh are 0.", [pair_locks("000f0000")],
     each(*[sent(write(p, "11223344"), 0) for p in range(0x10, 0x20, 2)]), [page(p, hexed("11223344")) for p in range(0x10, 0x20, 2)], "Active"),
    ("reserved_lock_nothing", "Reserved and block bits lock nothing, page 28h at 00h,F0h,FFh,FFh: WRITE 10h, 27h, 28h and 2Bh are 0.",
     [pair_locks("00f0ffff")],
     each(sent(write(0x10, "11223344"), 0), sent(write(0x27, "55667788"), 0), sent(write(0x28, "00000000"), 0), sent(write(0x2B, "99aabbcc"), 0)),
     [page(0x10, hexed("11223344")), page(0x27, hexed("55667788")), page(0x2B, hexed("99aabbcc"))], "Active"),
]

# AUTH0 in writing, the configuration pages, LOCK_KEYS and Random ID
SETTINGS = [
    ("write_past_end", "WRITE 00h, 3Ch and FFh: 5.", [],
     each(sent(write(0x00, "11223344"), 5), sent(write(0x3C, "11223344"), 5), sent(write(0xFF, "11223344"), 5)), [], "Waiting"),
    ("auth0_zero", "AUTH0 00h: WRITE 02h is 6; WRITE 00h and 3Ch are 5, which comes first.", [auth0(0x00)],
     each(stopped(1, write(0x02, "00000100"), 6), sent(write(0x00, "11223344"), 5), sent(write(0x3C, "11223344"), 5)), [], "Waiting"),
    ("auth0_with_prot", "AUTH0 04h with PROT: WRITE 04h is 6, 03h is 0, as without PROT.", [AUTH0_04, PROT],
     each(stopped(1, write(0x04, "11223344"), 6), sent(write(0x03, "01020304"), 0)), [page(0x03, hexed("01020304"))], "Active"),
    ("auth0_before_locks", "AUTH0 04h and every lock set: WRITE 04h, 10h, 29h, 2Ah, 2Dh, 30h and 34h are 6, which comes before 7.",
     [AUTH0_04] + EVERY_LOCK,
     each(*[stopped(1, write(p, "00000004"), 6) for p in (0x04, 0x10, 0x29, 0x2A, 0x2D, 0x30, 0x34)]), [], "Waiting"),
    ("auth0_last_write", "AUTH0 3Bh: WRITE 3Bh is 6, 3Ah is 0.", [auth0(0x3B)],
     each(stopped(1, write(0x3B, "11223344"), 6), sent(write(0x3A, "11223344"), 0)),
     [page(0x3A, hexed("11223344"))], "Active"),
    ("auth0_above", "AUTH0 7Fh protects nothing: WRITE 3Bh is 0.", [auth0(0x7F)], each(sent(write(0x3B, "11223344"), 0)),
     [page(0x3B, hexed("11223344"))], "Active"),
    ("auth0_keys", "AUTH0 30h: WRITE 30h and 37h are 6, 2Fh is 0.", [auth0(0x30)],
     each(stopped(1, write(0x30, "11223344"), 6), stopped(1, write(0x37, "11223344"), 6), sent(write(0x2F, "11223344"), 0)),
     [page(0x2F, hexed("11223344"))], "Active"),
    ("auth0_holds", "A setting holds from the next frame on: WRITE 29h with AUTH0 04h, then WRITE 04h: 6.", [],
     each(sent(write(0x29, "00000004"), 0), stopped(1, write(0x04, "11223344"), 6)), [AUTH0_04], "Waiting"),
    ("config_as_sent", "WRITE 29h and 2Ah store the bytes as sent, reserved bits too.", [],
     each(sent(write(0x29, "fe5aa5fc"), 0), sent(write(0x2A, "bf5a12fe"), 0)), [page(0x29, hexed("fe5aa5fc")), page(0x2A, hexed("bf5a12fe"))],
     "Active"),
    ("config_cleared", "WRITE 29h and 2Ah clear bits too: no bit but LOCK_USR_CFG is one-way there.",
     [page(0x29, hexed("fefffffc")), page(0x2A, hexed("bffffffc"))],
     each(sent(write(0x29, "0000003c"), 0), sent(write(0x2A, "00000000"), 0)), [page(0x29, hexed("0000003c")), page(0x2A, bytes(4))], "Active"),
    ("plain_cleared", "User and reserved pages at FFh, write of zeros: zeros.", [page(p, hexed("ffffffff")) for p in (0x04, 0x2B, 0x2E)],
     each(*[sent(write(p, "00000000"), 0) for p in (0x04, 0x2B, 0x2E)]), [page(p, bytes(4)) for p in (0x04, 0x2B, 0x2E)], "Active"),
    ("reserved_pages", "Reserved pages store the bytes as sent.", [],
     each(*[sent(write(p, "ff00a55a"), 0) for p in (0x2B, 0x2C, 0x2E, 0x2F, 0x38, 0x3B)]),
     [page(p, hexed("ff00a55a")) for p in (0x2B, 0x2C, 0x2E, 0x2F, 0x38, 0x3B)], "Active"),
    ("data_prot_key_locked", "LOCK_KEYS bit 6 set: WRITE 30h and 33h are 7, 2Fh and 34h are 0.", [key_locks("40000000")],
     each(stopped(5, write(0x30, "11223344"), 7), stopped(5, write(0x33, "11223344"), 7), sent(write(0x2F, "11223344"), 0),
          sent(write(0x34, "55667788"), 0)),
     [page(0x2F, hexed("11223344")), page(0x34, hexed("55667788"))], "Active"),
    ("uid_retr_key_locked", "LOCK_KEYS bit 7 set: WRITE 34h and 37h are 7, 33h and 38h are 0.", [key_locks("80000000")],
     each(stopped(5, write(0x34, "11223344"), 7), stopped(5, write(0x37, "11223344"), 7), sent(write(0x33, "11223344"), 0),
          sent(write(0x38, "55667788"), 0)),
     [page(0x33, hexed("11223344")), page(0x38, hexed("55667788"))], "Active"),
    ("key_locks_blocked", "LOCK_KEYS bit 5 set: WRITE 2Dh is 7, whatever it holds; WRITE 30h and 34h are 0.", [key_locks("20000000")],
     each(stopped(5, write(0x2D, "20000000"), 7), stopped(5, write(0x2D, "e0000000"), 7), stopped(5, write(0x2D, "00000000"), 7),
          sent(write(0x30, "11223344"), 0), sent(write(0x34, "55667788"), 0)), [page(0x30, hexed("11223344")), page(0x34, hexed("55667788"))], "Active"),
    ("other_bits_lock_no_key", "LOCK_KEYS at 1Fh, all but its three bits: WRITE 30h, 34h and 2Dh are 0.", [key_locks("1fffffff")],
     each(sent(write(0x30, "11223344"), 0), sent(write(0x34, "55667788"), 0), sent(write(0x2D, "00000000"), 0)),
     [page(0x30, hexed("11223344")), page(0x34, hexed("55667788")), key_locks("00000000")], "Active"),
    ("key_locks_together", "LOCK_KEYS bits 5, 6 and 7 set in one write: 0, and all three hold from the next frame on.", [],
     each(sent(write(0x2D, "e0123456"), 0), stopped(5, write(0x30, "11223344"), 7), stopped(5, write(0x34, "11223344"), 7),
          stopped(5, write(0x2D, "e0123456"), 7)),
     [key_locks("e0123456")], "Waiting"),
    ("key_locks_stay", "LOCK_KEYS bit 6 set, write 00h: bit 6 is kept and all else is as sent. A write of 80h then gives C0h.",
     [key_locks("5faabbcc")],
     each(sent(write(0x2D, "00112233"), 0), sent(fast_read(0x2D, 0x2D), 0, data(hexed("40112233"))), sent(write(0x2D, "80000000"), 0),
          sent(fast_read(0x2D, 0x2D), 0, data(hexed("c0000000"))), sent(write(0x2D, "1f000000"), 0)), [key_locks("df000000")], "Active"),
    ("config_locked", "LOCK_USR_CFG set: WRITE 29h and 2Ah are 7, the latter with bit 6 clear too; WRITE 28h, 2Bh and 2Dh are 0.", [CONFIG_LOCKED],
     each(stopped(6, write(0x29, "0000003c"), 7), stopped(6, write(0x2A, "4c050000"), 7), stopped(6, write(0x2A, "0c050000"), 7),
          sent(write(0x28, "01000000"), 0), sent(write(0x2B, "11223344"), 0), sent(write(0x2D, "80000000"), 0)),
     [pair_locks("01000000"), page(0x2B, hexed("11223344")), key_locks("80000000")], "Active"),
    ("config_lock_set", "The write that sets LOCK_USR_CFG is carried out in full; the next one is 7.", [],
     each(sent(write(0x2A, "4c7788fe"), 0), stopped(6, write(0x2A, "0c050000"), 7)), [page(0x2A, hexed("4c7788fe"))], "Waiting"),
    ("other_bits_no_config_lock", "CFG_1 byte 0 at BFh, all but LOCK_USR_CFG: WRITE 29h and 2Ah are 0.", [cfg_1(0xBF)],
     each(sent(write(0x29, "00112233"), 0), sent(write(0x2A, "0c050000"), 0)), [page(0x29, hexed("00112233")), cfg_1(0x0C)], "Active"),
    ("random_id_switched_on", "A CFG_0 write that sets the Random ID bit in ACTIVE: 6.", [], each(stopped(2, write(0x29, "0100003c"), 6)), [],
     "Waiting"),
    ("random_id_switched_off", "A CFG_0 write that clears the Random ID bit in ACTIVE: 6.", [RANDOM_ID],
     each(stopped(2, write(0x29, "0000003c"), 6)), [], "Waiting"),
    ("random_id_kept", "CFG_0 writes in ACTIVE that keep the Random ID bit, set: 0.", [RANDOM_ID], each(sent(write(0x29, "0311227f"), 0)),
     [page(0x29, hexed("0311227f"))], "Active"),
    ("random_id_kept_off", "CFG_0 writes in ACTIVE that keep the Random ID bit, clear: 0.", [], each(sent(write(0x29, "0211227f"), 0)),
     [page(0x29, hexed("0211227f"))], "Active"),
    ("other_bits_switch_nothing", "CFG_0 byte 0 at FEh: a write of 00h there keeps the Random ID bit, 0; one of 01h changes it, 6.",
     [auth0(0x3C, 0xFE)],
     each(sent(write(0x29, "0000003c"), 0), stopped(2, write(0x29, "0100003c"), 6)), [auth0(0x3C)], "Waiting"),
    ("random_id_locked", "LOCK_USR_CFG set: a CFG_0 write that changes the Random ID bit in ACTIVE is 6, one that keeps it is 7.", [CONFIG_LOCKED],
     each(stopped(2, write(0x29, "0100003c"), 6), stopped(6, write(0x29, "0000003c"), 7)), [], "Waiting"),
    ("auth0_before_random_id", "AUTH0 29h, ACTIVE: a CFG_0 write that changes the Random ID bit is stopped by AUTH0.", [auth0(0x29)],
     each(stopped(1, write(0x29, "01000029"), 6)), [], "Waiting"),
    ("auth0_before_both", "AUTH0 29h and LOCK_USR_CFG set, ACTIVE: AUTH0 is the first of the three rules that stop a CFG_0 write with another Random ID bit.",
     [auth0(0x29), CONFIG_LOCKED], each(stopped(1, write(0x29, "01000029"), 6)), [], "Waiting"),
    ("lock_reasons", "Every lock set: WRITE 03h and 0Fh are stopped by their own lock bit, 10h and 27h by their pair's, 2Dh, 30h and 37h by a key lock, "
     "29h and 2Ah by the configuration lock.", EVERY_LOCK,
     each(stopped(3, write(0x03, "11223344"), 7), stopped(3, write(0x0F, "11223344"), 7), stopped(4, write(0x10, "11223344"), 7),
          stopped(4, write(0x27, "11223344"), 7), stopped(5, write(0x2D, "00000000"), 7), stopped(5, write(0x30, "11223344"), 7),
          stopped(5, write(0x37, "11223344"), 7), stopped(6, write(0x29, "0000003c"), 7), stopped(6, write(0x2A, "0c050000"), 7)), [], "Waiting"),
    ("no_reason", "AUTH0 02h with PROT, LOCK_USR_CFG set, counter 2 closed: READ, FAST_READ, READ_CNT and INCR_CNT are 6, WRITE 01h and 3Ch are 5, and a "
     "WRITE with a byte too few is 4, all without a reason; WRITE 04h is stopped by AUTH0.", [auth0(0x02), cfg_1(0xC0), locks(0xF8, 0xFF)],
     each(sent(read(0x04), 6), sent(fast_read(0x04, 0x04), 6), sent(read_cnt(2), 6), sent(incr_cnt(2, "01000000"), 6),
          sent(write(0x01, "11223344"), 5), sent(write(0x3C, "11223344"), 5), sent(write(0x04, "112233"), 4), stopped(1, write(0x04, "11223344"), 6)),
     [], "Waiting"),
]

# READ_CNT and INCR_CNT
COUNTERS = [
    ("read_counter", "A counter goes out low byte first.", [counter(1, 0x030201)],
     [TO_ACTIVE, sent([0x39, 0x01], 0, data([0x01, 0x02, 0x03]))], [], "Active"),
    ("increment_bytes", "INCR_CNT 1 with 03h,02h,01h,FFh adds 010203h: the fourth byte is ignored.", [],
     each(sent(incr_cnt(1, "030201ff"), 0), sent(read_cnt(1), 0, data(hexed("030201")))), [counter(1, 0x010203)], "Active"),
    ("counters_apart", "Each counter is raised by itself, with a carry, and read by its number.",
     [counter(0, 0x0000FF), counter(1, 0x00FFFF), counter(2, 0x123456)],
     each(sent(incr_cnt(0, "01000000"), 0), sent(incr_cnt(1, "02000000"), 0), sent(incr_cnt(2, "aa000000"), 0), sent(incr_cnt(2, "00010000"), 0),
          sent(read_cnt(0), 0, data(hexed("000100"))), sent(read_cnt(1), 0, data(hexed("010001"))), sent(read_cnt(2), 0, data(hexed("003612")))),
     [counter(0, 0x000100), counter(1, 0x010001), counter(2, 0x123600)], "Active"),
    ("counter_number3", "Counter number 3: READ_CNT and INCR_CNT are 5, and so is FFh.", [],
     each(sent(read_cnt(3), 5), sent(incr_cnt(3, "01000000"), 5), sent(read_cnt(0xFF), 5), sent(incr_cnt(0xFF, "00000000"), 5)), [], "Waiting"),
    ("counter2_not_read", "CNT_RD_EN 0, CNT_INC_EN 1: READ_CNT 2 is 6, INCR_CNT 2 is 0; the other counters are open.",
     [cfg_1(0x08), counter(2, 0x123456)],
     each(sent(read_cnt(2), 6), sent(incr_cnt(2, "01000000"), 0), sent(read_cnt(0), 0, data(bytes(3))), sent(read_cnt(1), 0, data(bytes(3)))),
     [counter(2, 0x123457)], "Active"),
    ("counter2_not_raised", "CNT_RD_EN 1, CNT_INC_EN 0: INCR_CNT 2 is 6, READ_CNT 2 is 0; the other counters are open.",
     [cfg_1(0x04), counter(2, 0x123456)],
     each(sent(incr_cnt(2, "01000000"), 6), sent(read_cnt(2), 0, data(hexed("563412"))), sent(incr_cnt(0, "01000000"), 0),
          sent(incr_cnt(1, "01000000"), 0)), [counter(0, 1), counter(1, 1)], "Active"),
    ("other_bits_open_nothing", "CFG_1 byte 0 at F3h, all but the two settings of counter 2: READ_CNT 2 and INCR_CNT 2 are 6.", [cfg_1(0xF3)],
     each(sent(read_cnt(2), 6), sent(incr_cnt(2, "01000000"), 6)), [], "Waiting"),
    ("zero_at_highest", "Increment 0 at FFFFFFh: 0; with FFh as the fourth byte too.", [counter(0, 0xFFFFFF)],
     each(sent(incr_cnt(0, "00000000"), 0), sent(incr_cnt(0, "000000ff"), 0), sent(read_cnt(0), 0, data(hexed("ffffff")))), [], "Active"),
    ("highest_at_once", "Increment FFFFFFh: 0 from 0, and 9 from 1.", [counter(2, 1)],
     each(sent(incr_cnt(1, "ffffff00"), 0), sent(incr_cnt(2, "ffffff00"), 9)), [counter(1, 0xFFFFFF)], "Waiting"),
    ("past_highest", "FFFFFFh plus 1: 9 for each counter.", [counter(0, 0xFFFFFF), counter(1, 0xFFFFFF), counter(2, 0xFFFFFF)],
     each(*[sent(incr_cnt(k, "01000000"), 9) for k in range(3)]), [], "Waiting"),
    ("closed_before_past", "Counter 2 closed and at FFFFFFh, plus 1: 6.", [cfg_1(0x00), counter(2, 0xFFFFFF)], each(sent(incr_cnt(2, "01000000"), 6)),
     [], "Waiting"),
    ("counters_no_pages", "AUTH0 00h with PROT has no effect on counters.", [auth0(0x00), PROT],
     each(*([sent(incr_cnt(k, "01000000"), 0) for k in range(3)] + [sent(read_cnt(k), 0, data(hexed("010000"))) for k in range(3)])),
     [counter(k, 1) for k in range(3)], "Active"),
]

# AUTHENTICATE
PART_1 = sent([0x1A, 0x00], 0, data(b"\xaf" + STEP_2), RND_B)
LOGINS = [
    # Table 17, and logins with the keys that 8.6.3 writes
    ("table17", "009 Table 17 in full: the login with the key of zeros.", [TABLE_KEY_PAGES],
     [TO_ACTIVE, sent([0x1A, 0x00], 0, data(b"\xaf" + STEP_2), RND_B), sent(b"\xaf" + STEP_3, 0, data(b"\x00" + STEP_4))], [], "Authenticated"),
    ("data_prot_key", "8.6.3's WRITEs of the key 000102..0F as DataProtKey, and a login with it; the count 20 is lowered by 16.",
     [AUTH_LIM_0028, failed(20)],
     [TO_ACTIVE] + key_writes(0x30) + [part_1(0, KEY_863, B_2), part_2(KEY_863, A_2, B_2)], key_pages(0x30) + [failed(4)], "Authenticated"),
    ("uid_retr_key", "The same as UIDRetrKey, with Random ID on: TRACEABLE shows the serial number. The count 5 is set to 0.",
     [AUTH_LIM_0028, RANDOM_ID, failed(5)],
     [TO_ACTIVE] + key_writes(0x34) + [part_1(1, KEY_863, B_2), part_2(KEY_863, A_2, B_2), sent([0x3A, 0x00, 0x02], 0, data(stored(0x00, 0x02)))],
     key_pages(0x34) + [failed(0)], "Traceable"),
    ("false_proof", "A proof whose last bit is wrong, AUTH_LIM 0102h: 8, and the count goes from 0101h to 0102h. The next frame is 1.",
     [TABLE_KEY_PAGES, AUTH_LIM_0102, failed(0x0101)],
     [TO_ACTIVE, sent([0x1A, 0x00], 0, data(b"\xaf" + STEP_2), RND_B), sent(b"\xaf" + FALSE_PROOF, 8), sent([0x30, 0x04], 1)],
     [failed(0x0102)], "Waiting"),
    ("read_after_login", "AUTH0 04h with PROT: READ 03h continues at page 00h; after a login READ 02h, 03h and 04h don't end at AUTH0.",
     apart(AUTH0_04, PROT),
     [TO_ACTIVE, sent(read(0x03), 0, data(OTP + stored(0x00, 0x02))), part_1(0, BASE_KEY, RND_B), part_2(BASE_KEY, RND_A, RND_B),
      sent(read(0x02), 0, data(stored(0x02, 0x02) + OTP + stored(0x04, 0x05))), sent(read(0x03), 0, data(OTP + stored(0x04, 0x06))),
      sent(read(0x04), 0, data(stored(0x04, 0x07)))], [], "Authenticated"),
    ("garbled_proof", "Table 17's proof with one bit changed and the CRC kept, AUTH_LIM 0102h: 2, and the count stays.",
     [TABLE_KEY_PAGES, AUTH_LIM_0102, failed(0x0101)],
     [TO_ACTIVE, sent([0x1A, 0x00], 0, data(b"\xaf" + STEP_2), RND_B), framed(GARBLED, 2)], [], "Waiting"),
    ("count_at_limit", "The count at AUTH_LIM: 11 at part 1.", [AUTH_LIM_0102, failed(0x0102)], [TO_ACTIVE, sent([0x1A, 0x00], 11, random=RND_B)], [],
     "Waiting"),
    ("originality_key", "A login with the originality key leaves ACTIVE; with AUTH_LIM 0 the count stays.", [failed(7)],
     [TO_ACTIVE, part_1(2, ORIGINALITY, B_2), part_2(ORIGINALITY, A_2, B_2)], [], "Active"),
    ("key_number3", "Key number 3: 5, and so is FFh.", [], each(sent([0x1A, 0x03], 5), sent([0x1A, 0xFF], 5)), [],
     "Waiting"),
    ("key_number_before_limit", "Key number 3 with the count at AUTH_LIM: 5.", [AUTH_LIM_0102, failed(0x0102)],
     each(sent([0x1A, 0x03], 5)), [], "Waiting"),
    ("limit_each_key", "The count above AUTH_LIM, whose reserved bits are set: 11 at part 1 with each key.",
     [page(0x2A, hexed("0c0502fd")), failed(0x0103)],
     each(*[sent([0x1A, k], 11) for k in range(3)]), [], "Waiting"),
    ("read_while_challenged", "READ while CHALLENGED: 3; AUTH_LIM 0102h, and the count stays. The next frame is 1.",
     [TABLE_KEY_PAGES, AUTH_LIM_0102, failed(0x0101)], [TO_ACTIVE, PART_1, framed(READ_04, 3), framed(READ_04, 1)], [], "Waiting"),
    ("short_proof", "AFh with a byte too few while CHALLENGED: 4; AUTH_LIM 0102h, and the count stays.",
     [TABLE_KEY_PAGES, AUTH_LIM_0102, failed(0x0101)], [TO_ACTIVE, PART_1, sent(b"\xaf" + STEP_3[:31], 4)], [], "Waiting"),
]

# ---- rows that begin where no loading leaves a tag: the state and the challenge bytes, and a row as above

NO_CHALLENGE = bytes(16)
CLOSED = cfg_1(0x80)
LIMIT_0101 = [AUTH_LIM_0102, failed(0x0101)]

BEGUN = [
    ("Challenged 0", RND_B, "challenged_halt", "CHALLENGED: HLTA is 3; AUTH_LIM 0102h, and the count stays.", LIMIT_0101, [sent(HLTA, 3)], [],
     "Waiting"),
    ("Challenged 1", RND_B, "challenged_part1", "CHALLENGED: part 1 is 3.", LIMIT_0101, [sent([0x1A, 0x01], 3)], [], "Waiting"),
    ("Challenged 2", RND_B, "challenged_unknown", "CHALLENGED: an unknown code is 3.", LIMIT_0101, [sent([0x60], 3)], [], "Waiting"),
    ("Challenged 0", RND_B, "challenged_other_length", "CHALLENGED: READ with another length is 3.", LIMIT_0101, [sent([0x30], 3)], [], "Waiting"),
    ("Challenged 1", RND_B, "long_proof", "CHALLENGED: AFh with a byte too many is 4; AUTH_LIM 0102h, and the count stays.", LIMIT_0101,
     [sent(b"\xaf" + STEP_3 + b"\x00", 4)], [], "Waiting"),
    ("Challenged 2", RND_B, "proof_alone", "CHALLENGED: AFh alone with its CRC is 4.", LIMIT_0101, [sent(b"\xaf", 4)], [], "Waiting"),
    ("Challenged 0", RND_B, "limit_at_part2", "CHALLENGED with the count at AUTH_LIM: a right proof is 11, and the count stays.",
     [TABLE_KEY_PAGES, AUTH_LIM_0102, failed(0x0102)], [sent(b"\xaf" + STEP_3, 11)], [], "Waiting"),
    ("Challenged 0", RND_B, "limit_false_proof", "CHALLENGED with the count at AUTH_LIM: a false proof is 11 too, and the count stays.",
     [TABLE_KEY_PAGES, AUTH_LIM_0102, failed(0x0102)], [sent(b"\xaf" + FALSE_PROOF, 11)], [], "Waiting"),
    ("Challenged 1", RND_B, "power_drops", "Power in CHALLENGED: WAITING, and the challenge bytes are zero.", [], [POWER], [], "Waiting"),
    ("Challenged 1", RND_B, "select_drops", "Select in CHALLENGED: ACTIVE, and the challenge bytes are zero.", [], [SELECT], [], "Active"),
    ("Unknown 9", RND_B, "power_unknown", "Power in a state that doesn't exist.", [], [POWER], [], "Waiting"),
    ("Unknown 9", RND_B, "select_unknown", "Select in a state that doesn't exist.", [], [SELECT], [], "Active"),
    ("Active", RND_B, "challenge_dropped", "Challenge bytes that aren't zero in ACTIVE are zero after a READ.", [],
     [framed(READ_04, 0, data(stored(0x04, 0x07)))], [], "Active"),
    ("Active", RND_B, "challenge_dropped_refused", "And after a refusal.", [], [sent(read(0x3C), 5)], [], "Waiting"),
    ("Active", NO_CHALLENGE, "reason_once",
     "A reason belongs to one answer: WRITE 04h is stopped by its lock bit, is 1 without a reason in WAITING, and is stopped again.",
     [locks(0x10, 0x00)],
     [stopped(3, write(0x04, "11223344"), 7), sent(write(0x04, "11223344"), 1), SELECT, stopped(3, write(0x04, "11223344"), 7)], [], "Waiting"),
    ("Traceable", NO_CHALLENGE, "traceable_proof", "TRACEABLE: AFh is 3.", [], [sent(b"\xaf" + STEP_3, 3)], [], "Waiting"),
    ("Authenticated", NO_CHALLENGE, "authenticated_proof", "AUTHENTICATED: AFh is 3.", [], [sent(b"\xaf" + STEP_3, 3)], [], "Waiting"),
    ("Traceable", NO_CHALLENGE, "traceable_halt", "TRACEABLE: HLTA is 0 with silence, and WAITING.", [], [sent(HLTA, 0, SILENCE)], [], "Waiting"),
    ("Authenticated", NO_CHALLENGE, "authenticated_halt", "AUTHENTICATED: HLTA is 0 with silence, and WAITING.", [], [sent(HLTA, 0, SILENCE)], [],
     "Waiting"),
    ("Authenticated", NO_CHALLENGE, "authenticated_opens",
     "AUTHENTICATED, AUTH0 00h with PROT and counter 2 closed: all is open, and key pages read as zeros.",
     [auth0(0x00), CLOSED, counter(2, 0x123456)],
     [sent(read(0x00), 0, data(stored(0x00, 0x03))), sent(fast_read(0x30, 0x30), 0, data(bytes(4))), sent(write(0x04, "11223344"), 0),
      sent(read_cnt(2), 0, data(hexed("563412"))), sent(incr_cnt(2, "01000000"), 0)], [page(0x04, hexed("11223344")), counter(2, 0x123457)],
     "Authenticated"),
    ("Authenticated", NO_CHALLENGE, "authenticated_wraps",
     "AUTHENTICATED, AUTH0 04h with PROT, Random ID on: READ 02h, 03h and 04h don't end at AUTH0, and READ 3Bh shows pages 00h to 02h.",
     apart(auth0(0x04, 0x01), PROT),
     [sent(read(0x02), 0, data(stored(0x02, 0x02) + OTP + stored(0x04, 0x05))), sent(read(0x03), 0, data(OTP + stored(0x04, 0x06))),
      sent(read(0x04), 0, data(stored(0x04, 0x07))), sent(read(0x3B), 0, data(pages_of(0x3B, 0x00, 0x01, 0x02)))], [], "Authenticated"),
    ("Authenticated", NO_CHALLENGE, "authenticated_locked", "AUTHENTICATED: a locked page is 7.", [locks(0x10, 0x00)],
     [stopped(3, write(0x04, "11223344"), 7)], [], "Waiting"),
    ("Authenticated", NO_CHALLENGE, "authenticated_lock_reason", "AUTHENTICATED, AUTH0 04h: a locked page is stopped by its own lock bit.",
     [AUTH0_04, locks(0x10, 0x00)], [stopped(3, write(0x04, "11223344"), 7)], [], "Waiting"),
    ("Authenticated", NO_CHALLENGE, "authenticated_random_id", "AUTHENTICATED, Random ID on: READ 00h shows all, and WRITE 29h switches it off.",
     [RANDOM_ID],
     [sent(read(0x00), 0, data(stored(0x00, 0x03))), sent(write(0x29, "0000003c"), 0)], [page(0x29, hexed("0000003c"))], "Authenticated"),
    ("Authenticated", NO_CHALLENGE, "authenticated_config_locked", "AUTHENTICATED, LOCK_USR_CFG set: WRITE 29h with another Random ID bit is 7.",
     [CONFIG_LOCKED], [stopped(6, write(0x29, "0100003c"), 7)], [], "Waiting"),
    ("Traceable", NO_CHALLENGE, "traceable_read", "TRACEABLE, AUTH0 04h with PROT: READ 04h is 6.", [AUTH0_04, PROT], [sent(read(0x04), 6)], [],
     "Waiting"),
    ("Traceable", NO_CHALLENGE, "traceable_wraps", "TRACEABLE, AUTH0 04h with PROT, Random ID on: READ 03h continues at page 00h and shows it.",
     apart(auth0(0x04, 0x01), PROT), [sent(read(0x03), 0, data(OTP + stored(0x00, 0x02)))], [], "Traceable"),
    ("Traceable", NO_CHALLENGE, "traceable_write", "TRACEABLE, AUTH0 04h: WRITE 04h is 6.", [AUTH0_04], [stopped(1, write(0x04, "11223344"), 6)], [],
     "Waiting"),
    ("Traceable", NO_CHALLENGE, "traceable_read_cnt", "TRACEABLE, counter 2 closed: READ_CNT 2 is 6.", [CLOSED], [sent(read_cnt(2), 6)], [],
     "Waiting"),
    ("Traceable", NO_CHALLENGE, "traceable_incr_cnt", "TRACEABLE, counter 2 closed: INCR_CNT 2 is 6.", [CLOSED], [sent(incr_cnt(2, "01000000"), 6)],
     [], "Waiting"),
    ("Traceable", NO_CHALLENGE, "traceable_counter2", "TRACEABLE, counter 2 open: 0.", [],
     [sent(incr_cnt(2, "01000000"), 0), sent(read_cnt(2), 0, data(hexed("010000")))], [counter(2, 1)], "Traceable"),
    ("Traceable", NO_CHALLENGE, "traceable_random_id", "TRACEABLE: WRITE 29h switches Random ID on, and READ 00h still shows all.", [],
     [sent(write(0x29, "0100003c"), 0), sent(read(0x00), 0, data(stored(0x00, 0x03)))], [RANDOM_ID], "Traceable"),
    ("Traceable", NO_CHALLENGE, "traceable_random_id_auth0", "TRACEABLE, AUTH0 29h: WRITE 29h is 6.", [auth0(0x29)],
     [stopped(1, write(0x29, "01000029"), 6)], [], "Waiting"),
    ("Traceable", NO_CHALLENGE, "traceable_config_locked", "TRACEABLE, LOCK_USR_CFG set: WRITE 29h with another Random ID bit is 7.", [CONFIG_LOCKED],
     [stopped(6, write(0x29, "0100003c"), 7)], [], "Waiting"),
]


# ---- the text

WIDTH = 140
# the longest byte string that is one number; a longer one is several, each of sixteen bytes, on lines of their own
LONGEST = 44


# a byte string as it is printed, in groups of the given lengths; what is left over is one more group
def hexes(data, groups=()):
    if not data:
        return "[]"
    if len(data) > LONGEST:
        return "(\n" + " ++\n".join(hexes(data[i:i + 16], [4] * 3)[1:-1] for i in range(0, len(data), 16)) + ")"
    parts, at = [], 0
    for n in groups:
        parts.append(data[at:at + n].hex())
        at += n
    parts.append(data[at:].hex())
    return "(hex %d 0x%s)" % (len(data), "_".join(part for part in parts if part))


def of_place(change):
    kind, number, payload = change
    place = kind if number is None else "%s 0x%02x" % (kind, number) if kind == "page" else "%s %d" % (kind, number)
    return place + " " + hexes(payload, [4] * ((len(payload) - 1) // 4))


def of_reply(reply):
    if reply[0] == "silence":
        return "silence"
    if reply[0] == "nibble":
        return "ack" if reply[1] == 0xA else "(nibble 0x%x)" % reply[1]
    data = reply[1]
    return "(bytes %s)" % hexes(data, [1, 16] if len(data) == 19 else [3] if len(data) == 5 else [4] * (len(data) // 4))


# the code with its page or number, what follows, and the CRC
def of_frame(frame):
    if len(frame) < 3:
        return hexes(frame)
    groups, left = [], len(frame) - 2
    for n in {0xA2: [2, 4], 0xA5: [2, 4], 0x3A: [3], 0xAF: [1, 16, 16]}.get(frame[0], [2]):
        groups.append(min(n, left))
        left -= groups[-1]
    return hexes(frame, groups + [left])


def of_line(line):
    if line[0] == "power":
        return "powered"
    if line[0] == "select":
        return "selected"
    _, frame, random, number, reply, place = line
    call = "stopped %d" % place if place else "sent" if random == SPARE else "sent_with " + hexes(random)
    return call + " %s %d %s" % (of_frame(frame), number, of_reply(reply))


def wrapped(words, indent):
    """The words in lines of at most WIDTH characters."""
    lines, line = [], ""
    for word in words:
        if line and len(indent) + len(line) + 1 + len(word) > WIDTH:
            lines.append(indent + line)
            line = word
        else:
            line = line + " " + word if line else word
    return "\n".join(lines + [indent + line])


# a field whose value is a list, with something in front of the list and behind it: on one line where it fits, else an item a line
def listed(field, before, items, after=""):
    whole = "  %s = %s%s%s;" % (field, before, " ∷ ".join(items + ["[]"]), after)
    if len(whole) <= WIDTH and "\n" not in whole:
        return [whole]
    lines = ["  %s =" % field] + (["      " + before] if before else [])
    for item in items[:-1]:
        lines += broken("      %s ∷" % item)
    return lines + broken("      %s ∷ []%s;" % (items[-1], after))


# a line that is too long is broken before its reply
def broken(line):
    if "\n" in line:
        return line.replace("\n", "\n      ").split("\n")
    at = line.find(" (bytes ")
    return [line] if len(line) <= WIDTH or at < 0 else [line[:at], "     " + line[at:]]


def commented(words):
    return wrapped(("-- " + words).split(" "), "").replace("\n", "\n-- ")


def row(name, words, changes, lines, changed, state, begun=""):
    active = lines[0] == TO_ACTIVE
    calls = []
    for line in lines[1:] if active else lines:
        # a selection stands on the line of the frame behind it
        after = calls and calls[-1] == "selected" and len(calls) > 1
        calls = (calls[:-1] + ["selected ∷ " + of_line(line)]) if after else calls + [of_line(line)]
    text = [commented(words), "abbrev pub %s : %s" % (name, "Direct" if begun else "Case"), "%s = %srecord {" % (name, begun)]
    text += listed("image", "patched base (", [of_place(c) for c in changes], ")") if changes else ["  image = base;"]
    text += listed("lines", "to_active ++ (", calls, ")") if active else listed("lines", "", calls)
    text += listed("changed", "", [of_place(c) for c in changed])
    return "\n".join(text + ["  state = %s;" % state, "}"])


def named_list(name, kind, items, behind="∷", end="[]"):
    words = ["%s %s" % (item, behind) for item in items] + [end] if end else ["%s %s" % (i, behind) for i in items[:-1]] + items[-1:]
    return "unfoldable pub %s : List %s\n%s =\n%s" % (name, kind, name, wrapped(words, "    "))


def rows(name, table):
    return "\n\n".join([row(*r) for r in table] + [named_list(name, "Case", [r[0] for r in table])])


THEMES = [
    ("Frames", "frame_cases", FRAMES),
    ("Reading", "reading_cases", READING),
    ("Locks", "lock_cases", LOCKS),
    ("PairLocks", "pair_lock_cases", PAIR_LOCKS),
    ("Settings", "setting_cases", SETTINGS),
    ("Counters", "counter_cases", COUNTERS),
]


# a statement over a list of rows
def statement(name, test, joined):
    return "\n\nabbrev pub %s : Type 0\n%s = T (%s %s)\n" % (name, name, test, joined)


def document_rows():
    return rows("cases", DOCUMENT) + statement("CasesRight", "all_right", "cases")


def login_rows():
    return rows("login_cases", LOGINS) + statement("LoginsRight", "all_right", "login_cases")


def themes():
    return named_list("theme_cases", "Case", [name for _, name, _ in THEMES], "++", "") + statement("ThemesRight", "all_right", "theme_cases")


def base():
    sixteens = [" ∷ ".join("0x%02x" % b for b in part) + " ∷" for part in
                [BASE[:1]] + [BASE[i:i + 16] for i in range(1, 241, 16)] + [BASE[241:251], BASE[251:254], BASE[254:]]]
    words = "-- the count, four pages a line, and a line for each section behind them"
    return words + "\nunfoldable pub base : List ℕ\nbase =\n" + "\n".join("    " + s for s in sixteens) + " []\n"


# ---- the second list: records, stores and buffers as they are given to the calls


def begun_row(state, challenge, *r):
    parts = (state if " " not in state else "(%s)" % state, "zeros" if challenge == NO_CHALLENGE else hexes(challenge))
    return row(*r, begun="begun %s %s " % parts)


# name, words, and the items of a list: what is given to a call, and what must come of it
FULL_IMAGE = [counter(0, 0x030201), counter(1, 0x060504), counter(2, 0xFFFFFF), failed(1023)]
FULL_TAG = "held (0x030201 ∷ 0x060504 ∷ 0xffffff ∷ []) 1023 challenge st"
LISTS = [
    ("nothing_wrong", "With nothing wrong the three frames are 0, 2 and 1, and a longer reply buffer is as good. 1 keeps the record as it came.", [
        "framed (sound Active) pages read04 spare 242 (record { number = 0; said = pages04; reason = Open; tag = sound_left Active; store = pages })",
        "framed (sound Active) pages read04 spare 300 (record { number = 0; said = pages04; reason = Open; tag = sound_left Active; store = pages })",
        "framed (sound Active) pages [] spare 242 (record { number = 2; said = nibble 0x1; reason = Open; tag = sound_left Waiting; store = pages })",
        "framed (sound Waiting) pages read04 spare 242 (record { number = 1; said = silence; reason = Open; tag = sound Waiting; store = pages })",
    ]),
    ("store_of239", "A store of 239 bytes: 10.", "ten_first sound (take 239 pages) spare 242"),
    ("store_of241", "A store of 241 bytes: 10.", "ten_first sound (pages ++ (0x00 ∷ [])) spare 242"),
    ("reply_of241", "A reply buffer of 241 bytes: 10.", "ten_first sound pages spare 241"),
    ("random_of15", "A random block of 15 bytes: 10.", "ten_first sound pages (replicate 15 0xa5) 242"),
    ("random_of17", "A random block of 17 bytes: 10.", "ten_first sound pages (replicate 17 0xa5) 242"),
    ("counter0_above", "Counter 0 at 1000000h: 10.", "ten_first (held (0x1000000 ∷ 0 ∷ 0 ∷ []) 0 zeros) pages spare 242"),
    ("counter1_above", "Counter 1 at 1000000h: 10.", "ten_first (held (0 ∷ 0x1000000 ∷ 0 ∷ []) 0 zeros) pages spare 242"),
    ("counter2_above", "Counter 2 at 1000000h: 10.", "ten_first (held (0 ∷ 0 ∷ 0x1000000 ∷ []) 0 zeros) pages spare 242"),
    ("count_of1024", "A failed count of 1,024: 10.", "ten_first (held (0 ∷ 0 ∷ 0 ∷ []) 1024 zeros) pages spare 242"),
    ("unknown_state", "A state that doesn't exist, whatever its number: 10.", "ten_in (Unknown 0) ++ ten_in (Unknown 255)"),
    ("unknown_key", "CHALLENGED with key number 3, and with 255: 10.", "ten_in (Challenged 3) ++ ten_in (Challenged 255)"),
    ("loaded", "A loading answered 0, with a count of 1,023 and a counter of FFFFFFh.", [
        "loads full blank (record { number = 0; tag = full_tag zeros Waiting; store = pages })",
    ]),
    ("image_length", "Loading images of 270, 272 and no bytes: 12.", [
        "not_loaded 12 (take 270 base) blank", "not_loaded 12 (base ++ (0x00 ∷ [])) blank", "not_loaded 12 [] blank",
    ]),
    ("pages_count", "59 and 61 for the count of pages: 12.", ["not_loaded 12 (counted 0 59) blank", "not_loaded 12 (counted 0 61) blank"]),
    ("counters_count", "2 and 4 for the count of counters: 12.", ["not_loaded 12 (counted 241 2) blank", "not_loaded 12 (counted 241 4) blank"]),
    ("failed_count", "0 and 2 for the count of failed counts: 12.", ["not_loaded 12 (counted 251 0) blank", "not_loaded 12 (counted 251 2) blank"]),
    ("key_count", "0 and 2 for the count of originality keys: 12.", ["not_loaded 12 (counted 254 0) blank", "not_loaded 12 (counted 254 2) blank"]),
    ("image_of1024", "Failed counts of 1,024 and 65,535: 12.", [
        "not_loaded 12 (patched base (%s ∷ [])) blank" % of_place(failed(n)) for n in (1024, 65535)
    ]),
    ("check_byte0", "Each bit of BCC0 wrong: 12.", ["not_loaded 12 (counted 4 0x%02x) blank" % (BASE[4] ^ 1 << bit) for bit in range(8)]),
    ("check_byte1", "Each bit of BCC1 wrong: 12. One of them has 88h in it.", [
        "not_loaded 12 (counted 9 0x%02x) blank" % (BASE[9] ^ bit) for bit in [1 << bit for bit in range(8)] + [0x88]
    ]),
    ("serial_bytes", "A bit of each byte of the serial number wrong, under the check bytes of the right one: 12.", [
        "not_loaded 12 (counted %d 0x%02x) blank" % (at, BASE[at] ^ 1 << at % 8) for at in (1, 2, 3, 5, 6, 7, 8)
    ]),
    ("zero_serial", "A serial number of zeros has 88h and 00h for check bytes; with 00h and 88h it is 12.", [
        "loads zero_serial_image blank (record { number = 0; tag = held (0 ∷ 0 ∷ 0 ∷ []) 0 zeros Waiting; store = take 240 (drop 1 zero_serial_image) })",
        "not_loaded 12 (patched zero_serial_image (record { from = 4; bytes = 0x00 ∷ [] } ∷ record { from = 9; bytes = 0x88 ∷ [] } ∷ [])) blank",
    ]),
    ("load_store", "Loading into stores of 239 and 241 bytes: 10, and with a wrong image too, as 10 comes before 12.", [
        "not_loaded 10 base (take 239 blank)", "not_loaded 10 base (blank ++ (0xff ∷ []))", "not_loaded 10 (take 270 base) (take 239 blank)",
        "not_loaded 10 (counted 0 59) (blank ++ (0xff ∷ []))",
    ]),
    ("saved", "A writing fills 271 bytes: of a buffer of 272 or 300 bytes the others stay.", [
        "filled (full_tag zeros Active) (replicate 271 0xee) full", "filled (full_tag zeros Active) (replicate 272 0xee) (full ++ (0xee ∷ []))",
        "filled (full_tag zeros Active) (replicate 300 0xee) (full ++ replicate 29 0xee)",
    ]),
    ("saved_states", "The state and the challenge bytes are not in an image.", [
        "filled (full_tag (replicate 16 0x77) %s) (replicate 271 0xee) full" % state
        for state in ("Waiting", "Authenticated", "(Challenged 2)")
    ]),
    ("save_buffer", "A writing into a buffer of 270 bytes, and of none: 10.", [
        "not_saved (sound Active) pages (replicate 270 0xee)", "not_saved (sound Active) pages []",
    ]),
    ("save_store", "A writing from stores of 239 and 241 bytes: 10.", [
        "not_saved (sound Active) (take 239 pages) (replicate 271 0xee)", "not_saved (sound Active) (pages ++ (0x00 ∷ [])) (replicate 271 0xee)",
    ]),
    ("save_record", "A writing of a record that no tag can have: 10.", [
        "not_saved (%s) pages (replicate 271 0xee)" % record for record in (
            "held (0x1000000 ∷ 0 ∷ 0 ∷ []) 0 zeros Active", "held (0 ∷ 0x1000000 ∷ 0 ∷ []) 0 zeros Active",
            "held (0 ∷ 0 ∷ 0x1000000 ∷ []) 0 zeros Active", "held (0 ∷ 0 ∷ 0 ∷ []) 1024 zeros Active",
            "sound (Unknown 0)", "sound (Challenged 3)")
    ]),
]


def list_row(name, words, items):
    text = [commented(words), "abbrev pub %s : List Direct" % name]
    whole = "%s = %s" % (name, items if isinstance(items, str) else " ∷ ".join(items + ["[]"]))
    if len(whole) <= WIDTH:
        return "\n".join(text + [whole])
    return "\n".join(text + ["%s =" % name] + ["    %s ∷" % item for item in items[:-1]] + ["    %s ∷ []" % items[-1]])


def value(words, name, kind, text):
    return "-- %s\nabbrev pub %s : %s\n%s = %s" % (words, name.split(" ")[0], kind, name, text)


def direct_rows():
    values = [
        value("the reply to READ 04h from the base image", "pages04", "Said", of_reply(data(stored(0x04, 0x07)))[1:-1]),
        value("an image with counters, and with the highest failed count", "full", "List ℕ",
              "patched base (%s)" % " ∷ ".join([of_place(c) for c in FULL_IMAGE] + ["[]"])),
        value("an image with a serial number of zeros, and its check bytes", "zero_serial_image", "List ℕ",
              "patched base (record { from = 1; bytes = %s } ∷ [])" % " ∷ ".join(["0x%02x" % b for b in hexed("000000880000000000")] + ["[]"])),
        value("the record that it holds", "full_tag challenge st", "List ℕ → State → Tag", FULL_TAG),
    ]
    joined = named_list("direct", "Direct", ["state_rows"] + [name for name, _, _ in LISTS], "++", "")
    return "\n\n".join(values + [list_row(*r) for r in LISTS] + [joined]) + statement("DirectRight", "all_direct_right", "direct")


def state_rows():
    return "\n\n".join([begun_row(*r) for r in BEGUN] + [named_list("state_rows", "Direct", [r[2] for r in BEGUN])]) + "\n"


CRATES = os.path.join(os.path.dirname(os.path.abspath(__file__)), "..", "crates")
MARK = "-- ---- from here on written by tools/cases.py\n\n"
FILES = [("model/specs/CaseImages.antt", base()), ("model/specs/Cases.antt", document_rows())]
FILES += [("cases/specs/%s.antt" % name, rows(joined, table) + "\n") for name, joined, table in THEMES]
FILES += [("login_cases/specs/Logins.antt", login_rows())]
FILES += [("cases/specs/Themes.antt", themes()), ("cases/specs/States.antt", state_rows()), ("cases/specs/Direct.antt", direct_rows())]


def main():
    right = True
    for name, text in FILES:
        path = os.path.join(CRATES, name)
        with open(path, encoding="utf-8") as f:
            there = f.read()
        kept, mark, _ = there.partition(MARK)
        if not mark:
            sys.exit("%s: the line '%s' is missing" % (name, MARK.strip()))
        wanted = kept + mark + text
        if "--check" not in sys.argv[1:]:
            with open(path, "w", encoding="utf-8") as f:
                f.write(wanted)
        elif wanted != there:
            print("%s: not as tools/cases.py writes it" % name)
            right = False
    sys.exit(0 if right else 1)


if __name__ == "__main__":
    main()
