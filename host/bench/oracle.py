#!/usr/bin/env python3
"""A second tag and a second bench program in plain Python, to hold the proved ones against.

    host/bench/oracle.py IMAGE < LINES     plays the lines, as the bench program does

Written from document 01 with requests E1, E3 and E6 of document 02, the data sheet 009, docs/DATASHEET.md and docs/DECISIONS.md (D1 to D40, D68 and
D69), and from nothing of the proved program: neither its definitions nor its code. It has an AES-128 and a CRC_A of its own. Python 3, no library.
"""

import os
import sys

# ---- CRC_A (docs/DATASHEET.md, section 18), by bytes from a table


def crc_entry(n):
    for _ in range(8):
        n = n >> 1 ^ (0x8408 if n & 1 else 0)
    return n


CRC_TABLE = [crc_entry(n) for n in range(256)]


def crc_a(data):
    crc = 0x6363
    for byte in data:
        crc = crc >> 8 ^ CRC_TABLE[(crc ^ byte) & 0xFF]
    return bytes([crc & 0xFF, crc >> 8])


# ---- AES-128 (FIPS 197): the S-box from powers of 3, the rounds by tables of products


def doubled(a):
    return (a << 1 ^ (0x11B if a & 0x80 else 0)) & 0xFF


def powers_of_three():
    """Entry n is 3 to the power n in the field."""
    powers, a = [], 1
    for _ in range(255):
        powers.append(a)
        a ^= doubled(a)
    return powers


POWERS = powers_of_three()
LOGS = {a: n for n, a in enumerate(POWERS)}


def product(a, b):
    return POWERS[(LOGS[a] + LOGS[b]) % 255] if a and b else 0


def s_box_entry(a):
    x = POWERS[-LOGS[a] % 255] if a else 0
    return (x ^ x << 1 ^ x << 2 ^ x << 3 ^ x << 4 ^ (x >> 7) ^ (x >> 6) ^ (x >> 5) ^ (x >> 4) ^ 0x63) & 0xFF


S = [s_box_entry(a) for a in range(256)]
INVERSE_S = bytes(a for _, a in sorted(zip(S, range(256))))
X2, X3, X9, X11, X13, X14 = ([product(a, b) for b in range(256)] for a in (2, 3, 9, 11, 13, 14))
# where byte i of the state comes from in ShiftRows, and in its inverse
SHIFTED = [(i + 4 * (i % 4)) % 16 for i in range(16)]
UNSHIFTED = [(i - 4 * (i % 4)) % 16 for i in range(16)]


def round_keys(key):
    """The eleven round keys. The last ones asked for are kept."""
    if key not in KEPT:
        if len(KEPT) > 100:
            KEPT.clear()
        KEPT[key] = expanded(key)
    return KEPT[key]


KEPT = {}


def expanded(key):
    keys, constant = [list(key)], 1
    for _ in range(10):
        old = keys[-1]
        word = [S[b] for b in old[13:] + old[12:13]]
        word[0] ^= constant
        constant = doubled(constant)
        new = []
        for i in range(16):
            new.append(old[i] ^ (word[i] if i < 4 else new[i - 4]))
        keys.append(new)
    return keys


def mixed(s):
    out = []
    for i in range(0, 16, 4):
        a, b, c, d = s[i:i + 4]
        out += [X2[a] ^ X3[b] ^ c ^ d, a ^ X2[b] ^ X3[c] ^ d, a ^ b ^ X2[c] ^ X3[d], X3[a] ^ b ^ c ^ X2[d]]
    return out


def unmixed(s):
    out = []
    for i in range(0, 16, 4):
        a, b, c, d = s[i:i + 4]
        out += [X14[a] ^ X11[b] ^ X13[c] ^ X9[d], X9[a] ^ X14[b] ^ X11[c] ^ X13[d],
                X13[a] ^ X9[b] ^ X14[c] ^ X11[d], X11[a] ^ X13[b] ^ X9[c] ^ X14[d]]
    return out


def xor(a, b):
    return [x ^ y for x, y in zip(a, b)]


def encipher(key, block):
    keys = round_keys(key)
    s = xor(block, keys[0])
    for n in range(1, 11):
        s = [S[s[i]] for i in SHIFTED]
        s = xor(mixed(s) if n < 10 else s, keys[n])
    return bytes(s)


def decipher(key, block):
    keys = round_keys(key)
    s = xor(block, keys[10])
    for n in range(9, -1, -1):
        s = xor([INVERSE_S[s[i]] for i in UNSHIFTED], keys[n])
        s = unmixed(s) if n else s
    return bytes(s)


def cbc_encipher(key, data):
    """CBC from an initialization vector of zeros (009 Table 17)."""
    chain, out = bytes(16), b""
    for i in range(0, len(data), 16):
        chain = encipher(key, xor(data[i:i + 16], chain))
        out += chain
    return out


def cbc_decipher(key, data):
    chain, out = bytes(16), b""
    for i in range(0, len(data), 16):
        out += bytes(xor(decipher(key, data[i:i + 16]), chain))
        chain = data[i:i + 16]
    return out


def rotated(block):
    return block[1:] + block[:1]


# ---- the tag

WAITING, ACTIVE, CHALLENGED, TRACEABLE, AUTHENTICATED = "WAITING", "ACTIVE", "CHALLENGED", "TRACEABLE", "AUTHENTICATED"
READ, FAST_READ, WRITE, READ_CNT, INCR_CNT, AUTHENTICATE, PROOF, HLTA = 0x30, 0x3A, 0xA2, 0x39, 0xA5, 0x1A, 0xAF, 0x50
# bytes of a frame with its CRC (docs/DATASHEET.md, section 13)
LENGTHS = {READ: 4, FAST_READ: 5, WRITE: 8, READ_CNT: 4, INCR_CNT: 8, AUTHENTICATE: 4, PROOF: 35, HLTA: 4}
# the state that each key leads to (section 14)
LEADS_TO = [AUTHENTICATED, TRACEABLE, ACTIVE]
# block-lock bits: what bit i freezes in the first and in the second lock byte (sections 3 and 4)
FREEZES_LOW = [(0x08, 0x00), (0xF0, 0x03), (0x00, 0xFC)]
FREEZES_HIGH = [(0x03, 0x00), (0x0C, 0x00), (0x30, 0x00), (0xC0, 0x00), (0x00, 0x03), (0x00, 0x0C)]
ACK, SILENCE = "ACK", None
# why a WRITE is refused, by the places of request E6's order
BY_AUTH0, BY_RANDOM_ID, BY_OWN_LOCK, BY_PAIR_LOCK, BY_KEY_LOCK, BY_CONFIGURATION_LOCK = range(1, 7)
NO_REASON = 0


class Refused(Exception):
    """A number of document 01 above 0, and why a WRITE got it."""

    def __init__(self, number, reason=NO_REASON):
        Exception.__init__(self, number)
        self.number, self.reason = number, reason


def refuse(when, number, reason=NO_REASON):
    if when:
        raise Refused(number, reason)


def check_byte(start, serial):
    for byte in serial:
        start ^= byte
    return start


def check_bytes_right(store):
    """BCC0 and BCC1 (section 2): both end a part of the serial number, and only the first part has the cascade tag 88h before it."""
    return store[3] == check_byte(0x88, store[0:3]) and store[8] == check_byte(0x00, store[4:8])


def frozen(block_bits, table):
    """The bits of two lock bytes that keep their value, as the block-lock bits stand."""
    first = second = 0
    for i, (a, b) in enumerate(table):
        if block_bits >> i & 1:
            first, second = first | a, second | b
    return first, second


class Tag:
    """The tag of an image, in WAITING. Its calls are power, select and frame; a frame gives a number, a reply (bytes without CRC, ACK or silence) and why
    a WRITE was refused."""

    def __init__(self, image):
        if len(image) != 271 or (image[0], image[241], image[251], image[254]) != (60, 3, 1, 1):
            raise Refused(12)
        self.store = bytearray(image[1:241])
        self.counters = [int.from_bytes(image[i:i + 3], "little") for i in (242, 245, 248)]
        self.failed = int.from_bytes(image[252:254], "little")
        self.originality = bytes(image[255:271])
        refuse(self.failed > 1023, 12)
        refuse(not check_bytes_right(self.store), 12)
        self.power()

    def power(self):
        self.enter(WAITING)

    def select(self):
        self.enter(ACTIVE)

    def enter(self, state, key=None, challenge=bytes(16)):
        self.state, self.key, self.challenge = state, key, challenge

    def frame(self, frame, random):
        if self.state == WAITING:
            return 1, SILENCE, NO_REASON
        try:
            refuse(not 3 <= len(frame) <= 64 or crc_a(frame[:-2]) != frame[-2:], 2)
            reply = self.command(frame, random)
            if self.state != CHALLENGED:
                self.challenge = bytes(16)
            return 0, reply, NO_REASON
        except Refused as refusal:
            self.enter(WAITING)
            return refusal.number, "NAK", refusal.reason

    def command(self, frame, random):
        code = frame[0]
        refuse(code not in LENGTHS or (code == PROOF) != (self.state == CHALLENGED), 3)
        refuse(len(frame) != LENGTHS[code], 4)
        if code == READ:
            return self.read(frame[1])
        if code == FAST_READ:
            return self.fast_read(frame[1], frame[2])
        if code == WRITE:
            return self.write(frame[1], frame[2:6])
        if code == READ_CNT:
            return self.read_counter(frame[1])
        if code == INCR_CNT:
            return self.raise_counter(frame[1], int.from_bytes(frame[2:5], "little"))
        if code == AUTHENTICATE:
            return self.part_1(frame[1], random)
        if code == PROOF:
            return self.part_2(frame[1:33])
        return self.halt(frame[1])

    # settings (sections 6 to 8)

    def byte(self, page, b):
        return self.store[4 * page + b]

    def auth0(self):
        return self.byte(0x29, 3) & 0x7F

    def limit(self):
        return self.byte(0x2A, 2) + 256 * (self.byte(0x2A, 3) & 0x03)

    def cfg_1(self, mask):
        return self.byte(0x2A, 0) & mask != 0

    def random_id(self):
        return self.byte(0x29, 0) & 0x01

    # reading

    def shown(self, pages):
        return bytes(0 if self.hidden(at) else self.store[at] for page in pages for at in range(4 * page, 4 * page + 4))

    def hidden(self, at):
        """A key's byte, or a byte that Random ID hides."""
        return 0x30 <= at // 4 <= 0x37 or at <= 8 and self.random_id() and self.state == ACTIVE

    def readable(self):
        """How many pages may be read, from 00h on."""
        return min(self.auth0(), 0x3C) if self.cfg_1(0x80) and self.state != AUTHENTICATED else 0x3C

    def read(self, page):
        """Only the first page is judged: behind the last that may be read, page 00h follows."""
        refuse(page > 0x3B, 5)
        refuse(page >= self.readable(), 6)
        return self.shown([(page + n) % self.readable() for n in range(4)])

    def fast_read(self, first, last):
        refuse(first > last or last > 0x3B, 5)
        refuse(last >= self.readable(), 6)
        return self.shown(range(first, last + 1))

    # writing (sections 3 to 5, 8 and 10)

    def lock(self, page):
        """Whether a page is locked, and by what."""
        if 0x03 <= page <= 0x0F:
            return (self.byte(0x02, 2) + 256 * self.byte(0x02, 3)) >> page & 1, BY_OWN_LOCK
        if 0x10 <= page <= 0x27:
            return (self.byte(0x28, 0) + 256 * self.byte(0x28, 1)) >> (page - 0x10) // 2 & 1, BY_PAIR_LOCK
        if page in (0x29, 0x2A):
            return self.cfg_1(0x40), BY_CONFIGURATION_LOCK
        if page == 0x2D:
            return self.byte(0x2D, 0) & 0x20, BY_KEY_LOCK
        if 0x30 <= page <= 0x33:
            return self.byte(0x2D, 0) & 0x40, BY_KEY_LOCK
        return 0x34 <= page <= 0x37 and self.byte(0x2D, 0) & 0x80, BY_KEY_LOCK

    def write(self, page, data):
        refuse(not 0x02 <= page <= 0x3B, 5)
        refuse(self.state != AUTHENTICATED and page >= self.auth0(), 6, BY_AUTH0)
        refuse(page == 0x29 and self.state == ACTIVE and (data[0] ^ self.random_id()) & 0x01, 6, BY_RANDOM_ID)
        locked, by = self.lock(page)
        refuse(locked, 7, by)
        old = self.store[4 * page:4 * page + 4]
        self.store[4 * page:4 * page + 4] = self.written(page, old, data)
        return ACK

    @staticmethod
    def written(page, old, data):
        if page == 0x02:
            f, g = frozen(old[2], FREEZES_LOW)
            return bytes([old[0], old[1], old[2] | data[2] & ~f, old[3] | data[3] & ~g])
        if page == 0x03:
            return bytes(a | b for a, b in zip(old, data))
        if page == 0x28:
            f, g = frozen(old[2], FREEZES_HIGH)
            return bytes([old[0] | data[0] & ~f, old[1] | data[1] & 0x0F & ~g, old[2] | data[2] & 0x3F, old[3]])
        kept = {0x2A: 0x40, 0x2D: 0xE0}.get(page, 0)
        return bytes([data[0] | old[0] & kept]) + bytes(data[1:])

    # counters (section 11)

    def counter_open(self, k, bit):
        refuse(k > 2, 5)
        refuse(k == 2 and self.state != AUTHENTICATED and not self.cfg_1(bit), 6)

    def read_counter(self, k):
        self.counter_open(k, 0x04)
        return self.counters[k].to_bytes(3, "little")

    def raise_counter(self, k, increment):
        self.counter_open(k, 0x08)
        refuse(self.counters[k] + increment > 0xFFFFFF, 9)
        self.counters[k] += increment
        return ACK

    # authentication (sections 14 to 16)

    def key_bytes(self, k):
        """The page keys lie in their pages with their last byte first."""
        return self.originality if k == 2 else bytes(self.store[192 + 16 * k:208 + 16 * k])[::-1]

    def limit_reached(self):
        return self.limit() and self.failed >= self.limit()

    def part_1(self, k, random):
        refuse(k > 2, 5)
        refuse(self.limit_reached(), 11)
        self.enter(CHALLENGED, k, bytes(random))
        return b"\xaf" + cbc_encipher(self.key_bytes(k), random)

    def part_2(self, ciphertext):
        refuse(self.limit_reached(), 11)
        key, lim = self.key_bytes(self.key), self.limit()
        text = cbc_decipher(key, ciphertext)
        if text[16:] != rotated(self.challenge):
            self.failed += 1 if lim else 0
            raise Refused(8)
        if lim:
            self.failed = max(self.failed - 16, 0)
        self.enter(LEADS_TO[self.key])
        return b"\x00" + cbc_encipher(key, rotated(text[:16]))

    def halt(self, second):
        refuse(second != 0x00, 5)
        self.enter(WAITING)
        return SILENCE


# ---- the bench program

DIGITS = b"0123456789abcdef"
# the longest right line is "F " and 124 digits
LONGEST = 126


def frame_of(line):
    """The bytes of an F line; nothing for any other line (D40)."""
    digits = line[2:]
    right = line[:2] == b"F " and 2 <= len(digits) <= LONGEST - 2 and len(digits) % 2 == 0 and not digits.strip(DIGITS)
    return bytes.fromhex(digits.decode()) if right else None


def answer(tag, n, line):
    """What line n prints, without its newline; nothing for a bad line."""
    if line == b"P":
        tag.power()
        return b"0"
    if line == b"S":
        tag.select()
        return b"0"
    data = frame_of(line)
    if data is None:
        return None
    number, reply, reason = tag.frame(data + crc_a(data), bytes([n % 256]) * 16)
    more = reply.hex() if isinstance(reply, bytes) else str(reason) if reason else ""
    return b"%d" % number + (b" " + more.encode() if more else b"")


def printed(tag, lines):
    """The output, line by line, up to a bad line."""
    for n, line in enumerate(lines, 1):
        text = answer(tag, n, line)
        if text is None:
            yield b"bad line %d\n" % n
            return
        yield text + b"\n"


def lines_of(script):
    """A last line without a newline counts as a line (D38)."""
    lines = script.split(b"\n")
    return lines[:-1] if lines[-1] == b"" else lines


def output(image, script):
    """All that the bench program prints. The image is its bytes, or nothing for a file that cannot be read."""
    try:
        tag = Tag(image if image is not None else b"")
    except Refused:
        return b"12\n"
    return b"".join(printed(tag, lines_of(script)))


def lines_from(fd):
    """The same lines from a file descriptor; of a line that is too long, only its start. A read that fails ends them, and what was left is no line."""
    left = b""
    while True:
        try:
            more = os.read(fd, 65536)
        except OSError:
            return
        if not more:
            break
        *whole, left = (left + more).split(b"\n")
        yield from whole
        if len(left) > LONGEST:
            yield left
            return
    if left:
        yield left


def sent(text):
    """Whether a text was written; behind a write that fails nothing more may be written."""
    while text:
        try:
            text = text[os.write(1, text):]
        except OSError:
            return False
    return True


def main(words):
    try:
        with open(words[0], "rb") as f:
            tag = Tag(f.read(272))
    except (OSError, IndexError, ValueError, Refused):
        sent(b"12\n")
        return
    for text in printed(tag, lines_from(0)):
        if not sent(text):
            return


if __name__ == "__main__":
    main(sys.argv[1:])
