"""Random inputs of the bench program: an image file and the bytes of a script, both from a number alone.

A script is written while a tag of oracle.py plays it, so that most frames meet a state in which they matter: a selection where the tag is WAITING, a proof
where it is CHALLENGED, increments near the counter's end.
"""

import random

import oracle
from oracle import CHALLENGED, WAITING, cbc_encipher, rotated

SEED = "kazdumera bench 1"

# ---- images

# a serial number of zeros has 88h for BCC0, and 00h for BCC1
BASE = bytearray([60]) + bytes([0, 0, 0, 0x88]) + bytes(236) + bytes([3]) + bytes(9) + bytes([1, 0, 0, 1]) + bytes(16)
COUNTS = [0, 241, 251, 254]
FAILED_AT = 252
SERIAL_AT = [1, 2, 3, 5, 6, 7, 8]
BCC0, BCC1 = 4, 9


def page_at(page):
    return 1 + 4 * page


def few_bits(r, width=8):
    """A byte with few bits set, often none."""
    return r.choice([0, 0, 1 << r.randrange(width), 1 << r.randrange(width) | 1 << r.randrange(width), r.randrange(1 << width)])


def config_0(r):
    auth0 = r.choice([0x3C, 0x3C, 0x3C, 0x7F, r.randrange(0x3C), r.randrange(0x3C), 0x04, 0x29, 0x30, 0x3B, r.randrange(256)])
    return bytes([r.choice([0x00, 0x00, 0x01, 0x02, r.randrange(256)]), few_bits(r), few_bits(r), auth0])


def config_1(r, failed=0):
    """AUTH_LIM is often near a failed count, which shows in nothing else."""
    limit = min(r.choice([0, 0, 1, 2, 3, 17, 40, 0x3FF, failed, failed + 1, r.randrange(0x400)]), 0x3FF)
    bits = r.choice([0x0C, 0x8C, 0x0C, 0x00, 0x80, 0x04, 0x88, r.randrange(256)]) | r.choice([0, 0, 0, 0x40])
    return bytes([bits, 0x05, limit & 0xFF, limit >> 8 | r.choice([0, 0, 0xFC])])


def failed_count(r, image):
    limit = image[page_at(0x2A) + 2] + 256 * (image[page_at(0x2A) + 3] & 3)
    return min(max(r.choice([0, 0, 0, 0, limit - 1, limit - 1, limit - 2, limit - 18, limit, 16, 17, r.randrange(1024)]), 0), 1023)


def valid_image(r):
    image = bytearray(BASE)
    image[page_at(0):page_at(60)] = r.randbytes(240) if r.random() < 0.7 else bytes(240)
    put_serial(r, image)
    image[page_at(2) + 2:page_at(2) + 4] = bytes([few_bits(r), few_bits(r)])
    image[page_at(3):page_at(4)] = bytes(few_bits(r) for _ in range(4))
    image[page_at(0x28):page_at(0x29)] = bytes([few_bits(r), few_bits(r), few_bits(r), r.choice([0, 0, r.randrange(256)])])
    image[page_at(0x29):page_at(0x2A)] = config_0(r)
    image[page_at(0x2A):page_at(0x2B)] = config_1(r)
    image[page_at(0x2D)] = r.choice([0, 0, 0x20, 0x40, 0x80, 0xE0, r.randrange(256)])
    for k in range(3):
        image[242 + 3 * k:245 + 3 * k] = counter(r).to_bytes(3, "little")
    image[FAILED_AT:FAILED_AT + 2] = failed_count(r, image).to_bytes(2, "little")
    image[255:271] = r.randbytes(16)
    return bytes(image)


def put_serial(r, image):
    """Most begin with the maker's 04h; others have check bytes by the same rule."""
    serial = bytes([r.choice([0x04, 0x04, 0x04, r.randrange(256)])]) + r.choice([r.randbytes(6)] * 9 + [bytes(6)])
    bcc0 = 0x88 ^ serial[0] ^ serial[1] ^ serial[2]
    bcc1 = serial[3] ^ serial[4] ^ serial[5] ^ serial[6]
    image[page_at(0):page_at(2) + 1] = serial[:3] + bytes([bcc0]) + serial[3:] + bytes([bcc1])


def counter(r):
    return r.choice([0, 10, 0xFFFFFF - r.randrange(4), 0xFFFFFF - r.randrange(300), r.randrange(1 << 24)])


def wrong_count(r, image):
    image = bytearray(image)
    image[r.choice(COUNTS)] = r.randrange(256)
    return bytes(image)


def failed_too_high(r, image):
    image = bytearray(image)
    image[FAILED_AT:FAILED_AT + 2] = r.choice([1024, 65535, r.randrange(1024, 65536)]).to_bytes(2, "little")
    return bytes(image)


def changed(image, changes):
    """An image with some bits turned: changes gives them by place."""
    image = bytearray(image)
    for at, bits in changes.items():
        image[at] ^= bits
    return bytes(image)


def wrong_check_bit(r, image):
    return changed(image, {r.choice([BCC0, BCC1]): 1 << r.randrange(8)})


def wrong_check_byte(r, image):
    """The ways in which one is worked out wrong, and a serial number that was changed without them."""
    bit = 1 << r.randrange(8)
    return changed(image, r.choice([
        {BCC0: 0x88},
        {BCC1: 0x88},
        {BCC0: 0x88, BCC1: 0x88},
        {BCC0: bit, BCC1: bit},
        {r.choice([BCC0, BCC1]): r.randrange(1, 256)},
        {r.choice(SERIAL_AT): bit},
    ]))


def some_image(r):
    image = valid_image(r)
    kind = r.random()
    if kind < 0.86:
        return image
    return r.choice([
        lambda: image[:r.randrange(271)],
        lambda: image[:270],
        lambda: image + r.randbytes(r.choice([1, 1, 2, 271, r.randrange(1, 5000)])),
        lambda: image + image,
        lambda: r.randbytes(r.choice([0, 271, 271, r.randrange(600)])),
        lambda: wrong_count(r, image),
        lambda: failed_too_high(r, image),
        lambda: wrong_check_bit(r, image),
        lambda: wrong_check_byte(r, image),
    ])()


# ---- frames, without CRC

EDGES = [0x00, 0x01, 0x02, 0x03, 0x0F, 0x10, 0x27, 0x28, 0x29, 0x2A, 0x2D, 0x2F, 0x30, 0x34, 0x37, 0x38, 0x3A, 0x3B, 0x3C, 0xFF]
# pages whose writing has a rule of its own, and the pages beside them
RULED = [0x02, 0x02, 0x03, 0x28, 0x28, 0x29, 0x2A, 0x2D, 0x30, 0x33, 0x34, 0x37, 0x2B, 0x04, 0x08, 0x10, 0x26]


def some_page(r):
    return r.choice([r.randrange(60), r.randrange(60), r.randrange(60), r.choice(EDGES), r.randrange(64)])


def read(r, tag):
    return bytes([0x30, some_page(r)])


def fast_read(r, tag):
    a, b = sorted((some_page(r), some_page(r)))
    return bytes([0x3A, b, a] if r.random() < 0.08 else [0x3A, a, b])


def write_data(r, tag, page):
    if page == 0x29:
        return config_0(r)
    if page == 0x2A:
        return config_1(r, tag.failed)
    return bytes(few_bits(r) for _ in range(4)) if r.random() < 0.6 else r.randbytes(4)


def write(r, tag):
    page = r.choice([r.choice(RULED), r.choice(RULED), some_page(r)])
    return bytes([0xA2, page]) + write_data(r, tag, page)


def counter_number(r):
    return r.choice([0, 1, 2, 2] * 4 + [3, r.randrange(256)])


def read_counter(r, tag):
    return bytes([0x39, counter_number(r)])


def raise_counter(r, tag):
    k = counter_number(r)
    left = 0xFFFFFF - (tag.counters[k] if k < 3 else 0)
    value = r.choice([0, 1, 1, 1, r.randrange(300), r.randrange(left + 1), left, left + 1, r.randrange(1 << 24)]) & 0xFFFFFF
    return bytes([0xA5, k]) + value.to_bytes(3, "little") + bytes([r.choice([0, 0, 0xFF, r.randrange(256)])])


def part_1(r, tag):
    return bytes([0x1A, r.choice([0, 0, 0, 0, 1, 1, 2, 2] * 3 + [3, r.randrange(256)])])


def halt(r, tag):
    return bytes([0x50, r.choice([0, 0, 0, 1, 0xFF])])


def false_text(r, key, rnd_a, rnd_b):
    """What is enciphered, and with which key, in proofs that look right."""
    flipped = bytearray(rotated(rnd_b))
    flipped[r.randrange(16)] ^= 1 << r.randrange(8)
    return r.choice([
        (key, rnd_a + bytes(flipped)),
        (key, rnd_a + bytes([rnd_b[0] ^ 1]) * 16),
        (key, rotated(rnd_b) + rnd_a),
        (key[::-1], rnd_a + rotated(rnd_b)),
        (r.randbytes(16), rnd_a + rotated(rnd_b)),
    ])


def proof(r, tag):
    """Part 2 for the challenge that the tag keeps: most often the right one."""
    rnd_a, key = r.randbytes(16), tag.key_bytes(tag.key)
    text = (key, rnd_a + rotated(tag.challenge)) if r.random() < 0.7 else false_text(r, key, rnd_a, tag.challenge)
    return b"\xaf" + (cbc_encipher(*text) if r.random() < 0.95 else r.randbytes(32))


def unknown(r, tag):
    code = r.choice([0x60, 0x26, 0x52, 0x93, 0x95, 0x3C, 0xA9, 0xAC, 0x4B, 0xAF, r.randrange(256)])
    return bytes([code]) + r.randbytes(r.choice([0, 1, 5, 32, r.randrange(62)]))


def resized(r, frame):
    """A frame with another length."""
    return r.choice([frame[:1], frame[:-1] or b"\x30", frame + r.randbytes(1), (frame + r.randbytes(62))[:62], (frame + r.randbytes(62))[:r.randrange(1, 63)]])


USUAL = [read] * 4 + [fast_read] * 4 + [write] * 8 + [read_counter] * 3 + [raise_counter] * 3 + [part_1] * 5 + [halt]


def some_frame(r, tag):
    chance = r.random()
    if chance < 0.025:
        return unknown(r, tag)
    kind = proof if tag.state == CHALLENGED and r.random() < 0.94 else r.choice(USUAL)
    frame = kind(r, tag)
    return resized(r, frame) if chance < 0.05 else frame


# ---- lines

def right_line(r, tag):
    chance = r.random()
    if tag.state == WAITING and chance < 0.85:
        return b"S"
    if chance < 0.015:
        return b"P"
    if chance < 0.03:
        return b"S"
    return b"F " + some_frame(r, tag)[:62].hex().encode()


BAD = [
    lambda r: b"",
    lambda r: b"P\r",
    lambda r: b"S\r",
    lambda r: b"F 3004\r",
    lambda r: r.choice([b"p", b"s", b"f 3004", b"PP", b"SS", b"PS", b"A", b"B 16 3004", b"X", b"?", b"#", b"\xef\xbb\xbfS"]),
    lambda r: r.choice([b" S", b"S ", b"P ", b"\tS", b" ", b"  ", b" F 3004", b"F 3004 ", b"F  3004", b"F\t3004", b"F 30 04", b"F3004", b"F", b"F "]),
    lambda r: r.choice([b"F 3A0405", b"F AF", b"F 30FF", b"F 0x30", b"F 3g", b"F -3", b"F +304", b"F 30,04", b"F 300:", b"F 30/4", b"F 30`4"]),
    lambda r: b"F " + r.randbytes(r.randrange(1, 62)).hex().encode()[:-1],
    lambda r: b"F " + b"0" * r.choice([1, 3, 5, 123, 125, 127]),
    lambda r: b"F " + r.randbytes(63).hex().encode(),
    lambda r: b"F " + r.randbytes(r.randrange(63, 300)).hex().encode(),
    lambda r: b"F " + r.choice([b"30", b"00"]) * r.choice([63, 1000, 40000]),
    lambda r: bytes([r.choice(b"PSF ")]) * r.choice([126, 127, 128, 4096, 65536, 100000]),
    lambda r: b"F 30\x00\x30",
    lambda r: r.choice([b"\x00", b"S\x00", b"P\x00", b"F 3004\x00", b"\x00S", b"F\x003004"]),
    lambda r: r.randbytes(r.randrange(1, 40)).replace(b"\n", b"\x0b"),
    lambda r: b"F " + bytes(r.randrange(128, 256) for _ in range(r.choice([2, 4, 60]))),
]


def right_lines(r, tag, count, first=1):
    lines = []
    for n in range(first, first + count):
        line = right_line(r, tag)
        oracle.answer(tag, n, line)
        lines.append(line)
    return lines


def usual_script(r, tag):
    """Right lines, sometimes after so many of one kind that the line number passes 255."""
    before = [b"P"] * r.choice([0] * 30 + [240, 250])
    lines = before + right_lines(r, tag, r.choice([0, 1, 3, 10, 40, 80, 150]), len(before) + 1)
    chance = r.random()
    if chance < 0.3:
        at = r.randrange(len(lines) + 1)
        lines[at:at] = [r.choice(BAD)(r)]
    if chance > 0.97:
        return b"\r\n".join(lines) + b"\r\n"
    return b"\n".join(lines) + (b"\n" if r.random() < 0.8 and lines else b"")


def binary_script(r):
    return r.choice([
        r.randbytes(r.randrange(2000)),
        bytes(r.choice(b"PSF 0123456789abcdef\n\n\r") for _ in range(r.randrange(400))),
        b"\n" * r.randrange(3),
        b"\x00" * r.randrange(5000),
    ])


def some_input(i):
    """Input number i: the image file's bytes and the script."""
    r = random.Random("%s %d" % (SEED, i))
    image = some_image(r)
    if r.random() < 0.04:
        return image, binary_script(r)
    try:
        tag = oracle.Tag(image)
    except oracle.Refused:
        tag = oracle.Tag(bytes(BASE))
    return image, usual_script(r, tag)
