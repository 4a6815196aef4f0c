#!/usr/bin/env python3
"""The texts of the played logins, worked out from document 01, 009 and FIPS 197.

    tools/logins.py            prints the image and the sessions, a text a line
    tools/logins.py --check    says whether they are the texts of crates/logins/src/lib.rt; exit 1 if not

AES-128, CRC_A and the image are those of tools/cases.py, which uses nothing of the definition of the tag. Python 3, no library.
"""

import os
import re
import sys

sys.dont_write_bytecode = True
from cases import (BASE, FALSE_PROOF, GARBLED, KEY_863, POWER, RND_B, SELECT, SPARE, STEP_2, STEP_3, STEP_4, STORE, TABLE_KEY, data, framed,
                   hexed, key_writes, part_1, part_2, read, sent, stored)

SOURCE = os.path.join(os.path.dirname(os.path.abspath(__file__)), "..", "crates", "logins", "src", "lib.rt")

# the image of the cases with Random ID on, AUTH0 38h, PROT, AUTH_LIM 0028h, and 20 failed attempts
IMAGE = bytearray(BASE)
IMAGE[1 + 4 * 0x29:1 + 4 * 0x2B] = hexed("010000388c052800")
IMAGE[252:254] = hexed("1400")

# changes of it: a place, and what is laid from there on. A key lies in its pages with its last byte first (8.6.3)
ZERO_KEY = "c1" + TABLE_KEY.hex()
DATA_PROT_KEY = "c1" + KEY_863[::-1].hex()
UID_RETR_KEY = "d1" + KEY_863[::-1].hex()
ORIGINALITY_KEY = "ff" + KEY_863.hex()
COUNT_4 = "fc0400"
COUNT_21 = "fc1500"

# RndA and RndB of the logins with the key 000102..0F: blocks of SP 800-38A F.1, and of FIPS 197 appendices B and C.1
BLOCKS = [hexed(text) for text in (
    "6bc1bee22e409f96e93d7e117393172a", "ae2d8a571e03ac9c9eb76fac45af8e51", "30c81c46a35ce411e5fbc1191a0a52ef", "f69f2445df4f9b17ad2b417be66c3710",
    "00112233445566778899aabbccddeeff", "3243f6a8885a308d313198a2e0370734", "69c4e0d86a7b0430d8cdb78070b4c55a", "3925841d02dc09fbdc118597196a0b32")]


def login(k, key, rnd_a, rnd_b):
    return [("part 1", part_1(k, key, rnd_b)), ("part 2", part_2(key, rnd_a, rnd_b))]


def shown(reads, state):
    return [("READ %02Xh in %s" % (p, state), sent(read(p), *due)) for p, due in reads]


SERIAL = (0x00, (0, data(stored(0x00, 0x03))))
HIDDEN = (0x00, (0, data(bytes(9) + STORE[9:16])))
PAGES = (0x38, (0, data(stored(0x38, 0x3B))))
NO_PAGES = (0x38, (6,))
SILENT = (0x38, (1,))
SELECTED = [("select", SELECT)]
AGAIN = [("select again", SELECT)]
BEFORE = SELECTED + shown([HIDDEN, NO_PAGES], "ACTIVE") + AGAIN
TABLE_17_PART_1 = [("part 1", sent([0x1A, 0x00], 0, data(b"\xaf" + STEP_2), RND_B))]
CHANGED = bytearray(data(b"\xaf" + STEP_2)[1])
CHANGED[16] ^= 0x01

# each: a name, the changes of the image that is loaded, the lines, the changes of the image that is saved
SESSIONS = [
    ("MF0AES(H)20 Table 17", [ZERO_KEY],
     [("power", POWER)] + shown([SILENT], "WAITING") + BEFORE + TABLE_17_PART_1 +
     [("part 2", sent(b"\xaf" + STEP_3, 0, data(b"\x00" + STEP_4)))] + shown([SERIAL, PAGES], "AUTHENTICATED"), [ZERO_KEY, COUNT_4]),
    ("DataProtKey", [DATA_PROT_KEY],
     BEFORE + login(0, KEY_863, BLOCKS[0], BLOCKS[1]) + shown([SERIAL, PAGES], "AUTHENTICATED"), [DATA_PROT_KEY, COUNT_4]),
    ("DataProtKey of MF0AES(H)20 8.6.3", [ZERO_KEY],
     SELECTED + [("WRITE %02Xh" % (0x30 + n), line) for n, line in enumerate(key_writes(0x30))] + login(0, KEY_863, BLOCKS[2], BLOCKS[3]) +
     shown([SERIAL, PAGES], "AUTHENTICATED"), [DATA_PROT_KEY, COUNT_4]),
    ("UIDRetrKey", [UID_RETR_KEY],
     BEFORE + login(1, KEY_863, BLOCKS[4], BLOCKS[5]) + shown([SERIAL, NO_PAGES], "TRACEABLE"), [UID_RETR_KEY, COUNT_4]),
    ("originality key", [ORIGINALITY_KEY],
     BEFORE + login(2, KEY_863, BLOCKS[6], BLOCKS[7]) + shown([HIDDEN, NO_PAGES], "ACTIVE as before"), [ORIGINALITY_KEY, COUNT_4]),
    ("false proof", [ZERO_KEY],
     SELECTED + TABLE_17_PART_1 + [("part 2", sent(b"\xaf" + FALSE_PROOF, 8))] + shown([SILENT], "WAITING") + AGAIN + shown([NO_PAGES], "ACTIVE"),
     [ZERO_KEY, COUNT_21]),
    ("garbled proof", [ZERO_KEY], SELECTED + TABLE_17_PART_1 + [("part 2", framed(GARBLED, 2))] + shown([SILENT], "WAITING"), [ZERO_KEY]),
    ("a changed reply byte is reported", [ZERO_KEY], SELECTED + [("part 1", sent([0x1A, 0x00], 0, ("bytes", bytes(CHANGED)), RND_B))], [ZERO_KEY]),
]


# silence is no digit, a nibble is one, and bytes are two each
def reply_text(reply):
    return "" if reply[0] == "silence" else "%x" % reply[1] if reply[0] == "nibble" else reply[1].hex()


def line_text(label, line):
    if line in (POWER, SELECT):
        return "%s,%s,0," % (label, "P" if line == POWER else "S")
    # the last is the place of the rule that stops a WRITE: none of the sessions has one
    _, frame, random, number, reply, _ = line
    return ",".join([label, frame.hex(), "%x" % number, reply_text(reply)] + ([] if random == SPARE else [random.hex()]))


def session_text(name, loaded, lines, saved):
    return "|".join([name + ": ", ";".join(loaded), ";".join(line_text(*line) for line in lines), ";".join(saved)])


def main():
    texts = [IMAGE.hex()] + [session_text(*session) for session in SESSIONS]
    if "--check" not in sys.argv[1:]:
        print("\n".join(texts))
        return
    with open(SOURCE, encoding="utf-8") as f:
        there = re.findall(r'b"(.*?)"', re.sub(r"\\\n *", "", f.read()))
    if there != texts:
        sys.exit("login.rt: not the texts of tools/logins.py")


if __name__ == "__main__":
    main()
