#!/usr/bin/env python3
"""The sample scripts of the bench program, with the answers that document 01, 009 and FIPS 197 give.

    tools/samples.py                    writes tag.image, script.txt, expected.txt and README.txt into each folder of samples/, and the image of
                                        samples/example once more as crates/bench/data/ten.image, for the program's own test
    tools/samples.py --check            says whether they are there as they would be written; exit 1 if not
    tools/samples.py --proof KEY LINE   prints the second line of a login whose first line, F 1a.., is line LINE of a script; KEY in hex, key byte 0 first

Each folder's settings.txt is written by hand, and make_image.py's code makes the image. No tag is run for the answers: each is worked out here from what is
stored, with the AES of cases.py.
"""

import os
import sys

import tagimage
from cases import RND_A, cbc, rotated
from tagimage import shortened, stored

FOLDER = os.path.join(tagimage.ROOT, "samples")
BENCH_IMAGE = os.path.join("crates", "bench", "data", "ten.image")
ENDED = "the session is ended"


class Script:
    """Lines with their answers and what happens, for a tag with an image."""

    def __init__(self, image):
        self.image, self.steps = image, []

    def add(self, line, answer, words):
        self.steps.append((line, answer, words))

    def power(self, words="power goes off and on: the tag is WAITING"):
        self.add("P", "0", words)

    def select(self, words="the tag is selected: ACTIVE"):
        self.add("S", "0", words)

    def frame(self, text, number, data, words):
        sent = bytes.fromhex(text)
        self.add("F " + sent.hex(), str(number) + (" " + data.hex() if data else ""), words)

    def stopped(self, text, number, place, words):
        """A WRITE that a rule stops: its place is printed."""
        self.add("F " + bytes.fromhex(text).hex(), "%d %d" % (number, place), words + "; " + ENDED)

    def page(self, p):
        return tagimage.page_bytes(self.image, p)

    def pages(self, first, last):
        return b"".join(self.page(p) for p in range(first, last + 1))

    def part_1(self, k, key, words):
        """The challenge is sixteen copies of the line's number."""
        challenge = challenge_of(len(self.steps) + 1)
        self.frame("1a %02x" % k, 0, b"\xaf" + cbc(key, challenge), words)
        return challenge

    def login(self, k, key, state):
        challenge = self.part_1(k, key, "AUTHENTICATE with key %d: the tag sends its challenge, enciphered" % k)
        self.frame(proof(key, challenge).hex(), 0, b"\x00" + cbc(key, rotated(RND_A)), "the proof is right: the tag is %s, and proves itself" % state)


def challenge_of(n):
    return bytes([n % 256] * 16)


def proof(key, challenge):
    """The second part of a login, with RndA of 009 Table 17."""
    return b"\xaf" + cbc(key, RND_A + rotated(challenge))


def little(n):
    return n.to_bytes(3, "little")


# ---- the samples

def example(s):
    s.select()
    s.frame("39 00", 0, little(10), "READ_CNT 0: the counter is 10, sent low byte first")
    s.frame("a2 00 00000000", 5, b"", "WRITE 00: the serial number cannot be written; " + ENDED)
    s.frame("39 00", 1, b"", "READ_CNT 0: the tag is WAITING and silent")


def ten_rides(s):
    s.select()
    s.frame("30 04", 0, s.pages(0x04, 0x07), "READ 04: the ticket's text")
    s.frame("39 00", 0, little(0), "READ_CNT 0: no ride yet")
    for n in range(1, 11):
        s.frame("a5 00 01000000", 0, b"", "INCR_CNT 0 by 1: ride %d" % n)
        words = "the counter is %d" % n
        if n == 10:
            words = "ten rides: 0a 00 00 is 10, low byte first (high byte first: 655,360)"
        s.frame("39 00", 0, little(n), "READ_CNT 0: " + words)
    s.frame("a5 00 f5ffff00", 0, b"", "INCR_CNT 0 by FFFFF5h: the highest value, FFFFFFh, is reached")
    s.frame("39 00", 0, little(0xFFFFFF), "READ_CNT 0: FFFFFFh")
    s.frame("a5 00 00000000", 0, b"", "INCR_CNT 0 by 0: allowed at every value")
    s.frame("a5 00 01000000", 9, b"", "INCR_CNT 0 by 1: the counter would pass FFFFFFh; " + ENDED)
    s.frame("39 00", 1, b"", "READ_CNT 0: the tag is WAITING and silent")
    s.select()
    s.frame("39 00", 0, little(0xFFFFFF), "READ_CNT 0: the refused increment changed nothing")
    s.frame("50 00", 0, b"", "HLTA: the tag is WAITING; it says nothing to HLTA")


def lock_bits(s):
    check_and_internal = s.page(0x02)[:2]

    def lock_page(text, words):
        s.frame("3a 02 02", 0, check_and_internal + bytes.fromhex(text), words)

    def pair_page(text, words):
        s.frame("3a 28 28", 0, bytes.fromhex(text), words)

    s.select()
    lock_page("0000", "FAST_READ 02: check byte, internal byte, lock bytes 0 and 1: no page is locked")
    s.frame("a2 04 444f4f52", 0, b"", "WRITE 04: stored")
    s.frame("a2 02 00001000", 0, b"", "WRITE 02 with lock byte 0 at 10h: page 04 is locked")
    lock_page("1000", "FAST_READ 02: the lock bit is set, the first two bytes are as before")
    s.stopped("a2 04 00000000", 7, 3, "WRITE 04: locked by its own lock bit")
    s.select()
    s.frame("3a 04 04", 0, bytes.fromhex("444f4f52"), "FAST_READ 04: still what was stored before the lock")
    s.frame("a2 02 00000000", 0, b"", "WRITE 02 with zeros: answered 0, and no bit is cleared")
    lock_page("1000", "FAST_READ 02: the lock bit stays")
    s.frame("a2 02 00000200", 0, b"", "WRITE 02 with block-lock bit 1: the lock bits of pages 04 to 09 are frozen")
    s.frame("a2 02 00002001", 0, b"", "WRITE 02 with the lock bits of pages 05 and 08: both are frozen, and the answer is 0")
    lock_page("1200", "FAST_READ 02: neither bit was set")
    s.frame("a2 05 01020304", 0, b"", "WRITE 05: page 05 is not locked, and cannot be locked any more")
    s.frame("a2 02 00000900", 0, b"", "WRITE 02 with block-lock bit 0 and the lock bit of page 03 in one write")
    lock_page("1b00", "FAST_READ 02: both are set, since the block-lock bits before the write decide")
    s.stopped("a2 03 01000000", 7, 3, "WRITE 03 (OTP): locked by its own lock bit")
    s.select()
    s.frame("a2 28 01000100", 0, b"", "WRITE 28: pages 10 and 11 are locked by one bit, and the lock bits of 10 to 13 frozen")
    pair_page("01000100", "FAST_READ 28: lock bytes 2 to 4")
    s.stopped("a2 11 00000000", 7, 4, "WRITE 11: locked by the lock bit that it shares with page 10")
    s.select()
    s.frame("a2 28 02000000", 0, b"", "WRITE 28 with the lock bit of 12 and 13: frozen, and the answer is 0")
    s.power()
    s.select()
    lock_page("1b00", "FAST_READ 02: no lock bit is lost without power")
    pair_page("01000100", "FAST_READ 28: likewise, and the frozen bit was not set")


DATA_PROT_KEY = bytes(range(16))


def refused_writes(s):
    s.select()
    s.stopped("a2 2e 00000000", 6, 1, "WRITE 2E: at or above AUTH0, a login is needed")
    s.select()
    s.stopped("a2 29 0000002e", 6, 2, "WRITE 29: the Random ID bit would change in ACTIVE")
    s.select()
    s.stopped("a2 04 00000000", 7, 3, "WRITE 04: locked by its own lock bit")
    s.select()
    s.stopped("a2 13 00000000", 7, 4, "WRITE 13: locked by the lock bit that it shares with page 12")
    s.select()
    s.stopped("a2 2d 00000000", 7, 5, "WRITE 2D: locked by BLOCK_LOCK_KEY, which counts as a key lock")
    s.select()
    s.stopped("a2 2a 80050000", 7, 6, "WRITE 2A: the configuration is locked")
    s.frame("a2 2a 80050000", 1, b"", "WRITE 2A: the tag is WAITING and silent; the reason was that one answer's")
    s.select()
    s.stopped("a2 29 0100002e", 7, 6, "WRITE 29 with the Random ID bit as it is: behind it the configuration lock shows")
    s.select()
    s.stopped("a2 30 00000000", 6, 1, "WRITE 30: the key is locked too, but AUTH0 comes first")
    s.select()
    s.login(0, DATA_PROT_KEY, "AUTHENTICATED")
    s.stopped("a2 30 00000000", 7, 5, "WRITE 30: logged in, and the key lock shows")
    s.select()
    s.frame("30 2e", 6, b"", "READ 2E: a login is needed, and only a WRITE tells a reason; " + ENDED)


def garbled_frame(s):
    room = s.pages(0x04, 0x07)
    s.select()
    s.frame("30 04", 6, b"", "READ 04: a login is needed; " + ENDED)
    s.select()
    s.login(0, DATA_PROT_KEY, "AUTHENTICATED")
    s.frame("30 04", 0, room, "READ 04: logged in, the page shows")
    s.frame("60", 3, b"", "a damaged frame: a code that the tag does not know; " + ENDED)
    s.frame("30 04", 1, b"", "READ 04: the tag is WAITING and silent, the login is gone")
    s.select()
    s.frame("30 04", 6, b"", "READ 04: selecting does not bring the login back")
    s.select()
    s.login(0, DATA_PROT_KEY, "AUTHENTICATED")
    s.frame("30 04 00", 4, b"", "a damaged frame: READ with a byte too many; " + ENDED)
    s.frame("30 04", 1, b"", "READ 04: the tag is WAITING and silent")
    s.select()
    challenge = s.part_1(0, DATA_PROT_KEY, "AUTHENTICATE with key 0: a third login begins")
    s.frame(proof(DATA_PROT_KEY, challenge)[:-1].hex(), 4, b"", "a damaged proof: its last byte is missing; no failed login is counted")
    s.select()
    s.login(0, DATA_PROT_KEY, "AUTHENTICATED")
    s.frame("30 04", 0, room, "READ 04: with AUTH_LIM 1, a counted failure would have barred this login with 11")


def login_data_prot(s):
    s.select()
    s.frame("30 04", 6, b"", "READ 04: at or above AUTH0, a login is needed; " + ENDED)
    s.select()
    s.frame("39 02", 6, b"", "READ_CNT 2: closed without a login; " + ENDED)
    s.select()
    s.stopped("a2 06 47415445", 6, 1, "WRITE 06: at or above AUTH0 too")
    s.select()
    s.login(0, DATA_PROT_KEY, "AUTHENTICATED")
    s.frame("30 04", 0, s.pages(0x04, 0x07), "READ 04: the page shows")
    s.frame("a2 06 47415445", 0, b"", "WRITE 06: stored")
    s.frame("39 02", 0, little(300), "READ_CNT 2: the counter is 300 (00012Ch), low byte first")
    s.frame("a5 02 01000000", 0, b"", "INCR_CNT 2 by 1: done")
    s.frame("30 30", 0, bytes(16), "READ 30: a key never shows, it reads as zeros")
    s.frame("50 00", 0, b"", "HLTA: the tag is WAITING, the login is gone")
    s.select()
    challenge = s.part_1(0, DATA_PROT_KEY, "AUTHENTICATE with key 0: another login begins")
    turned = cbc(DATA_PROT_KEY[::-1], RND_A + rotated(challenge))
    s.frame("af" + turned.hex(), 8, b"", "a proof with the key's bytes the wrong way round is false; " + ENDED)
    s.frame("30 04", 1, b"", "READ 04: the tag is WAITING and silent")


UID_RETR_KEY = bytes(range(0xA0, 0xB0))


def login_uid_retr(s):
    hidden = bytes(9) + s.pages(0x00, 0x03)[9:]
    s.select()
    s.frame("30 00", 0, hidden, "READ 00: nine zero bytes for the serial number and its check bytes; the rest shows")
    s.login(1, UID_RETR_KEY, "TRACEABLE")
    s.frame("30 00", 0, s.pages(0x00, 0x03), "READ 00: the serial number shows")
    s.frame("30 10", 6, b"", "READ 10: TRACEABLE opens no protected page; " + ENDED)
    s.select()
    s.frame("30 00", 0, hidden, "READ 00: hidden again")


ORIGINALITY_KEY = bytes.fromhex("2b7e151628aed2a6abf7158809cf4f3c")


def login_originality(s):
    s.select()
    s.login(2, ORIGINALITY_KEY, "ACTIVE")
    s.frame("30 00", 0, s.pages(0x00, 0x03), "READ 00: open in ACTIVE")
    s.frame("30 04", 6, b"", "READ 04: the originality key opens no page; " + ENDED)


SAMPLES = [
    (example, "Document 01's example: a counter at 10, and a refused write that ends the session."),
    (ten_rides, "A ten-ride ticket: ten increments, the byte order of the counter, and its highest value."),
    (lock_bits, "Lock bits that stay set, and block-lock bits that freeze them."),
    (refused_writes, "Why a WRITE is refused: the six rules, and the first of them where several bar a page."),
    (garbled_frame, "A damaged frame ends a login. The bench program makes the right CRC itself, so damage is an unknown code or a wrong length here."),
    (login_data_prot, "A login with DataProtKey opens protected pages and counter 2."),
    (login_uid_retr, "A login with UIDRetrKey shows the serial number while Random ID is on."),
    (login_originality, "A login with the originality key leaves the tag ACTIVE."),
]

# ---- the files


def readme(name, title, steps):
    lines = [title, "", "settings.txt is what the tag holds, tag.image the same as an image file. Play it from the repository's folder:", "",
             "    target/bin/bench samples/%s/tag.image < samples/%s/script.txt" % (name, name), "",
             "%4s  %-30s  %-30s  %s" % ("line", "sent", "answer", "what happens")]
    for n, (line, answer, words) in enumerate(steps, 1):
        lines.append("%4d  %-30s  %-30s  %s" % (n, shortened(line), shortened(answer), words))
    return "\n".join(lines + ["", "expected.txt has the answers in full.", ""])


def files(builder, title):
    """The files of a sample's folder, by name."""
    name = builder.__name__
    with open(os.path.join(FOLDER, name, "settings.txt"), encoding="utf-8") as f:
        text = f.read()
    try:
        image, _ = tagimage.make(text)
    except tagimage.Wrong as error:
        raise tagimage.Wrong("samples/%s/settings.txt: %s" % (name, error))
    script = Script(image)
    builder(script)
    return {
        "tag.image": image,
        "script.txt": "".join(line + "\n" for line, _, _ in script.steps).encode(),
        "expected.txt": "".join(answer + "\n" for _, answer, _ in script.steps).encode(),
        "README.txt": readme(name, title, script.steps).encode(),
    }


def all_files():
    """Every file with its bytes, by its path from the repository's folder."""
    found = {}
    for builder, title in SAMPLES:
        for name, data in files(builder, title).items():
            found[os.path.join("samples", builder.__name__, name)] = data
    found[BENCH_IMAGE] = found[os.path.join("samples", "example", "tag.image")]
    return found


def written(check):
    """Writes the files, or only compares them; whether all were as they would be written."""
    right = True
    for name, data in all_files().items():
        path = os.path.join(tagimage.ROOT, name)
        if stored(path) != data:
            right = False
            if check:
                print("%s: not as tools/samples.py writes it" % name)
            else:
                with open(path, "wb") as f:
                    f.write(data)
    return right


def failed(message):
    print(message, file=sys.stderr)
    return 1


def written_or_said(check):
    """The exit status of writing or comparing; a file that is missing or wrong is named."""
    try:
        return 0 if written(check) or not check else 1
    except tagimage.Wrong as error:
        return failed(str(error))
    except UnicodeDecodeError as error:
        return failed("settings that are not UTF-8: %s" % error)
    except OSError as error:
        return failed("%s: %s" % (error.filename, error.strerror))


def printed_proof(key_text, line_text):
    try:
        key, line = tagimage.hex_bytes(key_text), tagimage.number(line_text)
    except ValueError as error:
        return failed("--proof: %s" % error)
    if len(key) != 16 or line < 1:
        return failed("--proof: a key has 16 bytes, and the first line is line 1")
    print("F " + proof(key, challenge_of(line)).hex())
    return 0


def main(words):
    if words == ["--check"]:
        return written_or_said(True)
    if len(words) == 3 and words[0] == "--proof":
        return printed_proof(words[1], words[2])
    if words:
        print(__doc__.strip())
        return 0 if words in (["-h"], ["--help"]) else 1
    return written_or_said(False)


if __name__ == "__main__":
    tagimage.start(main)
