"""Tests of the oracle, and of the scripts in tools/ that make and show images, samples and pictures. Each gives a list of what is wrong."""

import os
import random
import shlex
import subprocess
import sys
import tempfile

import inputs
import oracle
import program

TOOLS = os.path.join(program.ROOT, "tools")
sys.path.insert(0, TOOLS)
import cases  # noqa: E402
import logins  # noqa: E402
import samples  # noqa: E402
import tagimage  # noqa: E402


def tool(name, *words):
    """Exit status and all that a script printed."""
    done = subprocess.run([sys.executable, os.path.join(TOOLS, name)] + list(words), stdout=subprocess.PIPE, stderr=subprocess.STDOUT, check=False)
    return done.returncode, done.stdout.decode("utf-8", "replace")


# BENCH goes on to words.py
os.environ["BENCH"] = shlex.join(program.PROGRAM)


def unless(right, message):
    return [] if right else [message]


# ---- the oracle

def oracle_standards():
    """FIPS 197 appendix C.1, NIST SP 800-38A F.2.1 and F.2.2 (its first two blocks), ISO/IEC 14443-3 Annex B, 009 Table 17."""
    key, plain, enciphered = bytes(range(16)), bytes.fromhex("00112233445566778899aabbccddeeff"), bytes.fromhex("69c4e0d86a7b0430d8cdb78070b4c55a")
    nist = bytes.fromhex("2b7e151628aed2a6abf7158809cf4f3c")
    first, second = bytes.fromhex("6bc1bee22e409f96e93d7e117393172a"), bytes.fromhex("ae2d8a571e03ac9c9eb76fac45af8e51")
    one, two = bytes.fromhex("7649abac8119b246cee98e9b12e9197d"), bytes.fromhex("5086cb9b507219ee95db113a917678b2")
    start = bytes(oracle.xor(first, key))
    step_3 = oracle.cbc_encipher(bytes(16), cases.RND_A + oracle.rotated(cases.RND_B))
    return (
        unless(oracle.encipher(key, plain) == enciphered and oracle.decipher(key, enciphered) == plain, "FIPS 197 C.1")
        + unless(oracle.cbc_encipher(nist, start + second) == one + two, "SP 800-38A F.2.1")
        + unless(oracle.cbc_decipher(nist, one + two) == start + second, "SP 800-38A F.2.2")
        + unless(oracle.crc_a(b"\x00\x00") == b"\xa0\x1e" and oracle.crc_a(b"\x12\x34") == b"\x26\xcf", "CRC_A")
        + unless(step_3 == cases.STEP_3 and oracle.cbc_decipher(bytes(16), step_3)[:16] == cases.RND_A, "009 Table 17")
    )


PLACE = {"page": lambda k: 1 + 4 * k, "counter": lambda k: 242 + 3 * k, "failed": lambda k: 252}


def patched(image, changes):
    image = bytearray(image)
    for kind, k, data in changes:
        at = PLACE[kind](k)
        image[at:at + len(data)] = data
    return bytes(image)


def held(tag):
    """The image of what a tag of the oracle stores."""
    counters = b"".join(n.to_bytes(3, "little") for n in tag.counters)
    return b"\x3c" + bytes(tag.store) + b"\x03" + counters + b"\x01" + tag.failed.to_bytes(2, "little") + b"\x01" + tag.originality


def played_row(tag, row):
    """A row of tools/cases.py from its lines on: name, words, changes, lines, what is changed afterwards, state afterwards."""
    name, _, changes, lines, changed, state = row
    found = []
    for line in lines:
        if line[0] == "power":
            tag.power()
        elif line[0] in ("select", "to_active"):
            tag.select()
        else:
            _, frame, rnd, number, reply, place = line
            got = tag.frame(frame, rnd)
            data = got[1] + oracle.crc_a(got[1]) if isinstance(got[1], bytes) else None
            found += unless(got[0] == number, "%s: number %d, expected %d" % (name, got[0], number))
            found += unless(got[2] == place, "%s: place %d, expected %d" % (name, got[2], place))
            found += unless(data == (reply[1] if reply[0] == "bytes" else None), "%s: another reply" % name)
    found += unless(held(tag) == patched(cases.BASE, changes + changed), "%s: other bytes are stored" % name)
    return found + unless(tag.state == state.upper() and (tag.state == "CHALLENGED" or tag.challenge == bytes(16)), "%s: %s" % (name, tag.state))


def oracle_rows():
    """Every row of frames that tools/cases.py works out, those that begin in another state than a loading leaves too."""
    found = []
    for rows in [cases.DOCUMENT] + [table for _, _, table in cases.THEMES]:
        for row in rows:
            found += played_row(oracle.Tag(patched(cases.BASE, row[2])), row)
    for state, challenge, *row in cases.BEGUN:
        tag = oracle.Tag(patched(cases.BASE, row[2]))
        name, _, key = state.partition(" ")
        tag.enter(name.upper(), int(key) if key else None, challenge)
        found += played_row(tag, row)
    return found


def loads(image):
    """Whether the oracle loads an image."""
    try:
        oracle.Tag(image)
        return True
    except oracle.Refused:
        return False


def wrong_check_bytes(image):
    """Images that differ from a right one in a check byte or in the serial number under it, each with its name."""
    for name, at in (("BCC0", inputs.BCC0), ("BCC1", inputs.BCC1)):
        for bits in [1 << n for n in range(8)] + [0x88, 0xFF]:
            yield "%s xor %02X" % (name, bits), inputs.changed(image, {at: bits})
    # taken together they would be right
    yield "both xor 01", inputs.changed(image, {inputs.BCC0: 0x01, inputs.BCC1: 0x01})
    for at in inputs.SERIAL_AT:
        yield "byte %d of the image xor 01" % at, inputs.changed(image, {at: 0x01})


def zero_serial(image, bcc0, bcc1):
    return image[:1] + bytes([0, 0, 0, bcc0, 0, 0, 0, 0, bcc1]) + image[10:]


def oracle_check_bytes():
    """Each wrong bit of a check byte is refused; 88h is in BCC0 and not in BCC1, which a serial number of zeros shows."""
    base = tagimage.stored(EXAMPLE)
    found = [name + " is loaded" for name, image in wrong_check_bytes(base) if loads(image)]
    return found + unless(loads(zero_serial(base, 0x88, 0x00)) and not loads(zero_serial(base, 0x00, 0x88)), "serial number of zeros")


def images_load():
    """The images of the samples and of the logins have right check bytes, before their lines and behind them."""
    images = [(builder.__name__, tagimage.stored(os.path.join(samples.FOLDER, builder.__name__, "tag.image"))) for builder, _ in samples.SAMPLES]
    for name, loaded, _, saved in logins.SESSIONS:
        for changes in (loaded, saved):
            image = bytearray(logins.IMAGE)
            for data in map(bytes.fromhex, changes):
                image[data[0]:data[0] + len(data) - 1] = data[1:]
            images.append((name, bytes(image)))
    return [name + ": the oracle refuses its image" for name, image in images if not loads(image)]


# ---- samples, pictures and the guide

def samples_written():
    status, text = tool("samples.py", "--check")
    return unless(status == 0, text.strip())


def samples_made():
    """The image of each sample, made anew by the command."""
    found = []
    with tempfile.TemporaryDirectory() as folder:
        for builder, _ in samples.SAMPLES:
            source = os.path.join(samples.FOLDER, builder.__name__)
            out = os.path.join(folder, "image")
            status, text = tool("make_image.py", os.path.join(source, "settings.txt"), out)
            found += unless(status == 0 and tagimage.stored(out) == tagimage.stored(os.path.join(source, "tag.image")), "%s: %s" % (builder.__name__, text))
    return found


def help_texts():
    found = []
    for name in ("make_image.py", "show_image.py", "samples.py", "words.py", "draw.py"):
        status, text = tool(name, "--help")
        found += unless(status == 0 and "tools/" + name in text, "%s --help" % name)
    return found


def words():
    """Each sample in words, by the bench program."""
    found = []
    for builder, title in samples.SAMPLES:
        status, text = tool("words.py", os.path.join(samples.FOLDER, builder.__name__))
        right = status == 0 and text.startswith(title) and text.endswith("Every answer is the expected one.\n")
        found += unless(right, "%s: %s" % (builder.__name__, text[-200:]))
    return found


# what must be said beside each answer of samples/refused_writes: why, where the answer tells it
SAID = {
    "6 1": "refused: the page is at or above AUTH0",
    "6 2": "refused: the Random ID bit would change",
    "7 3": "refused: locked by the page's own lock bit",
    "7 4": "refused: locked by the lock bit of its two pages",
    "7 5": "refused: locked by a key lock",
    "7 6": "refused: locked by the configuration lock",
    "6": "refused: a login is needed;",
}


def words_of_reasons():
    found, lines = [], tool("words.py", os.path.join(samples.FOLDER, "refused_writes"))[1].split("\n")
    for answer, said in SAID.items():
        beside = [line for line in lines if "-> %-30s " % answer in line]
        found += unless(beside and all(said in line for line in beside), "beside %s: %s" % (answer, beside))
    return found


def guide():
    """The login that docs/SCRIPTS.md prints: the command gives it."""
    with open(os.path.join(program.ROOT, "docs", "SCRIPTS.md"), encoding="utf-8") as f:
        lines = [line.strip() for line in f]
    at = next(n for n, line in enumerate(lines) if line.startswith("$ tools/samples.py --proof "))
    status, text = tool("samples.py", *lines[at].split()[2:])
    return unless(status == 0 and text.strip() == lines[at + 1], "docs/SCRIPTS.md: the proof is " + text)


def pictures():
    status, text = tool("draw.py", "--check")
    return unless(status == 0, text.strip())


# ---- images and settings

def random_image(r):
    """Any bytes that load."""
    image = bytearray(r.randbytes(tagimage.SIZE))
    for section in tagimage.SECTIONS.values():
        image[section.at] = section.count
    image[253] &= 0x03
    image[tagimage.BCC0], image[tagimage.BCC1] = tagimage.right_check_bytes(image)
    return bytes(image)


def some_images(count):
    r = random.Random("images and settings")
    return [random_image(r) if n % 2 else inputs.valid_image(r) for n in range(count)]


def round_trip():
    """Image to settings to image, for random images: each of the 271 bytes comes back. Two of them through the commands."""
    found = []
    for n, image in enumerate(some_images(300)):
        found += unless(tagimage.make(tagimage.settings_text(image))[0] == image, "image %d: other bytes after the round trip" % n)
    with tempfile.TemporaryDirectory() as folder:
        for image in some_images(2):
            found += round_trip_by_command(image, folder)
    return found


def round_trip_by_command(image, folder):
    path, settings, again = (os.path.join(folder, name) for name in ("image", "settings", "again"))
    with open(path, "wb") as f:
        f.write(image)
    status, text = tool("show_image.py", path, "--settings")
    with open(settings, "w", encoding="utf-8") as f:
        f.write(text)
    made, said = tool("make_image.py", settings, again)
    return unless(status == 0 and made == 0 and tagimage.stored(again) == image, "by command: " + said)


def made_images_load():
    """The bench program loads what the maker writes: a selection is answered 0."""
    found = []
    with tempfile.TemporaryDirectory() as folder:
        texts = ["", "failed count = 1023\ncounter 1 = FFFFFFh\nAUTH0 = 00\n"] + [tagimage.settings_text(image) for image in some_images(60)]
        for n, text in enumerate(texts):
            path = os.path.join(folder, "image")
            with open(path, "wb") as f:
                f.write(tagimage.make(text)[0])
            ended = program.run([path], b"S\n")
            found += unless(ended == program.Ended(0, b"0\n"), "settings %d: %r" % (n, ended))
    return found


# settings, and what the message must say
WRONG_SETTINGS = [
    ("counter 0 = 10\nfoo = 3\n", "line 2: there is no setting 'foo'"),
    ("counter 0\n", "line 1: 'counter 0' has no '='"),
    ("counter 0 =\n", "line 1: counter 0 has no value"),
    ("counter 0 = 16777216\n", "line 1: counter 0: 16777216 is above 16777215"),
    ("counter 3 = 1\n", "line 1: there is no setting 'counter 3'"),
    ("counter 1 = -1\n", "line 1: counter 1: '-1' is no number"),
    ("\n\nfailed count = 1,024\n", "line 3: failed count: 1,024 is above 1023"),
    ("AUTH_LIM = 400h\n", "line 1: AUTH_LIM: 400h is above 1023"),
    ("AUTH0 = 80\n", "line 1: AUTH0: 80 is above 7F"),
    ("AUTH0 = page 4\n", "line 1: AUTH0: 'page 4' is no page number in hex"),
    ("serial number = 04 51 2C\n", "line 1: serial number: 7 bytes are needed, 3 bytes are given"),
    ("OTP = 1 2 3\n", "line 1: OTP: 3 hex digits are no whole number of bytes"),
    ("OTP = 0g000000\n", "line 1: OTP: 'g' is no hex digit"),
    ("DataProtKey = 00\n", "line 1: DataProtKey: 16 bytes are needed, 1 byte is given"),
    ("PROT = perhaps\n", "line 1: PROT: 'perhaps' is neither 'on' nor 'off'"),
    ("locked pages = 02\n", "line 1: locked pages: page 02 has no such bit; the pages are 03 to 27"),
    ("locked pages = 0F-08\n", "line 1: locked pages: 0F-08 ends before it begins"),
    ("locked pages = all\n", "line 1: locked pages: 'all' is neither a page in hex nor a range"),
    ("page 3C = 00000000\n", "line 1: there is no page 3C; the last is 3B"),
    ("AUTH0 = 04\n# again\nauth0 = 04\n", "line 3: AUTH0 is set in line 1 already"),
    ("page 29 = 00 00 00 3C\nAUTH0 = 04\n", "line 2: AUTH0: page 29 in line 1 has another value for page 29 byte 3"),
    ("locked pages = 04\npage 02 = 10 48 20 00\n", "line 2: page 02: locked pages in line 1 has another value for page 02 byte 2"),
    ("DataProtKey = 000102030405060708090A0B0C0D0E0F\npage 33 = 00010203\n", "line 2: page 33: DataProtKey in line 1 has another value for page 33 byte 0"),
    ("page 00 = 04 51 2C F0\n", "line 1: page 00: BCC0 is F0 and must be F1 by the serial number"),
    ("page 00 = 04 51 2C 79\n", "line 1: page 00: BCC0 is 79 and must be F1 by the serial number"),
    ("\npage 02 = 98 48 00 00\n", "line 2: page 02: BCC1 is 98 and must be 10 by the serial number"),
    ("page 00 = 04 51 2D F1\n", "line 1: page 00: BCC0 is F1 and must be F0 by the serial number"),
    ("page 02 = 10 48 00 00\npage 01 = 5A 93 C7 1F\n", "line 1: page 02: BCC1 is 10 and must be 11 by the serial number"),
    ("page 02 = 10 48 00 00\nserial number = 04 51 2C 00 00 00 00\n", "line 1: page 02: BCC1 is 10 and must be 00 by the serial number"),
    ("page 02 = 00 48 00 00\npage 00 = 04 51 2C 00\n",
     "line 2: page 00: BCC0 is 00 and must be F1 by the serial number\nline 1: page 02: BCC1 is 00 and must be 10 by the serial number"),
]

# settings that name the serial number or pages of it, and the first nine bytes of the pages that they give
SERIALS = [
    ("", "04512cf15a93c71e10"),
    ("serial number = 00 00 00 00 00 00 00\n", "000000880000000000"),
    ("serial number = 04 01 02 10 20 40 80\n", "0401028f10204080f0"),
    ("page 00 = 04 51 2C F1\n", "04512cf15a93c71e10"),
    ("page 00 = 05 51 2C F0\npage 01 = 5A 93 C7 1F\n", "05512cf05a93c71f11"),
    ("page 01 = 00 00 00 01\npage 02 = 01 48 00 00\n", "04512cf10000000101"),
    ("page 02 = 10 48 F0 00\nserial number = 04 51 2C 5A 93 C7 1E\n", "04512cf15a93c71e10"),
]


def check_bytes_made():
    return [message for text, pages in SERIALS for message in unless(tagimage.make(text)[0][1:10].hex() == pages, "other check bytes: " + text)]


def wrong_settings():
    """In the code each message; by command the exit status, that no file is made, and that one that was there stays."""
    found = []
    for text, message in WRONG_SETTINGS:
        try:
            tagimage.make(text)
            found.append("accepted: " + message)
        except tagimage.Wrong as error:
            found += unless(str(error).startswith(message), "'%s', expected '%s'" % (error, message))
    with tempfile.TemporaryDirectory() as folder:
        source, out = os.path.join(folder, "settings"), os.path.join(folder, "image")
        with open(source, "w", encoding="utf-8") as f:
            f.write(WRONG_SETTINGS[0][0])
        status, text = tool("make_image.py", source, out)
        found += unless(status == 1 and "line 2" in text and not os.path.exists(out), "by command: " + text)
        with open(out, "wb") as f:
            f.write(b"before")
        status, _ = tool("make_image.py", source, out)
        found += unless(status == 1 and tagimage.stored(out) == b"before", "by command: a file that was there is changed")
    return found


# changes of a sample's image, whether a tag loads it, and what must be said
SHOWN = [
    (lambda i: i, 0, "a tag loads it"),
    (lambda i: i, 0, "Counter 0          10 (00000Ah), stored and sent low byte first: 0A 00 00"),
    (lambda i: i[:270], 1, "a tag answers 12: the file has 270 bytes, an image has 271"),
    (lambda i: i + i, 1, "a tag answers 12: the file has 542 bytes, an image has 271"),
    (lambda i: b"\x3d" + i[1:], 1, "a tag answers 12: the count byte of the pages section is 61 and must be 60"),
    (lambda i: i[:241] + b"\x02" + i[242:], 1, "a tag answers 12: the count byte of the counters section is 2 and must be 3"),
    (lambda i: i[:252] + b"\x00\x04" + i[254:], 1, "a tag answers 12: the failed count is 1,024, above 1,023"),
    (lambda i: i[:4] + b"\x00" + i[5:], 1, "a tag answers 12: BCC0 is 00 and must be F1 by the serial number"),
    (lambda i: i[:9] + b"\x98" + i[10:], 1, "a tag answers 12: BCC1 is 98 and must be 10 by the serial number"),
    (lambda i: i[:1] + b"\x05" + i[2:], 1, "a tag answers 12: BCC0 is F1 and must be F0 by the serial number"),
    (lambda i: i[:1] + b"\x05" + i[2:4] + b"\xf0" + i[5:], 0, "the serial number begins with 05; the maker's begin with 04"),
    (lambda i: i[:11] + b"\x18\x02" + i[13:], 0, "locked           pages 03-04 09"),
]


def shown():
    base = tagimage.stored(os.path.join(samples.FOLDER, "example", "tag.image"))
    found = []
    with tempfile.TemporaryDirectory() as folder:
        path = os.path.join(folder, "image")
        for change, status, words in SHOWN:
            with open(path, "wb") as f:
                f.write(change(base))
            got = tool("show_image.py", path)
            found += unless(got[0] == status and words in got[1], "exit %d: '%s' is not said" % (got[0], words))
            found += unless(tool("show_image.py", path, "--settings")[0] == status, "--settings: exit status not %d where '%s' is said" % (status, words))
    return found + keys_hidden() + unless(tool("show_image.py", os.path.join(folder, "gone"))[0] == 1, "a missing file has exit status 0")


def keys_hidden():
    path = os.path.join(samples.FOLDER, "login_data_prot", "tag.image")
    key, turned = tagimage.spaced(samples.DATA_PROT_KEY), tagimage.spaced(samples.DATA_PROT_KEY[::-1])
    hidden, with_keys = tool("show_image.py", path)[1], tool("show_image.py", path, "--keys")[1]
    return unless(key in with_keys and key[:23] not in hidden and turned[:11] not in hidden, "keys show without --keys, or not with it")


def shown_from_pipe():
    """The same words as for a file; of what is too long, that it is, even where it has no end."""
    base, found = tagimage.stored(EXAMPLE), []
    longer = "the file has more than 271 bytes"
    for data, status, words in ((base, 0, "a tag loads it"), (base[:270], 1, "the file has 270 bytes"), (base + b"\x00", 1, longer), (base * 20, 1, longer)):
        reading, writing = os.pipe()
        os.write(writing, data)
        os.close(writing)
        done = subprocess.run([sys.executable, os.path.join(TOOLS, "show_image.py"), "/dev/stdin"], stdin=reading, stdout=subprocess.PIPE, check=False)
        os.close(reading)
        found += unless(done.returncode == status and words.encode() in done.stdout, "%d bytes: exit %d, %r" % (len(data), done.returncode, done.stdout[:100]))
    status, text = tool("show_image.py", "/dev/zero")
    return found + unless(status == 1 and "more than 271 bytes" in text, "/dev/zero: " + text[:100])


# ---- errors, and lines in words

EXAMPLE = os.path.join(samples.FOLDER, "example", "tag.image")


def one_line_errors():
    found = []
    with tempfile.TemporaryDirectory() as folder:
        gone = os.path.join(folder, "gone")
        for command in (["words.py", EXAMPLE, gone], ["words.py", EXAMPLE, folder], ["words.py", folder], ["show_image.py", gone],
                        ["make_image.py", gone, gone], ["samples.py", "--proof", "zz", "2"], ["samples.py", "--proof", "00" * 15, "2"],
                        ["samples.py", "--proof", "00" * 16, "0"], ["samples.py", "--proof", "00" * 16, "x"]):
            status, text = tool(*command)
            found += unless(status == 1 and text.count("\n") == 1 and "Traceback" not in text, "%s: exit %d, %s" % (" ".join(command), status, text[-200:]))
    return found


# a script, and the start of each line that is shown for it
SHOWN_LINES = [
    (b"S\nF 3900\n", ["S ", "F 3900 "]),
    (b"S\nF 3900", ["S ", "F 3900 "]),
    (b"S\r\nF 3900\r\n", ["S\\r ", "F 3900\\r "]),
    (b"S\nF 39\x0c00\n", ["S ", "F 39\\x0c00 "]),
    (b"S\n\nS\n", ["S ", " ", "S "]),
    (b"S\n\xe2\x80\xa8\n", ["S ", "\\xe2\\x80\\xa8 "]),
    (b"", []),
]


def words_of_lines():
    """A line ends at a newline alone, and what cannot be printed stands as text."""
    found = []
    with tempfile.TemporaryDirectory() as folder:
        path = os.path.join(folder, "script")
        for script, starts in SHOWN_LINES:
            with open(path, "wb") as f:
                f.write(script)
            status, text = tool("words.py", EXAMPLE, path)
            lines = text.split("\n")[:-1]
            right = status == 0 and len(lines) == len(starts) and all(line.startswith(start) for line, start in zip(lines, starts))
            right = right and ("carriage return" in text) == (b"\r" in script)
            found += unless(right, "%r: %s" % (script, text))
    return found
