#!/usr/bin/env python3
"""Holds the bench program against the samples, against oracle.py, and against the rules for lines and image files.

    host/bench/check.py                    all of it, with 10,000 random inputs; the last line is 'N passed, M failed'
    host/bench/check.py --inputs N         with N random inputs
    host/bench/check.py --input N FOLDER   writes random input N and what it must print into FOLDER, to look at

Each test is a function that gives a list of what is wrong. The program is the one of program.py.
"""

import collections
import multiprocessing
import os
import random
import select
import shutil
import sys
import tempfile
import threading
import time
import traceback

import check_streams
import check_tools
import inputs
import oracle
import program

INPUTS = 10_000
BLOCKS = 10
# from so many random inputs on, each reason for a refused WRITE must be among them
ENOUGH = 1_000
SAMPLES = os.path.join(program.ROOT, "samples")


def read(*path):
    with open(os.path.join(*path), "rb") as f:
        return f.read()


def write(data, *path):
    name = os.path.join(*path)
    with open(name, "wb") as f:
        f.write(data)
    return name


def wrong(name, ended, expected):
    found = program.difference(ended, expected)
    return ["%s: %s" % (name, found)] if found else []


# ---- the samples

def samples():
    found = []
    for name in sorted(os.listdir(SAMPLES)):
        folder = os.path.join(SAMPLES, name)
        ended = program.run([os.path.join(folder, "tag.image")], read(folder, "script.txt"))
        found += wrong(name, ended, read(folder, "expected.txt"))
    return found


# ---- random inputs

# what a refused WRITE prints: the number, and the place of the rule that stopped it
REFUSED_WRITES = [b"6 1", b"6 2", b"7 3", b"7 4", b"7 5", b"7 6"]


def refused_writes(output):
    return collections.Counter(line for line in output.split(b"\n") if line in REFUSED_WRITES)


def played(i, folder):
    """One random input; every eighth script goes through a pipe, the others are files. What is wrong, and the refused WRITEs that were to be printed."""
    image, script = inputs.some_input(i)
    path, text = write(image, folder, "image"), write(script, folder, "script")
    try:
        if i % 8 == 0:
            ended = program.run([path], script)
        else:
            with open(text, "rb") as f:
                ended = program.run([path], stdin=f)
    except program.Hangs as error:
        raise program.Hangs("input %d: %s" % (i, error)) from None
    expected = oracle.output(image, script)
    return wrong("input %d" % i, ended, expected), refused_writes(expected)


def stretch(numbers):
    found, refused = [], collections.Counter()
    with tempfile.TemporaryDirectory() as folder:
        for i in numbers:
            messages, more = played(i, folder)
            found += messages
            refused += more
    return found, refused


def random_block(pool, numbers, met):
    parts = [numbers[n:n + 25] for n in range(0, len(numbers), 25)]
    found = []
    for messages, refused in pool.map(stretch, parts, chunksize=1):
        found += messages
        met.update(refused)
    return found


def random_inputs(count, number, met):
    """Blocks of inputs 0 to number - 1; how many inputs were played. The refused WRITEs are counted in met."""
    played_inputs = 0
    with multiprocessing.Pool(os.cpu_count()) as pool:
        for block in range(BLOCKS):
            numbers = range(number * block // BLOCKS, number * (block + 1) // BLOCKS)
            name = "random inputs %d to %d, as oracle.py plays them" % (numbers.start, numbers.stop - 1)
            if numbers and not count.test(name, random_block, pool, numbers, met):
                break
            played_inputs += len(numbers)
    return played_inputs


# ---- images that are refused, and files that are none

LINES = b"S\nF 3900\nP\n"


def refused_images():
    base = read(SAMPLES, "example", "tag.image")
    found = []
    with tempfile.TemporaryDirectory() as folder:
        for size, data in ((0, b""), (1, base), (270, base), (272, base + b"\x00"), (542, base + base)):
            path = write(data[:size], folder, "image of %d bytes" % size)
            found += wrong("%d bytes" % size, program.run([path], LINES), b"12\n")
        for name, words in (("missing file", [os.path.join(folder, "none")]), ("folder", [folder]), ("no argument", []), ("empty name", [""]),
                            ("name of 5,000 letters", ["x" * 5000]), ("path of 5,000 letters", [folder + "/x" * 2500]),
                            ("file without end", ["/dev/zero"]), ("file without bytes", ["/dev/null"])):
            found += wrong(name, program.run(words, LINES), b"12\n")
            found += wrong(name + ", bad line", program.run(words, b"bad\n"), b"12\n")
        found += wrong("no lines", program.run([os.path.join(SAMPLES, "example", "tag.image")], b""), b"")
    return found


def wrong_check_bytes():
    """12, with the check bytes of a serial number of zeros exchanged too; with the right ones that number is loaded."""
    base = read(SAMPLES, "example", "tag.image")
    images = list(check_tools.wrong_check_bytes(base)) + [("00 and 88 for a serial number of zeros", check_tools.zero_serial(base, 0x00, 0x88))]
    found = []
    with tempfile.TemporaryDirectory() as folder:
        for name, image in images:
            found += wrong(name, program.run([write(image, folder, "image")], LINES), b"12\n")
        path = write(check_tools.zero_serial(base, 0x88, 0x00), folder, "image")
        found += wrong("serial number of zeros", program.run([path], b"S\nF 3a0001\n"), b"0\n0 0000008800000000\n")
    return found


def piped_image():
    folder = os.path.join(SAMPLES, "example")
    image = read(folder, "tag.image")
    with tempfile.TemporaryDirectory() as place:
        path = os.path.join(place, "image")
        os.mkfifo(path)

        def feed():
            with open(path, "wb", buffering=0) as f:
                f.write(image[:100])
                time.sleep(0.2)
                f.write(image[100:])
        thread = threading.Thread(target=feed, daemon=True)
        thread.start()
        ended = program.run([path], read(folder, "script.txt"))
    return wrong("named pipe", ended, read(folder, "expected.txt"))


# ---- lines, one rule at a time

LINE_CASES = [
    ("last line without newline", b"S\nF 3900", b"0\n0 0a0000\n"),
    ("bad last line without newline", b"S\nx", b"0\nbad line 2\n"),
    ("empty line", b"S\n\nS\n", b"0\nbad line 2\n"),
    ("one newline", b"\n", b"bad line 1\n"),
    ("carriage return", b"S\r\nS\n", b"bad line 1\n"),
    ("upper hex", b"S\nF 3A0404\n", b"0\nbad line 2\n"),
    ("odd digits", b"S\nF 300\n", b"0\nbad line 2\n"),
    ("no digits", b"S\nF \n", b"0\nbad line 2\n"),
    ("62 bytes", b"S\nF " + b"30" * 62 + b"\n", b"0\n4\n"),
    ("63 bytes", b"S\nF " + b"30" * 63 + b"\n", b"0\nbad line 2\n"),
    ("1 byte", b"S\nF 00\n", b"0\n3\n"),
    ("NUL", b"S\nF 3900\x00\n", b"0\nbad line 2\n"),
    ("bad line with a number of two digits", b"S\n" * 9 + b"?\n", b"0\n" * 9 + b"bad line 10\n"),
    ("bad line with a number of six digits", b"P\n" * 123455 + b"?\nP\n", b"0\n" * 123455 + b"bad line 123456\n"),
]


# nothing is locked in the image, and AUTH0 protects nothing: each script sets what then bars a page
REASON_CASES = [
    ("AUTH0, and a page below it", b"S\nF a22900000004\nF a20400000000\nS\nF a20300000000\n", b"0\n0\n6 1\n0\n0\n"),
    ("reading at AUTH0 has no reason", b"S\nF a22900000004\nF 3004\nS\nF 3a0404\n", b"0\n0\n6\n0\n6\n"),
    ("Random ID bit, and the next line", b"S\nF a2290100003c\nF a2290100003c\n", b"0\n6 2\n1\n"),
    ("own lock bit", b"S\nF a20200001080\nF a20400000000\nS\nF a20f00000000\n", b"0\n0\n7 3\n0\n7 3\n"),
    ("pair lock bit", b"S\nF a22801080000\nF a21100000000\nS\nF a22700000000\n", b"0\n0\n7 4\n0\n7 4\n"),
    ("key locks", b"S\nF a22de0000000\nF a23000000000\nS\nF a23700000000\nS\nF a22d00000000\n", b"0\n0\n7 5\n0\n7 5\n0\n7 5\n"),
    ("configuration lock, and Random ID before it", b"S\nF a22a4c050000\nF a22a0c050000\nS\nF a2290100003c\n", b"0\n0\n7 6\n0\n6 2\n"),
    ("AUTH0 before a lock", b"S\nF a22de0000000\nF a2290000002d\nF a22d00000000\nS\nF a23400000000\n", b"0\n0\n0\n6 1\n0\n6 1\n"),
    ("a closed counter has no reason", b"S\nF a22a80050000\nF 3902\nS\nF a50201000000\n", b"0\n0\n6\n0\n6\n"),
    ("a page that can't be written has no reason", b"S\nF a22900000000\nF a20100000000\nS\nF a23c00000000\n", b"0\n0\n5\n0\n5\n"),
]


def scripted(cases):
    image = os.path.join(SAMPLES, "example", "tag.image")
    return [message for name, script, expected in cases for message in wrong(name, program.run([image], script), expected)]


# ---- talking line by line

def answer(process, seconds=5.0):
    """One line of output, or what came of it in the time allowed."""
    text, end = b"", time.monotonic() + seconds
    while not text.endswith(b"\n") and select.select([process.stdout], [], [], max(0, end - time.monotonic()))[0]:
        more = os.read(process.stdout.fileno(), 1)
        if not more:
            break
        text += more
    return text


def talk(process, tag, n, line, halves):
    """Line n is written, whole or in two halves, and its answer is read before anything else is written."""
    cut = len(line) // 2 if halves else 0
    if cut:
        process.stdin.write(line[:cut])
        if select.select([process.stdout], [], [], 0.02)[0]:
            return ["line %d: answered before it ended" % n]
    process.stdin.write(line[cut:] + b"\n")
    got, wanted = answer(process), oracle.answer(tag, n, line) + b"\n"
    return [] if got == wanted else ["line %d: %r, expected %r" % (n, got, wanted)]


def interactive():
    path = os.path.join(SAMPLES, "login_data_prot", "tag.image")
    script = inputs.right_lines(random.Random(inputs.SEED), oracle.Tag(read(path)), 200)
    tag, process, found = oracle.Tag(read(path)), program.start([path]), []
    try:
        for n, line in enumerate(script, 1):
            found += talk(process, tag, n, line, n % 10 == 0)
            if found:
                break
        process.stdin.close()
        if not found and (answer(process) != b"" or process.wait(5) != 0):
            found = ["after the last line: more output, or an exit status"]
    except OSError as error:
        found.append("the program went away: %s" % error)
    finally:
        process.kill()
        process.wait()
    return found


# ---- bounded memory: 64 MB of address space for inputs of 100 MB

HUGE = 100_000_000
MEGABYTES = 64


def filled(path, pattern):
    """A file of the given bytes again and again, about 100 MB; how often."""
    times = HUGE // len(pattern)
    with open(path, "wb") as f:
        for _ in range(times // 1000):
            f.write(pattern * 1000)
        f.write(pattern * (times % 1000))
    return times


def huge_image():
    with tempfile.TemporaryDirectory() as folder:
        path = write(read(SAMPLES, "example", "tag.image"), folder, "image")
        os.truncate(path, HUGE)
        return wrong("image of 100,000,000 bytes", program.run([path], LINES, megabytes=MEGABYTES), b"12\n")


def huge_line():
    with tempfile.TemporaryDirectory() as folder:
        path = write(b"", folder, "script")
        filled(path, b"F " + b"30" * 500_000)
        with open(path, "rb") as f:
            ended = program.run([os.path.join(SAMPLES, "example", "tag.image")], stdin=f, megabytes=MEGABYTES)
    return wrong("line of 100 MB", ended, b"bad line 1\n")


def huge_input():
    with tempfile.TemporaryDirectory() as folder:
        path = write(b"", folder, "script")
        times = filled(path, b"S\nF " + b"30" * 62 + b"\n")
        with open(path, "rb") as source, open(os.path.join(folder, "output"), "wb") as out:
            ended = program.run([os.path.join(SAMPLES, "example", "tag.image")], stdin=source, seconds=300, megabytes=MEGABYTES, stdout=out)
        return wrong("100 MB of lines", program.Ended(ended.status, read(folder, "output")), b"0\n4\n" * times)


# ---- the list, and the count

TESTS = [
    ("the oracle against the standards", check_tools.oracle_standards),
    ("the oracle against the rows of tools/cases.py", check_tools.oracle_rows),
    ("the oracle and wrong check bytes", check_tools.oracle_check_bytes),
    ("the oracle loads the images of the samples and logins", check_tools.images_load),
    ("samples are as tools/samples.py writes them", check_tools.samples_written),
    ("sample images are as tools/make_image.py makes them", check_tools.samples_made),
    ("images to settings and back", check_tools.round_trip),
    ("check bytes that settings give", check_tools.check_bytes_made),
    ("wrong settings are refused with their line", check_tools.wrong_settings),
    ("what tools/show_image.py says", check_tools.shown),
    ("pictures are as tools/draw.py draws them", check_tools.pictures),
    ("the login in docs/SCRIPTS.md", check_tools.guide),
    ("help texts", check_tools.help_texts),
    ("errors of the scripts, in one line", check_tools.one_line_errors),
    ("images through a pipe, shown", check_tools.shown_from_pipe),
    ("script lines as tools/words.py shows them", check_tools.words_of_lines),
    ("images from settings load", check_tools.made_images_load),
    ("samples", samples),
    ("samples in words", check_tools.words),
    ("why a WRITE was refused, in words", check_tools.words_of_reasons),
    ("lines, one rule at a time", lambda: scripted(LINE_CASES)),
    ("why a WRITE was refused, one rule at a time", lambda: scripted(REASON_CASES)),
    ("refused images and missing files", refused_images),
    ("wrong check bytes of the serial number", wrong_check_bytes),
    ("an image through a named pipe, in two halves", piped_image),
    ("200 lines, each answered before the next is written", interactive),
    *check_streams.TESTS,
    ("memory: image of 100 MB", huge_image),
    ("memory: line of 100 MB", huge_line),
    ("memory: 100 MB of lines", huge_input),
]


class Count:
    def __init__(self):
        self.passed = self.failed = 0

    def test(self, name, function, *words):
        """Counts a test; False if the program hung in it, which ends the tests."""
        begun, hangs = time.monotonic(), False
        try:
            found = function(*words)
        except program.Hangs as error:
            found, hangs = [str(error), "the tests behind this one are left out"], True
        except Exception:
            found = traceback.format_exc().splitlines()
        for message in found[:10]:
            print("    " + message)
        print("%s: %s (%.1f s)" % ("FAILED" if found else "ok", name, time.monotonic() - begun), flush=True)
        self.passed, self.failed = self.passed + (not found), self.failed + bool(found)
        return not hangs

    def closed(self):
        print("%d passed, %d failed" % (self.passed, self.failed))
        return 1 if self.failed else 0


def everything(number, least):
    """All tests, with a number of random inputs; fewer than the least is a failure."""
    count = Count()
    if not shutil.which(program.PROGRAM[0]):
        count.test("the program", lambda: ["%s is not there" % program.PROGRAM[0]])
        return count.closed()
    if all(count.test(name, function) for name, function in TESTS):
        met = collections.Counter()
        done = random_inputs(count, number, met)
        count.test("%d random inputs played" % done, lambda: [] if done >= least else ["fewer than %d" % least])
        if number >= ENOUGH:
            counts = ", ".join("%s: %d" % (line.decode(), met[line]) for line in REFUSED_WRITES)
            count.test("refused WRITEs among them, by what is printed: %s" % counts, lambda: [line.decode() for line in REFUSED_WRITES if not met[line]])
    return count.closed()


def kept(i, folder):
    image, script = inputs.some_input(i)
    os.makedirs(folder, exist_ok=True)
    write(image, folder, "tag.image")
    write(script, folder, "script.txt")
    write(oracle.output(image, script), folder, "expected.txt")
    return 0


def main(words):
    if len(words) == 3 and words[0] == "--input" and words[1].isdigit():
        return kept(int(words[1]), words[2])
    if len(words) == 2 and words[0] == "--inputs" and words[1].isdecimal():
        return everything(int(words[1]), int(words[1]))
    if words:
        print(__doc__.strip())
        return 0 if words in (["-h"], ["--help"]) else 1
    return everything(INPUTS, INPUTS)


if __name__ == "__main__":
    sys.exit(main(sys.argv[1:]))
