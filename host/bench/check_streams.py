"""Tests of the bench program's reading and writing: more output than it holds back, writes and reads that fail, lines that are too long. Each gives a list of
what is wrong."""

import os
import subprocess
import tempfile
import time

import oracle
import program

IMAGE = os.path.join(program.ROOT, "samples", "example", "tag.image")
# 483 bytes of answer each: 300 of them are more than twice what the program holds back
ALL_PAGES = b"F 3a003b\n" * 300
SECONDS = 5.0


def image():
    with open(IMAGE, "rb") as f:
        return f.read()


def as_oracle(name, ended, script):
    found = program.difference(ended, oracle.output(image(), script))
    return ["%s: %s" % (name, found)] if found else []


# ---- long answers

def from_file(script):
    with tempfile.TemporaryFile() as f:
        f.write(script)
        f.seek(0)
        return program.run([IMAGE], stdin=f)


def long_answers():
    """300 lines that read every page, with and without a bad line behind and a last newline, from a file and through a pipe."""
    found = []
    for words, behind in (("no line", b""), ("a bad line", b"bad\n"), ("a bad line without newline", b"bad"), ("a line", b"F 3900\n"),
                          ("a bad line between more", b"bad\n" + ALL_PAGES), ("the same again", ALL_PAGES)):
        script = b"S\n" + ALL_PAGES + behind
        found += as_oracle("from a file, %s behind" % words, from_file(script), script)
        found += as_oracle("through a pipe, %s behind" % words, program.run([IMAGE], script), script)
    return found


# ---- writes that fail

def ended_by_itself(process):
    """The exit status of a program whose input is still open; nothing if it goes on, and it is killed then."""
    try:
        return process.wait(SECONDS)
    except subprocess.TimeoutExpired:
        return None
    finally:
        process.kill()
        process.wait()


def full_device():
    """/dev/full takes no byte. The program ends at the first line, with its input still open, and by no signal; with a whole script likewise."""
    found = []
    for name, script in (("one line", b"S\n"), ("300 long answers", b"S\n" + ALL_PAGES), ("a bad line", b"bad\n")):
        with open("/dev/full", "wb", buffering=0) as full:
            process = subprocess.Popen(program.PROGRAM + [IMAGE], stdin=subprocess.PIPE, stdout=full, bufsize=0)
            said(process, script)
            status = ended_by_itself(process)
            process.stdin.close()
            found += ["%s: still running after %d s, behind a write that failed" % (name, SECONDS)] if status is None else []
            found += ["%s: ended by signal %d" % (name, -status)] if status is not None and status < 0 else []
    return found


def arrived(fd):
    """All that is in a pipe now."""
    data = b""
    while True:
        try:
            more = os.read(fd, 1 << 20)
        except BlockingIOError:
            return data
        if not more:
            return data
        data += more


def said(process, script):
    """Sends lines, as far as the program still takes them."""
    try:
        process.stdin.write(script)
    except BrokenPipeError:
        pass


def numbered(first):
    """300 pairs of lines that write a number to page 04 and read every page, so that no two answers are alike and no hole can hide."""
    return b"".join(b"F a204%08x\nF 3a003b\n" % n for n in range(first, first + 300))


def late_reader():
    """A pipe that does not wait, read only when it has long been full: the bytes that arrive are the first ones of the right output."""
    scripts = [b"S\n" + numbered(1), numbered(301), b"F 3900\n"]
    reading, writing = os.pipe()
    os.set_blocking(reading, False)
    os.set_blocking(writing, False)
    process = subprocess.Popen(program.PROGRAM + [IMAGE], stdin=subprocess.PIPE, stdout=writing, bufsize=0)
    os.close(writing)
    data = b""
    try:
        for script in scripts:
            said(process, script)
            time.sleep(0.5)
            data += arrived(reading)
        process.stdin.close()
        status = ended_by_itself(process)
        data += arrived(reading)
    finally:
        process.kill()
        process.wait()
        os.close(reading)
    return prefix_errors(data, oracle.output(image(), b"".join(scripts)), status)


def prefix_errors(data, expected, status):
    found = []
    if status is None or status < 0:
        found.append("still running" if status is None else "ended by signal %d" % -status)
    if not data:
        found.append("no byte arrived")
    if not expected.startswith(data):
        at = next((n for n, (a, b) in enumerate(zip(data, expected)) if a != b), len(expected))
        found.append("%d bytes arrived, and byte %d is not that of the right output: a hole" % (len(data), at))
    return found


# ---- reads that fail, and lines that are too long

def failing_reads():
    """An input that is open for writing only. A pipe that does not wait fails while it is empty: the input ends, and a line that had begun is not played."""
    with open(os.devnull, "wb") as unreadable:
        ended = program.run([IMAGE], stdin=unreadable)
    found = [] if ended == program.Ended(0, b"") else ["an input for writing only: %r" % (ended,)]
    for script, expected in ((b"S\nF 3900", b"0\n"), (b"S\nF 3900\n", b"0\n0 0a0000\n"), (b"S\nbad", b"0\n")):
        reading, writing = os.pipe()
        os.set_blocking(reading, False)
        os.write(writing, script)
        ended = program.run([IMAGE], stdin=reading)
        os.close(reading)
        os.close(writing)
        found += [] if ended == program.Ended(0, expected) else ["%r, then a read that fails: %r, expected %r" % (script, ended, expected)]
    return found


def too_long_at_once():
    """A line of 126 bytes is waited for; at its 127th byte it is a bad line, and the program ends with its input still open."""
    found = []
    process = program.start([IMAGE])
    os.set_blocking(process.stdout.fileno(), False)
    process.stdin.write(b"S\nF " + b"30" * 62)
    time.sleep(0.3)
    before = arrived(process.stdout.fileno())
    said(process, b"3")
    status = ended_by_itself(process)
    behind = arrived(process.stdout.fileno())
    process.stdin.close()
    process.stdout.close()
    found += [] if before == b"0\n" else ["at 126 bytes: %r" % before]
    return found + ([] if (status, behind) == (0, b"bad line 2\n") else ["at 127 bytes: status %s, %r" % (status, behind)])


TESTS = [
    ("300 long answers, from a file and through a pipe", long_answers),
    ("output that cannot be written: /dev/full", full_device),
    ("output that cannot be written: a full pipe with a late reader", late_reader),
    ("input that cannot be read", failing_reads),
    ("a line is bad at its 127th byte", too_long_at_once),
]
