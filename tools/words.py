#!/usr/bin/env python3
"""Plays a script with the bench program and says beside each line what happened.

    tools/words.py FOLDER            a folder of samples/: plays its script.txt on its tag.image, and compares with its expected.txt
    tools/words.py IMAGE SCRIPT      any image and script

The program is target/bin/bench, which 'make bench' makes; the variable BENCH names another one. The exit status is 1 if an answer is not the expected one.
"""

import os
import shlex
import subprocess
import sys

import tagimage
from tagimage import shortened

REFUSED = {
    "1": "no answer: the tag is WAITING and must be selected first",
    "2": "refused: damaged frame",
    "3": "refused: no such command, or not allowed now",
    "4": "refused: wrong length for this command",
    "5": "refused: no such page, counter or key, or wrong order",
    "6": "refused: a login is needed",
    "7": "refused: locked",
    "8": "refused: the proof is false",
    "9": "refused: the counter would pass FFFFFFh",
    "11": "refused: too many failed logins",
    "12": "the image is refused, or cannot be opened; tools/show_image.py says why",
}
# why a WRITE was refused, by what is printed behind the number
REASONS = {
    "1": "the page is at or above AUTH0, a login is needed",
    "2": "the Random ID bit would change in ACTIVE, a login is needed",
    "3": "locked by the page's own lock bit",
    "4": "locked by the lock bit of its two pages",
    "5": "locked by a key lock, a bit of LOCK_KEYS",
    "6": "locked by the configuration lock, LOCK_USR_CFG",
}
CONTROLS = {0x09: "\\t", 0x0D: "\\r", 0x5C: "\\\\"}
KEYS = {0: ("DataProtKey", "AUTHENTICATED"), 1: ("UIDRetrKey", "TRACEABLE"), 2: ("OriginalityKey", "ACTIVE")}


def letters(data):
    """The bytes as text where they are text with zeros at its end at most, else in hex."""
    text = data.rstrip(b"\x00")
    return '"%s"' % text.decode("ascii") if text and all(0x20 <= b < 0x7F for b in text) else tagimage.spaced(data)


class Words:
    """What a line and its answer mean. The key number of the last AUTHENTICATE is kept for the line behind it."""

    def __init__(self):
        self.key = None

    def of(self, line, answer):
        if answer is None:
            return "not played: the program has stopped"
        if answer.startswith("bad line"):
            ending = ". It ends with a carriage return: save the file with plain line ends" if line.endswith("\\r") and not line.endswith("\\\\r") else ""
            return "not a line of a script: the program stops" + ending
        number, _, more = answer.partition(" ")
        if line in ("P", "S"):
            return "power off and on: the tag is WAITING" if line == "P" else "the tag is selected: ACTIVE"
        command, done = self.told(bytes.fromhex(line[2:]), bytes.fromhex(more if number == "0" else ""))
        if number == "0":
            return "%s: %s" % (command, done)
        why = "refused: " + REASONS[more] if more in REASONS else REFUSED.get(number, "answer " + number)
        ended = "" if number == "1" else "; the session is ended"
        return "%s: %s%s" % (command, why, ended)

    def told(self, frame, data):
        """The command of a frame, and what it came to if it was carried out."""
        size, code = len(frame), frame[0]
        if (code, size) == (0x30, 2):
            return "READ %02X" % frame[1], letters(data)
        if (code, size) == (0x3A, 3):
            return "FAST_READ %02X to %02X" % (frame[1], frame[2]), letters(data)
        if (code, size) == (0xA2, 6):
            return "WRITE %02X" % frame[1], "done"
        if (code, size) == (0x39, 2):
            return "READ_CNT %d" % frame[1], "the counter is %s, low byte first" % format(int.from_bytes(data, "little"), ",")
        if (code, size) == (0xA5, 6):
            return "INCR_CNT %d by %s" % (frame[1], format(int.from_bytes(frame[2:5], "little"), ",")), "done"
        if (code, size) == (0x1A, 2):
            self.key = frame[1]
            return "AUTHENTICATE with %s" % self.key_name(), "the tag sends its challenge, enciphered"
        if (code, size) == (0xAF, 33):
            return "proof of %s" % self.key_name(), "right, the tag is %s" % KEYS.get(self.key, ("", "logged in"))[1]
        if frame == b"\x50\x00":
            return "HLTA", "the tag is WAITING"
        return "frame with code %02Xh and %d bytes behind it" % (code, size - 1), "done"

    def key_name(self):
        return KEYS.get(self.key, ("key %s" % self.key, ""))[0]


def played(image, script):
    program = shlex.split(os.environ.get("BENCH", "")) or [os.path.join(tagimage.ROOT, "target", "bin", "bench")]
    try:
        done = subprocess.run(program + [image], input=script, stdout=subprocess.PIPE, check=False)
    except OSError as error:
        sys.exit("%s cannot be run: %s. 'make bench' makes it." % (program[0], error.strerror))
    if done.returncode:
        sys.exit("%s ended with status %d" % (program[0], done.returncode))
    return done.stdout.decode("ascii", "replace")


def read(path):
    try:
        with open(path, "rb") as f:
            return f.read()
    except OSError as error:
        sys.exit("%s cannot be read: %s" % (path, error.strerror))


def line_texts(script):
    """The lines as the bench program sees them: only a newline ends one. A byte that is no printable ASCII stands as text, a carriage return as \\r, so a
    backslash stands twice."""
    lines = script.split(b"\n")
    if lines[-1] == b"":
        lines.pop()
    return ["".join(chr(b) if 0x20 <= b < 0x7F else CONTROLS.get(b, "\\x%02x" % b) for b in line) for line in lines]


def shown(lines, answers):
    words = Words()
    for n, line in enumerate(lines):
        answer = answers[n] if n < len(answers) else None
        print("%-30s -> %-30s %s" % (shortened(line), shortened(answer or "-"), words.of(line, answer)))


def play(image, script, expected=None):
    text = read(script)
    output = played(image, text)
    if output == "12\n":
        print("12: " + REFUSED["12"])
    else:
        shown(line_texts(text), output.splitlines())
    if expected is None:
        return 0
    same = read(expected).decode("ascii", "replace") == output
    print("Every answer is the expected one." if same else "The answers differ from %s." % expected)
    return 0 if same else 1


def main(words):
    if len(words) == 1 and os.path.isdir(words[0]):
        print(read(os.path.join(words[0], "README.txt")).decode("utf-8", "replace").split("\n")[0] + "\n")
        return play(*[os.path.join(words[0], name) for name in ("tag.image", "script.txt", "expected.txt")])
    if len(words) == 2:
        return play(*words)
    print(__doc__.strip())
    return 0 if words in (["-h"], ["--help"]) else 1


if __name__ == "__main__":
    tagimage.start(main)
