#!/usr/bin/env python3
"""The cases of tools/cases.py and the logins of tools/logins.py as a text that cases.c plays.

    host/c_form/cases.py    prints it: for each case its name, the image, where a case begins elsewhere the record, the lines, and its end

Nothing is worked out here: a case that is added to those tables is in the text. Python 3, no library.
"""

import os
import sys

sys.dont_write_bytecode = True
sys.path.insert(0, os.path.join(os.path.dirname(os.path.abspath(__file__)), "..", "..", "tools"))
import cases  # noqa: E402
import logins  # noqa: E402

# where a change of an image lies
PLACE = {"page": lambda p: 1 + 4 * p, "counter": lambda k: 242 + 3 * k, "failed": lambda _: 252}


def hexes(data):
    return bytes(data).hex() or "-"


def patched(image, changes):
    image = bytearray(image)
    for at, data in changes:
        image[at:at + len(data)] = data
    return image


def placed(changes):
    return [(PLACE[kind](number), data) for kind, number, data in changes]


def reply_text(reply):
    return {"silence": lambda: "silence -", "nibble": lambda: "nibble %x" % reply[1], "bytes": lambda: "bytes " + hexes(reply[1])}[reply[0]]()


def line_text(line):
    if line[0] != "frame":
        return {"power": "power", "select": "select", "to_active": "select"}[line[0]]
    _, frame, random, number, reply, place = line
    return "frame %s %s %d %d %s" % (hexes(frame), hexes(random), number, place, reply_text(reply))


def state_text(state):
    """'Challenged 1' is a state and a key number, 'Unknown 9' a state by its number."""
    name, _, number = state.partition(" ")
    return "%s 0" % number if name == "Unknown" else "%s %s" % (name.upper(), number or "0")


def row_text(row, begun=None):
    name, _, changes, lines, changed, state = row
    image = patched(cases.BASE, placed(changes))
    head = ["case " + name, "image " + hexes(image)]
    if begun:
        head.append("record %s %s" % (state_text(begun[0]), hexes(begun[1])))
    return head + [line_text(line) for line in lines] + ["end %s %s" % (state.upper(), hexes(patched(image, placed(changed))))]


def session_text(name, loaded, lines, saved):
    """A session of logins.py doesn't say its last state; its last frames show it."""
    images = [patched(logins.IMAGE, [(data[0], data[1:]) for data in map(bytes.fromhex, texts)]) for texts in (loaded, saved)]
    head = ["case login:" + name.replace(" ", "_"), "image " + hexes(images[0])]
    return head + [line_text(line) for _, line in lines] + ["end - " + hexes(images[1])]


# the last of the sessions is wrong on purpose: there the program `vectors` shows that it reports a difference
SESSIONS = [session for session in logins.SESSIONS if not session[0].endswith("is reported")]


def case_texts():
    for table in [cases.DOCUMENT] + [table for _, _, table in cases.THEMES]:
        for row in table:
            yield row_text(row)
    for state, challenge, *row in cases.BEGUN:
        yield row_text(row, (state, challenge))
    for session in SESSIONS:
        yield session_text(*session)


if __name__ == "__main__":
    for text in case_texts():
        print("\n".join(text))
