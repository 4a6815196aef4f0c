#!/usr/bin/env python3
"""Draws docs/pictures/crates.svg and docs/pictures/states.svg.

    tools/draw.py            writes both pictures
    tools/draw.py --check    says whether they are there as they would be drawn; exit 1 if not

The crates come from crates.txt. The arrows between the tag's states are the table ARROWS, from document 01; the numbers and states under them are found by
trying each event in each state on the tag of host/bench/oracle.py, and the script stops if the two disagree. Python 3, no library.
"""

import html
import os
import sys

import tagimage
from tagimage import stored

sys.path.insert(0, os.path.join(tagimage.ROOT, "host", "bench"))
import oracle  # noqa: E402

# ---- parts of a picture

STYLE = ("text{font-family:sans-serif;font-size:13px;fill:#111}.small{font-size:12px;fill:#333}.head{font-weight:bold}"
         ".line{fill:none;stroke:#555;stroke-width:1.3}.dashed{fill:none;stroke:#888;stroke-dasharray:5 4}.rule{stroke:#bbb}")
ARROW = ('<marker id="tip" viewBox="0 0 8 8" refX="8" refY="4" markerWidth="7" markerHeight="7" orient="auto"><path d="M0,0 L8,4 L0,8 z" fill="#555"/>'
         "</marker>")


def picture(width, height, parts):
    head = '<svg xmlns="http://www.w3.org/2000/svg" width="%d" height="%d" viewBox="0 0 %d %d">' % (width, height, width, height)
    ground = '<rect width="%d" height="%d" fill="#fff"/>' % (width, height)
    return "\n".join([head, "<style>%s</style>" % STYLE, "<defs>%s</defs>" % ARROW, ground] + parts + ["</svg>", ""])


def text(x, y, words, anchor="middle", kind=""):
    return '<text x="%d" y="%d" text-anchor="%s" class="%s">%s</text>' % (x, y, anchor, kind, html.escape(words))


def box(x, y, width, height, fill, words, kind="head"):
    """A box by its middle, with words in it."""
    rect = '<rect x="%d" y="%d" width="%d" height="%d" rx="5" fill="%s" stroke="#444"/>' % (x - width // 2, y - height // 2, width, height, fill)
    return rect + text(x, y + 5, words, kind=kind)


def line(path, tip=True, kind="line"):
    return '<path d="%s" class="%s"%s/>' % (path, kind, ' marker-end="url(#tip)"' if tip else "")


# ---- the crates

ROW, BOX_HEIGHT, GAP, MARGIN = 74, 30, 22, 30
COLOURS = {"definitions": "#fdf3d0", "code": "#dcebfa", "program": "#d9f2dc"}


def read_crates():
    """Each crate of crates.txt with the crates of the repository that it uses."""
    uses = {}
    with open(os.path.join(tagimage.ROOT, "crates.txt"), encoding="utf-8") as f:
        for words in (row.split("#", 1)[0].split(":") for row in f):
            if len(words) == 2:
                # a static library has the word behind its name
                uses[words[0].split()[0]] = words[1].split()
    return {name: [d for d in deps if d in uses] for name, deps in uses.items()}


def kind_of(crate):
    """A program, a library with functions, or definitions and theorems alone."""
    folder = os.path.join(tagimage.ROOT, "crates", crate, "src")
    names = os.listdir(folder)
    if "main.rt" in names:
        return "program"
    for name in names:
        with open(os.path.join(folder, name), encoding="utf-8") as f:
            if any(row.startswith(("fn ", "pub fn ", "pub extern")) for row in f):
                return "code"
    return "definitions"


def reach(uses, crate):
    """All that a crate uses, directly or through others."""
    found = set(uses[crate])
    for d in uses[crate]:
        found |= reach(uses, d)
    return found


def reduced(uses):
    """Without the arrows that follow from others."""
    return {c: [d for d in deps if not any(d in reach(uses, e) for e in deps)] for c, deps in uses.items()}


def levels(uses):
    """The lowest row on which a crate stands above all that it uses."""
    level = {}

    def of(c):
        if c not in level:
            level[c] = 1 + max([of(d) for d in uses[c]], default=-1)
        return level[c]
    for c in uses:
        of(c)
    return level


class Net:
    """Crates on rows; an arrow over several rows goes through a point on each row between."""

    def __init__(self, uses):
        self.level = levels(uses)
        self.chains, self.below = [], {}
        self.rows = [[] for _ in range(max(self.level.values()) + 1)]
        for c in uses:
            self.add(c, self.level[c])
        for c in uses:
            for d in uses[c]:
                self.chain(c, d)
        self.above = {n: [] for n in self.below}
        for n, lower in self.below.items():
            for m in lower:
                self.above[m].append(n)

    def add(self, name, level):
        self.rows[level].append(name)
        self.below[name] = []

    def chain(self, c, d):
        names = [c]
        for level in range(self.level[c] - 1, self.level[d], -1):
            names.append((c, d, level))
            self.add(names[-1], level)
        names.append(d)
        for a, b in zip(names, names[1:]):
            self.below[a].append(b)
        self.chains.append(names)

    def order(self):
        """Each row in the order of its neighbours' middle, downwards and upwards until it has settled."""
        for turn in range(40):
            rows = self.rows if turn % 2 else self.rows[::-1]
            near = self.below if turn % 2 else self.above
            for row in rows:
                place = {n: i / max(1, len(r) - 1) if len(r) > 1 else 0.5 for r in self.rows for i, n in enumerate(r)}
                row.sort(key=lambda n: (mean([place[m] for m in near[n]], place[n]), str(n)))

    def placed(self, width):
        """The middle of each name, in points: as near to its neighbours as its row allows."""
        x = {}
        for row in self.rows:
            at = 0
            for n in row:
                x[n] = at + width(n) / 2
                at += width(n) + GAP
        for turn in range(60):
            for row in self.rows:
                wanted = [mean([x[m] for m in self.below[n] + self.above[n]], x[n]) for n in row]
                for n, at in zip(row, spread_out(wanted, [width(n) for n in row])):
                    x[n] = at
        left = min(x[n] - width(n) / 2 for n in x)
        return {n: round(x[n] - left + MARGIN) for n in x}


def mean(numbers, other):
    return sum(numbers) / len(numbers) if numbers else other


def spread_out(wanted, widths):
    """Places in order, at least a gap apart, near the wanted ones: the mean of pushing to the right and pushing to the left."""
    right, left = list(wanted), list(wanted)
    for i in range(1, len(wanted)):
        right[i] = max(right[i], right[i - 1] + (widths[i - 1] + widths[i]) / 2 + GAP)
    for i in range(len(wanted) - 2, -1, -1):
        left[i] = min(left[i], left[i + 1] - (widths[i + 1] + widths[i]) / 2 - GAP)
    return [(a + b) / 2 for a, b in zip(right, left)]


def box_width(name):
    return 10 if isinstance(name, tuple) else 34 + 8 * len(name)


def curve(points):
    """A line through points from top to bottom, upright at each."""
    path = "M%d,%d" % points[0]
    for (x, y), (u, v) in zip(points, points[1:]):
        path += " C%d,%d %d,%d %d,%d" % (x, (y + v) // 2, u, (y + v) // 2, u, v)
    return path


def crates():
    net = Net(reduced(read_crates()))
    net.order()
    x = net.placed(box_width)
    top = len(net.rows) - 1
    y = {n: MARGIN + 60 + (top - level) * ROW for level, row in enumerate(net.rows) for n in row}
    parts = []
    for names in net.chains:
        points = [(x[n], y[n]) for n in names]
        first, last = points[0], points[-1]
        points[0], points[-1] = (first[0], first[1] + BOX_HEIGHT // 2), (last[0], last[1] - BOX_HEIGHT // 2)
        parts.append(line(curve(points)))
    for n in x:
        if not isinstance(n, tuple):
            parts.append(box(x[n], y[n], box_width(n), BOX_HEIGHT, COLOURS[kind_of(n)], n))
    width = max(760, max(x[n] + box_width(n) // 2 for n in x) + MARGIN)
    return picture(width, MARGIN + 30 + (top + 1) * ROW, legend() + parts)


def legend():
    parts, at = [text(MARGIN, 24, "An arrow: uses (arrows that follow from others are left out).", "start", "small")], MARGIN
    for name, words in (("definitions", "definitions and theorems"), ("code", "functions"), ("program", "program")):
        parts.append('<rect x="%d" y="34" width="16" height="16" fill="%s" stroke="#444"/>' % (at, COLOURS[name]))
        parts.append(text(at + 22, 47, words, "start", "small"))
        at += 50 + 7 * len(words)
    return parts


# ---- the states

WAITING, ACTIVE, CHALLENGED, TRACEABLE, AUTHENTICATED = oracle.WAITING, oracle.ACTIVE, oracle.CHALLENGED, oracle.TRACEABLE, oracle.AUTHENTICATED
STATES = [WAITING, ACTIVE, CHALLENGED, TRACEABLE, AUTHENTICATED]
OPEN = [ACTIVE, TRACEABLE, AUTHENTICATED]
KEY = bytes(range(16))
CHALLENGE = bytes(range(0x40, 0x50))
RND_A = bytes(range(0x80, 0x90))


def right_proof(k):
    return b"\xaf" + oracle.cbc_encipher(KEY, RND_A + oracle.rotated(CHALLENGE)), k


FALSE_PROOF = b"\xaf" + oracle.cbc_encipher(KEY, RND_A + CHALLENGE[::-1])
DONE = [("READ 04h", b"\x30\x04"), ("FAST_READ 04h to 05h", b"\x3a\x04\x05"), ("WRITE 04h", b"\xa2\x04\x01\x02\x03\x04"), ("READ_CNT 0", b"\x39\x00"),
        ("INCR_CNT 0", b"\xa5\x00\x01\x00\x00\x00")]
# an event: its words, and the frame with the key number that a challenge has; or none for Power and Select
EVENTS = [("Power", None), ("Select", None)] + [(words, (frame, 0)) for words, frame in DONE] + [
    ("HLTA", (b"\x50\x00", 0)),
    ("AUTHENTICATE 0", (b"\x1a\x00", 0)),
    ("right proof of DataProtKey", right_proof(0)),
    ("right proof of UIDRetrKey", right_proof(1)),
    ("right proof of OriginalityKey", right_proof(2)),
    ("false proof", (FALSE_PROOF, 0)),
    ("READ 3Ch, a page too high", (b"\x30\x3c", 0)),
    ("READ with a byte too many", (b"\x30\x04\x00", 0)),
    ("unknown code 60h", (b"\x60", 0)),
    ("READ 04h with a wrong CRC", (None, 0)),
]


def image():
    """A tag whose three keys are one."""
    return tagimage.make("DataProtKey = %s\nUIDRetrKey = %s\nOriginalityKey = %s\n" % ((KEY.hex(),) * 3))[0]


def tried(words, event, state):
    """The number and the next state of an event, by trying it on the oracle's tag."""
    tag = oracle.Tag(image())
    frame, key = event or (b"", 0)
    tag.enter(state, key if state == CHALLENGED else None, CHALLENGE if state == CHALLENGED else bytes(16))
    if event is None:
        call = tag.power if words == "Power" else tag.select
        call()
        return 0, tag.state
    sealed = b"\x30\x04\x00\x00" if frame is None else frame + oracle.crc_a(frame)
    return tag.frame(sealed, CHALLENGE)[0], tag.state


# from the states, by the events, to a state; with the part of document 01 that says so. A refused frame is one with a number above 0.
ARROWS = [
    (STATES, ["Power"], WAITING, "What the box plays"),
    (STATES, ["Select"], ACTIVE, "What the box plays"),
    (OPEN, ["HLTA"], WAITING, "What the box plays"),
    (OPEN, ["AUTHENTICATE 0"], CHALLENGED, "Authentication"),
    ([CHALLENGED], ["right proof of DataProtKey"], AUTHENTICATED, "Authentication"),
    ([CHALLENGED], ["right proof of UIDRetrKey"], TRACEABLE, "Authentication"),
    ([CHALLENGED], ["right proof of OriginalityKey"], ACTIVE, "Authentication"),
    ([ACTIVE], [words for words, _ in DONE], ACTIVE, "The numbers a call answers with, 0"),
    ([TRACEABLE], [words for words, _ in DONE], TRACEABLE, "The numbers a call answers with, 0"),
    ([AUTHENTICATED], [words for words, _ in DONE], AUTHENTICATED, "The numbers a call answers with, 0"),
]


def by_arrows(words, state):
    """The next state by the table; a frame that no arrow carries out is refused, and leaves WAITING ("Session ended")."""
    return next((to for states, events, to, _ in ARROWS if state in states and words in events), WAITING)


def results():
    """Each event in each state, as tried; the arrows must say the same."""
    rows = []
    for words, event in EVENTS:
        found = [tried(words, event, state) for state in STATES]
        for state, (_, after) in zip(STATES, found):
            if after != by_arrows(words, state):
                sys.exit("%s in %s: the oracle leaves %s, the arrows say %s" % (words, state, after, by_arrows(words, state)))
        rows.append((words, found))
    return rows


STATE_COLOURS = {WAITING: "#eeeeee", ACTIVE: "#dcebfa", CHALLENGED: "#fdf3d0", TRACEABLE: "#e6defa", AUTHENTICATED: "#d9f2dc"}
PLACES = {WAITING: (110, 230), ACTIVE: (480, 110), TRACEABLE: (480, 230), AUTHENTICATED: (480, 350), CHALLENGED: (860, 230)}


def drawing():
    parts = ['<rect x="390" y="60" width="180" height="340" rx="8" class="dashed"/>']
    parts += [box(*PLACES[s], 140, 40, STATE_COLOURS[s], s) for s in STATES]
    parts += [line("M390,230 L184,230"), text(288, 222, "HLTA")]
    parts += [line("M790,218 C720,190 640,110 554,110"), text(705, 118, "right proof of OriginalityKey", "start")]
    parts += [line("M788,230 L554,230"), text(672, 222, "right proof of UIDRetrKey")]
    parts += [line("M790,242 C720,270 640,350 554,350"), text(690, 345, "right proof of DataProtKey", "start")]
    parts += [line("M570,380 C790,425 905,400 905,254"), text(745, 425, "AUTHENTICATE answered 0, from each of the three")]
    parts += [line("M110,110 L110,206"), text(110, 60, "from every state:"), text(110, 78, "Power,"), text(110, 96, "a refused frame")]
    parts += [line("M480,34 L480,86"), text(480, 28, "from every state: Select")]
    parts += [text(110, 276, "every frame: 1, silence", kind="small"), text(480, 136 + 14, "READ, FAST_READ, WRITE,", kind="small"),
              text(480, 164, "READ_CNT, INCR_CNT", kind="small"), text(480, 178, "answered 0: state kept", kind="small")]
    parts += [text(480, 270, "the same", kind="small"), text(480, 390, "the same", kind="small")]
    return parts


COLUMNS = [20, 300, 430, 570, 710, 850]


def table(top):
    """What trying gave: an event a row, a state a column."""
    parts = [text(20, top, "Tried on the tag of host/bench/oracle.py: the number, and the state that is left. The arrows are document 01's, and agree with it.",
                  "start", "small")]
    parts += [text(at, top + 26, words, "start", "head") for at, words in zip(COLUMNS, ["event"] + STATES)]
    y = top + 34
    for words, found in results():
        parts.append('<path d="M20,%d L980,%d" class="rule"/>' % (y, y))
        y += 20
        cells = [words] + ["%d %s" % cell for cell in found]
        parts += [text(at, y - 5, cell, "start", "small") for at, cell in zip(COLUMNS, cells)]
    return parts, y


def states():
    parts, bottom = table(460)
    return picture(1000, bottom + 20, drawing() + parts)


# ---- the files

PICTURES = {"crates.svg": crates, "states.svg": states}


def main(words):
    if words not in ([], ["--check"]):
        print(__doc__.strip())
        return 0 if words in (["-h"], ["--help"]) else 1
    right = True
    for name, drawn in PICTURES.items():
        path = os.path.join(tagimage.ROOT, "docs", "pictures", name)
        wanted = drawn().encode()
        if not words:
            with open(path, "wb") as f:
                f.write(wanted)
        elif stored(path) != wanted:
            print("docs/pictures/%s: not as tools/draw.py draws it" % name)
            right = False
    return 0 if right else 1


if __name__ == "__main__":
    sys.exit(main(sys.argv[1:]))
