"""Image files of the tag: where things stand in them, and settings that a person can read.

make_image.py, show_image.py and the tests share this file. Places of sections and pages come from crates/layout/stdout, which the program `layout`
prints: the numbers come from the proved functions of `sections`, `image` and `memory`; that each stands beside the right name is not proved, and comes from reading.
Bits inside a page are those of docs/DATASHEET.md, sections 2 to 8. Python 3, no library.
"""

import collections
import os
import re
import stat
import sys

ROOT = os.path.dirname(os.path.dirname(os.path.abspath(__file__)))
LAYOUT = os.path.join(ROOT, "crates", "layout", "stdout")

# ---- places

# the place of a section's count byte, how many bytes stand behind it, and the count
Section = collections.namedtuple("Section", "at size count")


def read_layout(path=LAYOUT):
    """The sections, the page of each use, and the other numbers of the table."""
    sections, pages, numbers = {}, {}, {}
    with open(path, encoding="ascii") as f:
        for words in map(str.split, f):
            if words[0] == "section":
                sections[words[1]] = Section(*map(int, words[2:5]))
            elif words[0] == "page":
                pages[words[1]] = int(words[2])
            else:
                numbers[words[0]] = int(words[1])
    return sections, pages, numbers


SECTIONS, PAGE, NUMBERS = read_layout()
SIZE = NUMBERS["image"]
PAGES = NUMBERS["pages"]
HIGHEST_COUNTER = 0xFFFFFF  # document 01, "Counters"
HIGHEST_FAILED = 1023  # document 01, "Stored and fleeting"


def place(page, byte=0):
    """The place in an image of a byte of a page."""
    return SECTIONS["pages"].at + 1 + 4 * page + byte


def behind(section):
    """The places of the bytes of a section."""
    s = SECTIONS[section]
    return list(range(s.at + 1, s.at + 1 + s.size))


def page_places(first, count):
    return [place(first, b) for b in range(4 * count)]


def page_bytes(image, page):
    return bytes(image[place(page):place(page) + 4])


SERIAL = page_places(0, 1)[:3] + page_places(1, 1)
BCC0, BCC1 = place(0, 3), place(2, 0)


def check_byte(start, data):
    for byte in data:
        start ^= byte
    return start


def right_check_bytes(image):
    """BCC0 and BCC1 of the serial number in an image (009 8.5.1)."""
    serial = [image[at] for at in SERIAL]
    return check_byte(0x88, serial[:3]), check_byte(0x00, serial[3:])


def wrong_check_bytes(image):
    """The page of each check byte that is not the serial number's, and what is wrong with it."""
    found = []
    for name, page, at, right in zip(("BCC0", "BCC1"), (0x00, 0x02), (BCC0, BCC1), right_check_bytes(image)):
        if image[at] != right:
            found.append((page, "%s is %02X and must be %02X by the serial number" % (name, image[at], right)))
    return found


# ---- what a tag refuses

# the length of a pipe or device that has more bytes than an image: they are not counted, since they need not end
ENDLESS = float("inf")


def read_image(path):
    """The first bytes of a file, at most as many as an image has, and the file's length."""
    with open(path, "rb") as f:
        data, status = f.read(SIZE + 1), os.fstat(f.fileno())
    length = len(data)
    if length > SIZE:
        length = max(length, status.st_size) if stat.S_ISREG(status.st_mode) else ENDLESS
    return data[:SIZE], length


def refusals(image, length=None):
    """Why a tag answers 12 to loading these bytes; nothing if it loads them (document 01, "Image file"; document 02, E1). A longer file may be given by its
    start and length."""
    length = len(image) if length is None else length
    if length != SIZE:
        words = "more than %d" % SIZE if length == ENDLESS else format(length, ",")
        return ["the file has %s bytes, an image has %d" % (words, SIZE)]
    found = []
    for name, section in SECTIONS.items():
        if image[section.at] != section.count:
            found.append("the count byte of the %s section is %d and must be %d" % (SECTION_WORDS[name], image[section.at], section.count))
    failed = int.from_bytes(bytes(image[at] for at in behind("failed")), "little")
    if failed > HIGHEST_FAILED:
        found.append("the failed count is %s, above %s" % (format(failed, ","), format(HIGHEST_FAILED, ",")))
    return found + [words for _, words in wrong_check_bytes(image)]


SECTION_WORDS = {"pages": "pages", "counters": "counters", "failed": "failed count", "originality": "originality key"}

# ---- settings: each says which bits of an image a text sets, and gives the text of the bits in an image

# bits of one byte of an image
Claim = collections.namedtuple("Claim", "at mask value")


class Bytes:
    """A row of bytes in hex, in the order in which a person writes them."""

    def __init__(self, name, words, places):
        self.name, self.words, self.places = name, words, places

    def claims(self, text):
        data = hex_bytes(text)
        if len(data) != len(self.places):
            raise ValueError("%s needed, %s given" % (counted(len(self.places), "byte"), counted(len(data), "byte")))
        return [Claim(at, 0xFF, byte) for at, byte in zip(self.places, data)], []

    def text(self, image):
        return spaced(image[at] for at in self.places)


class Number:
    """A number in some bits of bytes, low bits first: parts is a list of (place, number of bits)."""

    def __init__(self, name, words, parts, highest, digits=0):
        self.name, self.words, self.parts, self.highest, self.digits = name, words, parts, highest, digits

    def claims(self, text):
        value = hex_number(text) if self.digits else number(text)
        if value > self.highest:
            raise ValueError("%s is above %s" % (text, self.spelled(self.highest)))
        claims = []
        for at, bits in self.parts:
            mask = (1 << bits) - 1
            claims.append(Claim(at, mask, value & mask))
            value >>= bits
        return claims, []

    def value(self, image):
        value, shift = 0, 0
        for at, bits in self.parts:
            value |= (image[at] & ((1 << bits) - 1)) << shift
            shift += bits
        return value

    def spelled(self, value):
        return "%0*X" % (self.digits, value) if self.digits else str(value)

    def text(self, image):
        return self.spelled(self.value(image))


class Switch:
    """One bit, on or off."""

    def __init__(self, name, words, at, mask):
        self.name, self.words, self.at, self.mask = name, words, at, mask

    def claims(self, text):
        if text.lower() not in ("on", "off"):
            raise ValueError("'%s' is neither 'on' nor 'off'" % text)
        return [Claim(self.at, self.mask, self.mask if text.lower() == "on" else 0)], []

    def value(self, image):
        return bool(image[self.at] & self.mask)

    def text(self, image):
        return "on" if self.value(image) else "off"


# pages that one bit stands for
Group = collections.namedtuple("Group", "first last at mask")


class PageList:
    """Pages, each under one bit of its own or one that it shares with the pages beside it."""

    def __init__(self, name, words, groups):
        self.name, self.words, self.groups = name, words, groups

    def claims(self, text):
        listed = page_list(text)
        known = {p for g in self.groups for p in range(g.first, g.last + 1)}
        if listed - known:
            raise ValueError("page %02X has no such bit; the pages are %02X to %02X" % (min(listed - known), min(known), max(known)))
        claims, notes = [], []
        for g in self.groups:
            chosen = listed & set(range(g.first, g.last + 1))
            claims.append(Claim(g.at, g.mask, g.mask if chosen else 0))
            if chosen and len(chosen) <= g.last - g.first:
                notes.append("one bit stands for the pages %s together, and it is set" % spread(g.first, g.last))
        return claims, notes

    def chosen(self, image):
        return [g for g in self.groups if image[g.at] & g.mask]

    def text(self, image):
        pages = [p for g in self.chosen(image) for p in range(g.first, g.last + 1)]
        return " ".join(spread(*run) for run in runs(pages)) or "none"


def spread(first, last):
    return "%02X" % first if first == last else "%02X-%02X" % (first, last)


def runs(pages):
    """The first and last page of each row of pages that follow each other."""
    found = []
    for p in pages:
        if found and found[-1][1] == p - 1:
            found[-1] = (found[-1][0], p)
        else:
            found.append((p, p))
    return found


# ---- reading values

def counted(n, thing):
    return "%d %s%s %s" % (n, thing, "" if n == 1 else "s", "is" if n == 1 else "are")


def spaced(data):
    return " ".join("%02X" % b for b in data)


def hex_bytes(text):
    digits = "".join(text.split())
    wrong = re.search(r"[^0-9A-Fa-f]", digits)
    if wrong:
        raise ValueError("'%s' is no hex digit" % wrong.group())
    if len(digits) % 2:
        raise ValueError("%d hex digits are no whole number of bytes" % len(digits))
    return bytes.fromhex(digits)


def number(text):
    """A number in decimal (10 or 1,023), or in hex with an h behind it (FFFFFEh)."""
    if re.fullmatch(r"[0-9A-Fa-f]+h", text):
        return int(text[:-1], 16)
    if re.fullmatch(r"[0-9]+(,[0-9]{3})*", text):
        return int(text.replace(",", ""))
    raise ValueError("'%s' is no number: write 10, or 0Ah for hex" % text)


def hex_number(text):
    if not re.fullmatch(r"[0-9A-Fa-f]+h?", text):
        raise ValueError("'%s' is no page number in hex" % text)
    return int(text.rstrip("h"), 16)


def page_list(text):
    """The pages of a list such as 03 08-0F 12, or of the word none."""
    pages = set()
    for word in text.replace(",", " ").split() if text.lower() != "none" else []:
        ends = re.fullmatch(r"([0-9A-Fa-f]{1,2})h?(?:-([0-9A-Fa-f]{1,2})h?)?", word)
        if not ends:
            raise ValueError("'%s' is neither a page in hex nor a range such as 08-0F" % word)
        first = int(ends.group(1), 16)
        last = int(ends.group(2), 16) if ends.group(2) else first
        if last < first:
            raise ValueError("%s ends before it begins" % word)
        pages |= set(range(first, last + 1))
    return pages


# ---- the lock bits (docs/DATASHEET.md, sections 3 and 4)

def lock_groups():
    """Lock bytes 0 and 1 as one number: bit p locks page p. Then two pages a bit."""
    single = [Group(p, p, place(PAGE["locks"], 2 + p // 8), 1 << p % 8) for p in range(PAGE["otp"], PAGE["pairs"])]
    pairs = [Group(p, p + 1, place(PAGE["pairlocks"], i // 8), 1 << i % 8) for i, p in enumerate(range(PAGE["pairs"], PAGE["pairlocks"], 2))]
    return single + pairs


def block_groups():
    """The block-lock bits: three in lock byte 0, and one for each four pages in lock byte 4."""
    low = [(PAGE["otp"], PAGE["otp"]), (0x04, 0x09), (0x0A, PAGE["pairs"] - 1)]
    single = [Group(a, b, place(PAGE["locks"], 2), 1 << i) for i, (a, b) in enumerate(low)]
    fours = [Group(p, p + 3, place(PAGE["pairlocks"], 2), 1 << i) for i, p in enumerate(range(PAGE["pairs"], PAGE["pairlocks"], 4))]
    return single + fours


# ---- the table of settings

def counter_setting(k):
    places = behind("counters")[3 * k:3 * k + 3]
    return Number("counter %d" % k, "decimal, or hex with an h; it only goes up", [(at, 8) for at in places], HIGHEST_COUNTER)


def key_places(first):
    """Key byte 0 lies in byte 3 of the key's last page (009 8.6.3)."""
    return page_places(first, 4)[::-1]


CFG0, CFG1, KEYLOCKS = PAGE["cfg0"], PAGE["cfg1"], PAGE["keylocks"]

# each with the text that it has where the settings say nothing: the values of a tag at delivery (docs/DATASHEET.md, section 9)
TABLE = [
    (Bytes("serial number", "7 bytes; BCC0 and BCC1 are worked out", SERIAL), "04 51 2C 5A 93 C7 1E"),
    (Bytes("internal byte", "byte 1 of page 02", [place(2, 1)]), "48"),
    (PageList("locked pages", "pages that refuse every write", lock_groups()), "none"),
    (PageList("block-locked pages", "pages whose lock bits are frozen", block_groups()), "none"),
    (Bytes("OTP", "page 03; a bit that is 1 stays 1", page_places(PAGE["otp"], 1)), "00 00 00 00"),
    (Switch("Random ID", "on: the serial number is hidden in ACTIVE", place(CFG0, 0), 0x01), "off"),
    (Switch("SEC_MSG_ACT", "stored, without effect yet", place(CFG0, 0), 0x02), "off"),
    (Number("AUTH0", "first page that needs a login with DataProtKey; above 3B: none", [(place(CFG0, 3), 7)], 0x7F, 2), "3C"),
    (Switch("PROT", "on: reading from AUTH0 on needs the login too; off: only writing", place(CFG1, 0), 0x80), "on"),
    (Switch("LOCK_USR_CFG", "on: pages 29 and 2A refuse every write", place(CFG1, 0), 0x40), "off"),
    (Switch("CNT_INC_EN", "on: counter 2 may be raised without a login", place(CFG1, 0), 0x08), "on"),
    (Switch("CNT_RD_EN", "on: counter 2 may be read without a login", place(CFG1, 0), 0x04), "on"),
    (Bytes("VCTID", "stored, without effect yet", [place(CFG1, 1)]), "05"),
    (Number("AUTH_LIM", "failed logins until the tag bars logins; 0: no limit", [(place(CFG1, 2), 8), (place(CFG1, 3), 2)], 0x3FF), "0"),
    (Switch("LOCK_AES_KEY0", "on: DataProtKey cannot be written", place(KEYLOCKS, 0), 0x40), "off"),
    (Switch("LOCK_AES_KEY1", "on: UIDRetrKey cannot be written", place(KEYLOCKS, 0), 0x80), "off"),
    (Switch("BLOCK_LOCK_KEY", "on: page 2D refuses every write", place(KEYLOCKS, 0), 0x20), "off"),
    (Bytes("DataProtKey", "key 0, key byte 0 first", key_places(PAGE["key0"])), "00 " * 15 + "00"),
    (Bytes("UIDRetrKey", "key 1, key byte 0 first", key_places(PAGE["key1"])), "00 " * 15 + "00"),
    (Bytes("OriginalityKey", "key 2, key byte 0 first", behind("originality")), "00 " * 15 + "00"),
    (counter_setting(0), "0"),
    (counter_setting(1), "0"),
    (counter_setting(2), "0"),
    (Number("failed count", "failed logins so far, decimal", [(at, 8) for at in behind("failed")], HIGHEST_FAILED), "0"),
]


def plain(name):
    """A name as it is looked up: case, and the kind of the gaps in it, make no difference."""
    return re.sub(r"[\s_-]+", " ", name.strip().lower())


SETTINGS = collections.OrderedDict((plain(setting.name), setting) for setting, _ in TABLE)
KEYS = ["DataProtKey", "UIDRetrKey", "OriginalityKey"]


def covered():
    """The bits of an image that the table's settings stand for."""
    masks = bytearray(SIZE)
    for setting, default in TABLE:
        for claim in setting.claims(default)[0]:
            masks[claim.at] |= claim.mask
    return bytes(masks)


def page_setting(p):
    return Bytes("page %02X" % p, "the four bytes as they are stored", page_places(p, 1))


def setting_of(name):
    """The setting of a name; page 00 to page 3B are names too."""
    known = SETTINGS.get(plain(name))
    page = re.fullmatch(r"page ([0-9a-f]{1,2})h?", plain(name))
    if known:
        return known
    if page and int(page.group(1), 16) < PAGES:
        return page_setting(int(page.group(1), 16))
    if page:
        raise ValueError("there is no page %s; the last is %02X" % (page.group(1).upper(), PAGE["last"]))
    raise ValueError("there is no setting '%s'" % name.strip())


# ---- from settings to an image

class Wrong(Exception):
    """Settings that give no image: a message for each error, with its line number."""


class Maker:
    """An image that is put together bit by bit; each bit is set by one line, or by several that agree."""

    def __init__(self):
        self.image, self.set = bytearray(SIZE), bytearray(SIZE)
        self.owners, self.lines = {}, {}
        self.errors, self.notes = [], []

    def line(self, n, text):
        """One line of a settings file."""
        text = text.split("#", 1)[0].strip()
        if not text:
            return
        try:
            self.assign(n, *self.parted(text))
        except ValueError as error:
            self.errors.append("line %d: %s" % (n, error))

    @staticmethod
    def parted(text):
        name, equals, value = text.partition("=")
        if not equals:
            raise ValueError("'%s' has no '='" % text)
        if not value.strip():
            raise ValueError("%s has no value" % name.strip())
        return name, value.strip()

    def assign(self, n, name, value):
        setting = setting_of(name)
        if setting.name in self.lines:
            raise ValueError("%s is set in line %d already" % (setting.name, self.lines[setting.name]))
        self.lines[setting.name] = n
        try:
            claims, notes = setting.claims(value)
        except ValueError as error:
            raise ValueError("%s: %s" % (setting.name, error))
        self.notes += ["line %d: %s: %s" % (n, setting.name, note) for note in notes]
        for claim in claims:
            self.claim(claim, "%s in line %d" % (setting.name, n), setting)

    def claim(self, claim, owner, setting):
        both = self.set[claim.at] & claim.mask
        differing = both & (self.image[claim.at] ^ claim.value)
        if differing:
            other = next(o for mask, o in self.owners[claim.at] if mask & differing)
            raise ValueError("%s: %s has another value for %s" % (setting.name, other, where(claim.at)))
        self.put(claim)
        self.owners.setdefault(claim.at, []).append((claim.mask, owner))

    def put(self, claim):
        self.image[claim.at] |= claim.value
        self.set[claim.at] |= claim.mask

    def fill(self):
        """What no line has set: the counts, the values at delivery, and the check bytes."""
        for section in SECTIONS.values():
            self.put(Claim(section.at, 0xFF, section.count))
        for setting, default in TABLE:
            for claim in setting.claims(default)[0]:
                left = claim.mask & ~self.set[claim.at]
                self.put(Claim(claim.at, left, claim.value & left))
        for at, byte in zip((BCC0, BCC1), right_check_bytes(self.image)):
            if not self.set[at]:
                self.put(Claim(at, 0xFF, byte))

    def judge(self):
        """A check byte that is wrong was set by the line of its page: a tag would refuse the image."""
        for page, words in wrong_check_bytes(self.image):
            name = page_setting(page).name
            self.errors.append("line %d: %s: %s" % (self.lines[name], name, words))


def where(at):
    """A place of an image in words."""
    first = place(0)
    if first <= at < place(PAGES):
        return "page %02X byte %d" % divmod(at - first, 4)
    return "byte %d of the image" % at


def make(text):
    """The image that a settings text gives, and notes; Wrong where it gives none."""
    maker = Maker()
    for n, line in enumerate(text.splitlines(), 1):
        maker.line(n, line)
    if not maker.errors:
        maker.fill()
        maker.judge()
    if maker.errors:
        raise Wrong("\n".join(maker.errors))
    image = bytes(maker.image)
    if refusals(image):
        raise Wrong("\n".join(refusals(image)))
    return image, maker.notes + remarks(image)


# ---- from an image to settings

def remarks(image):
    """What is unusual in an image that loads."""
    found = []
    if image[SERIAL[0]] != 0x04:
        found.append("the serial number begins with %02X; the maker's begin with 04" % image[SERIAL[0]])
    limit, failed = SETTINGS["auth lim"].value(image), SETTINGS["failed count"].value(image)
    if limit and failed >= limit:
        found.append("the failed count %d is at or above AUTH_LIM %d: every AUTHENTICATE is answered 11" % (failed, limit))
    return found


def settings_text(image):
    """A settings file that gives the same bytes again."""
    lines = ["%-18s = %-47s  # %s" % (s.name, s.text(image), s.words) for s in SETTINGS.values()]
    made, _ = make("\n".join(lines))
    for p in range(PAGES):
        if page_bytes(made, p) != page_bytes(image, p):
            lines.append("%-18s = %s" % ("page %02X" % p, spaced(page_bytes(image, p))))
    return "\n".join(lines) + "\n"


# ---- for the scripts

def stored(path):
    """The bytes of a file; nothing if it cannot be read."""
    try:
        with open(path, "rb") as f:
            return f.read()
    except OSError:
        return None


def shortened(text, most=30):
    return text if len(text) <= most else text[:most - 2] + ".."


def start(main):
    """Runs the main function of a script. A reader that stops reading, such as head, is no error."""
    try:
        status = main(sys.argv[1:])
        sys.stdout.flush()
    except BrokenPipeError:
        os.dup2(os.open(os.devnull, os.O_WRONLY), sys.stdout.fileno())
        status = 0
    sys.exit(status)
