#!/usr/bin/env python3
"""Shows an image file of the tag in words.

    tools/show_image.py IMAGE                what the image holds, without the keys
    tools/show_image.py IMAGE --keys         with the keys
    tools/show_image.py IMAGE --settings     a settings file, keys included, from which make_image.py makes the same bytes again

If a tag would refuse the image, the first lines say 'a tag answers 12' and why, such as a wrong check byte, and the exit status is 1. What is unusual but
loads, such as a serial number that doesn't begin with 04, stands at the end under Remarks.
"""

import sys

import tagimage
from tagimage import PAGE, PAGES, SETTINGS, page_bytes, runs, spaced, spread


def row(name, text):
    return "%-18s %s" % (name, text)


def value(name, image):
    return SETTINGS[tagimage.plain(name)].value(image)


def text(name, image):
    return SETTINGS[tagimage.plain(name)].text(image)


# ---- the parts of the page

def identity(image):
    bcc = "BCC0 %02X, BCC1 %02X" % (image[tagimage.BCC0], image[tagimage.BCC1])
    return [
        row("Serial number", "%s; check bytes %s" % (text("serial number", image), bcc)),
        row("Internal byte", text("internal byte", image)),
        row("OTP", text("OTP", image)),
    ]


def locks(image):
    low = spaced(page_bytes(image, PAGE["locks"])[2:])
    high = spaced(page_bytes(image, PAGE["pairlocks"])[:3])
    return [
        row("Lock bytes", "0 and 1: %s; 2 to 4: %s" % (low, high)),
        row("  locked", "pages " + text("locked pages", image) if any_page("locked pages", image) else "no page"),
        row("  frozen", "lock bits of pages " + text("block-locked pages", image) if any_page("block-locked pages", image) else "no lock bit"),
    ]


def any_page(name, image):
    return bool(SETTINGS[tagimage.plain(name)].chosen(image))


def protection(image):
    auth0 = value("AUTH0", image)
    if auth0 > PAGE["last"]:
        words = "no page is protected"
    elif value("PROT", image):
        words = "reading and writing from page %02X on need a login with DataProtKey" % auth0
    else:
        words = "writing from page %02X on needs a login with DataProtKey, reading does not" % auth0
    return [
        row("Protection", words),
        row("  settings", "AUTH0 %02X, PROT %s" % (auth0, text("PROT", image))),
        row("Random ID", "on: in ACTIVE the serial number and its check bytes read as zeros" if value("Random ID", image) else "off"),
        row("Configuration", "locked: pages 29 and 2A refuse every write" if value("LOCK_USR_CFG", image) else "not locked"),
        row("Not in effect", "SEC_MSG_ACT %s, VCTID %s" % (text("SEC_MSG_ACT", image), text("VCTID", image))),
    ]


def counters(image):
    rows = []
    for k in range(3):
        setting = SETTINGS["counter %d" % k]
        stored = spaced(image[at] for at, _ in setting.parts)
        rows.append(row("Counter %d" % k, "%s (%06Xh), stored and sent low byte first: %s" % (format(setting.value(image), ","), setting.value(image), stored)))
    openings = ["%s %s" % (what, "open" if value(bit, image) else "only in AUTHENTICATED")
                for what, bit in (("reading", "CNT_RD_EN"), ("raising", "CNT_INC_EN"))]
    return rows + [row("  counter 2", ", ".join(openings))]


def logins(image):
    limit = value("AUTH_LIM", image)
    words = "%d; AUTH_LIM %d bars logins from that count on" % (value("failed count", image), limit)
    return [row("Failed count", words if limit else "%d; AUTH_LIM 0: no limit, and the count stays" % value("failed count", image))]


def keys(image, shown):
    if not shown:
        rows = [row("Keys", "not shown; --keys shows them")]
    else:
        rows = [row(name, text(name, image) + "  (key byte 0 first)") for name in tagimage.KEYS]
    locked = [name for bit, name in (("LOCK_AES_KEY0", "DataProtKey"), ("LOCK_AES_KEY1", "UIDRetrKey")) if value(bit, image)]
    words = "locked against writing: " + (", ".join(locked) or "none")
    return rows + [row("  locks", words + ("; page 2D refuses every write" if value("BLOCK_LOCK_KEY", image) else ""))]


def letters(data):
    return "".join(chr(b) if 0x20 <= b < 0x7F else "." for b in data)


def pages(image, numbers):
    """A line a page; pages of zeros that follow each other share one."""
    zeros = [p for p in sorted(numbers) if page_bytes(image, p) == bytes(4)]
    rows = [(first, "  %-5s  zeros" % spread(first, last)) for first, last in runs(zeros)]
    for p in set(numbers) - set(zeros):
        data = page_bytes(image, p)
        rows.append((p, "  %02X     %s  %s" % (p, spaced(data), letters(data))))
    return [line for _, line in sorted(rows)]


def reserved(image):
    """Pages without a use behind the user memory, and bits without one where they are set."""
    masks = {p: page_bytes(tagimage.covered(), p) for p in range(PAGE["pairlocks"], PAGES)}
    rows = pages(image, [p for p, mask in masks.items() if not any(mask)])
    for p, mask in masks.items():
        left = bytes(b & ~m & 0xFF for b, m in zip(page_bytes(image, p), mask))
        if any(mask) and any(left):
            rows.append("  %02X     %s  (reserved bits of the page that are set)" % (p, spaced(left)))
    return rows


def report(image, shown):
    lines = identity(image) + [""] + locks(image) + [""] + protection(image) + [""] + counters(image) + logins(image) + keys(image, shown)
    lines += ["", "User memory"] + pages(image, range(PAGE["otp"] + 1, PAGE["pairlocks"]))
    lines += ["", "Reserved pages and bits"] + reserved(image)
    found = tagimage.remarks(image)
    return lines + (["", "Remarks"] + ["  " + remark for remark in found] if found else [])


def shown_image(path, image, length, with_keys):
    wrong = tagimage.refusals(image, length)
    for reason in wrong:
        print("%s: a tag answers 12: %s" % (path, reason))
    if not wrong:
        print("%s: %d bytes, a tag loads it" % (path, len(image)))
    if length == tagimage.SIZE:
        print("\n" + "\n".join(report(image, with_keys)))
    return 1 if wrong else 0


def settings(path, image, length):
    wrong = tagimage.refusals(image, length)
    if wrong:
        print("%s: a tag answers 12: %s" % (path, wrong[0]), file=sys.stderr)
        return 1
    print("# settings of %s, with its keys" % path)
    print(tagimage.settings_text(image), end="")
    return 0


def main(words):
    if words in (["-h"], ["--help"]):
        print(__doc__.strip())
        return 0
    names = [w for w in words if not w.startswith("--")]
    options = set(words) - set(names)
    if len(names) != 1 or options - {"--keys", "--settings"}:
        print(__doc__.strip(), file=sys.stderr)
        return 1
    try:
        image, length = tagimage.read_image(names[0])
    except OSError as error:
        print("%s: a tag answers 12: it cannot be read: %s" % (names[0], error.strerror))
        return 1
    return settings(names[0], image, length) if "--settings" in options else shown_image(names[0], image, length, "--keys" in options)


if __name__ == "__main__":
    tagimage.start(main)
