#!/usr/bin/env python3
"""Makes an image file of the tag from a settings file.

    tools/make_image.py SETTINGS OUT       writes the 271 bytes to OUT
    tools/make_image.py --list             prints every setting with its value at delivery

A settings file has lines 'name = value'; '#' starts a comment. What is not named keeps its value at delivery: no page locked or protected, counters and
keys zero. Bytes and page numbers are in hex; counters, AUTH_LIM and the failed count are decimal, or hex with an h behind it. For example:

    serial number = 04 51 2C 5A 93 C7 1E     # BCC0 and BCC1 are worked out
    locked pages  = 03 08-0F 12-13
    page 04       = 11 22 33 44              # any page from 00 to 3B, as it is stored
    AUTH0         = 04                       # from page 04 on a login is needed
    DataProtKey   = 00 01 02 03 04 05 06 07 08 09 0A 0B 0C 0D 0E 0F
    counter 0     = 10

A key is written with key byte 0 first; in the tag's pages it lies the other way round, and this program turns it. Two lines may set the same bit only if
they agree, and page 00 and page 02 may have no other check bytes than the serial number's: what is written, a tag loads. If a line is wrong, its number and
what is wrong with it are printed, nothing is written, and the exit status is 1.
"""

import sys

import tagimage


def failed(message):
    print(message, file=sys.stderr)
    return 1


def listed():
    for setting, default in tagimage.TABLE:
        print("%-18s = %-47s  # %s" % (setting.name, default, setting.words))
    print("%-18s = %-47s  # %s" % ("page XX", "4 bytes", "page 00 to page 3B, as it is stored"))
    return 0


def made(source, out):
    try:
        with open(source, encoding="utf-8") as f:
            image, notes = tagimage.make(f.read())
    except (OSError, UnicodeDecodeError) as error:
        return failed("%s cannot be read: %s" % (source, error))
    except tagimage.Wrong as error:
        return failed("\n".join("%s: %s" % (source, line) for line in str(error).split("\n")) + "\n%s is not written" % out)
    try:
        with open(out, "wb") as f:
            f.write(image)
    except OSError as error:
        return failed("%s cannot be written: %s" % (out, error))
    for note in notes:
        print("note: " + note)
    return 0


def main(words):
    if words in (["-h"], ["--help"]):
        print(__doc__.strip())
        return 0
    if words == ["--list"]:
        return listed()
    if len(words) != 2:
        return failed(__doc__.strip())
    return made(*words)


if __name__ == "__main__":
    tagimage.start(main)
