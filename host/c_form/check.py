#!/usr/bin/env python3
"""Compiles and runs the tests of the C form, and holds docs/C-FORM.md and the examples against what runs.

    host/c_form/check.py    says each difference; the last line is 'N passed, M failed', and the exit status 0 only if nothing failed

The library is target/staticlib/libtag_c.a, which run.sh builds, or the one that the variable KZ_LIB names, linked with the words of KZ_LIBS. Python 3, no
library.
"""

import os
import re
import shlex
import shutil
import subprocess
import sys

ROOT = os.path.dirname(os.path.dirname(os.path.dirname(os.path.abspath(__file__))))
HERE = "host/c_form"
OUT = "target/host/c_form"
BUILT = "target/staticlib/libtag_c.a"
OTHER = os.environ.get("KZ_LIB", "")
LIBRARY = [OTHER or BUILT] + shlex.split(os.environ.get("KZ_LIBS", ""))
STRICT = ["-Wall", "-Wextra", "-pedantic", "-Werror"]
CHECKED = ["-std=c99", "-g", "-fsanitize=address,undefined", "-fno-sanitize-recover=undefined", "-Iinclude"] + STRICT
SECONDS = 600


def text_of(path):
    with open(os.path.join(ROOT, path), encoding="utf-8") as f:
        return f.read()


def ran(words):
    """Exit status, and all that was printed. A program that doesn't end is a failure like any other."""
    try:
        done = subprocess.run(words, cwd=ROOT, stdin=subprocess.DEVNULL, stdout=subprocess.PIPE, stderr=subprocess.STDOUT, timeout=SECONDS, check=False)
    except subprocess.TimeoutExpired:
        return 1, "still running after %d s: %s\n" % (SECONDS, words)
    except OSError as error:
        return 1, "%s\n" % error
    return done.returncode, done.stdout.decode("utf-8", "replace")


def quiet(words):
    """What is wrong with a command that has nothing to say."""
    status, text = ran(words)
    return [] if status == 0 and not text else ["%s: exit status %d\n%s" % (" ".join(words), status, text)]


def compiled(name, sources):
    return quiet(["gcc"] + CHECKED + ["-o", "%s/%s" % (OUT, name)] + sources + LIBRARY)


def lines_differ(name, got, wanted):
    """The first line in which two texts differ."""
    if got == wanted:
        return []
    pairs = list(zip(got.split("\n") + ["(end)"], wanted.split("\n") + ["(end)"]))
    at = next(n for n, (a, b) in enumerate(pairs) if a != b)
    return ["%s: line %d is '%s', expected '%s'" % (name, at + 1, pairs[at][0], pairs[at][1])]


# ---- the tests in C

SOURCES = ["main", "check", "crc", "sound", "lengths", "longs", "records", "images", "reasons", "header", "cases"]


def cases_written():
    status, text = ran([sys.executable, HERE + "/cases.py"])
    with open(os.path.join(ROOT, OUT, "cases.txt"), "w", encoding="utf-8") as f:
        f.write(text)
    return [] if status == 0 else [text]


def c_tests():
    """Passed and failed, as the program counts them; what it says is printed."""
    wrong = cases_written() + compiled("tests", ["%s/%s.c" % (HERE, name) for name in SOURCES])
    if wrong:
        print("\n".join(wrong))
        return 0, 1
    status, text = ran([OUT + "/tests", OUT + "/cases.txt"])
    said, _, last = text.rstrip("\n").rpartition("\n")
    count = re.fullmatch(r"(\d+) passed, (\d+) failed", last)
    if not count:
        print("%s\nFAILED: the tests in C end with status %d and no count" % (text, status))
        return 0, 1
    print(said)
    passed, failed = map(int, count.groups())
    return passed, failed + (status != 0 and failed == 0)


# ---- the header

WARNINGS = STRICT + ["-Wconversion", "-Wsign-conversion", "-Wshadow", "-Wundef"]
COMPILERS = [("gcc", "c", ["c99", "c11"]), ("clang", "c", ["c99", "c11"]), ("g++", "c++", ["c++11", "c++17"]), ("clang++", "c++", ["c++11", "c++17"])]


def header_compiles(compiler, language, standard):
    """header.c and a program round it; the calls of the library are found under the names that the header gives them."""
    program = "%s/header-%s-%s" % (OUT, compiler, standard)
    sources = ["%s/%s.c" % (HERE, name) for name in ("header", "header_main")]
    command = [compiler, "-x", language, "-std=" + standard, "-Iinclude"] + WARNINGS + ["-o", program] + sources + ["-x", "none"] + LIBRARY
    return quiet(command) or quiet([program])


def header_tests():
    for compiler, language, standards in COMPILERS:
        if compiler.startswith("clang") and not shutil.which(compiler):
            print("%s is not here: the header is not compiled with it" % compiler)
            continue
        for standard in standards:
            yield "the header with %s as %s" % (compiler, standard), lambda c=compiler, l=language, s=standard: header_compiles(c, l, s)


# ---- docs/C-FORM.md

DOCUMENT = "docs/C-FORM.md"


def blocks(heading):
    """The texts between fences in a section of the document."""
    section = re.search(r"^## %s\n(.*?)(?=^## |\Z)" % re.escape(heading), text_of(DOCUMENT), re.M | re.S)
    return re.findall(r"^```\w+\n(.*?)^```$", section.group(1), re.M | re.S) if section else []


def commanded(text):
    """Runs a block of commands as it stands; what is wrong, and what the last one prints. Another library takes the place of the one that is built."""
    lines = text.strip().split("\n")
    if lines[0] != "make lib" or BUILT not in text:
        return ["the commands don't begin with 'make lib', or don't name %s" % BUILT], ""
    if OTHER:
        lines = [line.replace(BUILT, shlex.join(LIBRARY)) for line in lines[1:]]
    status, said = 0, ""
    for line in lines:
        status, said = ran(["sh", "-c", line])
        if status != 0 or (line.startswith("gcc") and said):
            return ["%s: exit status %d\n%s" % (line, status, said)], said
    return [], said


def first_program():
    program, commands, output = blocks("A first program")[:3]
    with open(os.path.join(ROOT, "target", "first.c"), "w", encoding="utf-8") as f:
        f.write(program)
    wrong, said = commanded(commands)
    lines = program.count("\n")
    return wrong or lines_differ("the program's output", said, output) + (["the program has %d lines" % lines] if lines != 10 else [])


def firmware_commands():
    wrong, said = commanded(blocks("A first program")[3])
    return wrong or lines_differ("its output", said, text_of("examples/firmware.txt"))


def exchange():
    wrong = compiled("exchange", [HERE + "/exchange.c", HERE + "/crc.c"])
    if wrong:
        return wrong
    status, said = ran([OUT + "/exchange", "samples/login_originality/tag.image"])
    return (["exit status %d" % status] if status else []) + lines_differ(DOCUMENT, blocks("An exchange in bytes")[0], said)


def names():
    """Each value that the header names stands in a table of the document, and no other; each function is named there, with the same words."""
    header, document = text_of("include/kazdumera.h"), text_of(DOCUMENT)
    defined = {name: int(value, 0) for name, value in re.findall(r"^(?:#define| +) ?(KZ_\w+) (?:= )?(\w+)", header, re.M) if value[0].isdigit()}
    tabled = {name: int(value) for value, name in re.findall(r"^\| (\d+) \| `(KZ_\w+)` \|", document, re.M)}
    wrong = ["%s: the header has %s, the document %s" % (name, defined.get(name), tabled.get(name))
             for name in sorted(set(defined) | set(tabled)) if defined.get(name) != tabled.get(name)]
    functions = set(re.findall(r"\b(kz_\w+)\(", header))
    wrong += ["the document doesn't name %s" % name for name in sorted(functions) if name + "(" not in document]
    there = prototypes(document)
    return wrong + ["the document has another prototype of %s" % name for name, words in prototypes(header).items() if there.get(name) != words]


def prototypes(text):
    """The calls with their parameters, whatever the line ends."""
    found = re.findall(r"^(uint\d+_t (kz_\w+)\([^)]*\))", text, re.M)
    return {name: " ".join(words.split()) for words, name in found}


# ---- the example

def example():
    """The example under the sanitizers."""
    wrong = compiled("firmware", ["examples/firmware.c"])
    if wrong:
        return wrong
    status, said = ran([OUT + "/firmware"])
    return (["exit status %d" % status] if status else []) + lines_differ("its output", said, text_of("examples/firmware.txt"))


# ---- the count

TESTS = [
    ("the program, commands and output of docs/C-FORM.md", first_program),
    ("the commands of docs/C-FORM.md for the example, and examples/firmware.txt", firmware_commands),
    ("the exchange of docs/C-FORM.md", exchange),
    ("the names, values and prototypes of docs/C-FORM.md and of the header", names),
    ("examples/firmware.c under the sanitizers", example),
]


def tested(name, test):
    try:
        wrong = test()
    except (OSError, ValueError, IndexError) as error:
        wrong = ["%s: %s" % (type(error).__name__, error)]
    for message in wrong:
        print("    " + message.rstrip("\n").replace("\n", "\n    "))
    print("%s: %s" % ("FAILED" if wrong else "ok", name), flush=True)
    return not wrong


def main():
    if not os.path.exists(os.path.join(ROOT, LIBRARY[0])):
        print("%s is not there\n0 passed, 1 failed" % LIBRARY[0])
        return 1
    passed, failed = c_tests()
    for name, test in list(header_tests()) + TESTS:
        right = tested(name, test)
        passed, failed = passed + right, failed + (not right)
    print("%d passed, %d failed" % (passed, failed))
    return 1 if failed else 0


if __name__ == "__main__":
    sys.exit(main())
