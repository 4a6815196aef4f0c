#!/usr/bin/env python3
"""Compares three tables of the documents with the tree, and the exports for C with the calls that they export.

    host/docs/check.py    says each difference; the last line is 'N passed, M failed', and the exit status 0 only if nothing failed

The must-fail table of docs/CLAIMS.md names exactly the edits crates/*/must-fail/*.edit. Its first column is 'crate/edit', and ', edit' for each further edit
of the same crate. The table of docs/ARCHITECTURE.md has a row for each crate of crates.txt and no other; its column Uses has the crates of this
repository that crates.txt gives for it, in that order. Libraries of the kit do not count. Each function of crates/kazdumera has the parameters, the
result and the clauses of the function of its name in crates/tag_c, and hands its parameters on to it in their order. The table of docs/CLAIMS.md with the columns
Program or library and Needs has each program and library for C, and the names that `nm -u` gives for it, but for those that start any program; so a program that
comes to rest on more of the C library is seen here. The programs are those that `rt ci` built. Python 3, no library.
"""

import glob
import os
import re
import subprocess
import sys

ROOT = os.path.dirname(os.path.dirname(os.path.dirname(os.path.abspath(__file__))))


def lines_of(*path):
    with open(os.path.join(ROOT, *path), encoding="utf-8") as f:
        return f.read().split("\n")


def table(lines, heads):
    """The cells of each row below the head row with these cells, each with its line number. Without such a table, one error."""
    rows = [(n, [cell.strip() for cell in line.strip("|").split("|")]) for n, line in enumerate(lines, 1) if line.startswith("|")]
    start = next((n for n, cells in rows if cells == heads), None)
    if start is None:
        raise ValueError("there is no table with the columns %s" % ", ".join(heads))
    found = []
    for n, cells in rows:
        if n == start + 2 + len(found):
            found.append((n, cells))
    return found


# ---- must-fail edits

def edits_named():
    """The edits of the table, and what is wrong with its rows."""
    named, wrong = set(), []
    for n, cells in table(lines_of("docs", "CLAIMS.md"), ["Edit", "What is wrong", "The fact refused"]):
        row = re.fullmatch(r"(\w+)/(\w+(?:, \w+)*)", cells[0])
        if not row:
            wrong.append("docs/CLAIMS.md:%d: '%s' is not 'crate/edit, edit'" % (n, cells[0]))
            continue
        for edit in row.group(2).split(", "):
            name = "%s/%s" % (row.group(1), edit)
            if name in named:
                wrong.append("docs/CLAIMS.md:%d: %s stands in an earlier row too" % (n, name))
            named.add(name)
    return named, wrong


def edits_in_tree():
    paths = glob.glob(os.path.join(ROOT, "crates", "*", "must-fail", "*.edit"))
    return {"%s/%s" % (path.split(os.sep)[-3], os.path.basename(path)[:-len(".edit")]) for path in paths}


def edits():
    named, wrong = edits_named()
    tree = edits_in_tree()
    wrong += ["docs/CLAIMS.md lacks %s" % name for name in sorted(tree - named)]
    wrong += ["docs/CLAIMS.md names %s, which crates/*/must-fail has not" % name for name in sorted(named - tree)]
    return wrong + ([] if tree else ["crates/*/must-fail has no edit"])


# ---- crates

def crates():
    """Each crate of crates.txt with the crates of this repository that it uses."""
    uses = {}
    for words in (line.split("#", 1)[0].split(":") for line in lines_of("crates.txt")):
        if len(words) == 2:
            # a static library has the word behind its name
            uses[words[0].split()[0]] = words[1].split()
    return {name: [other for other in others if other in uses] for name, others in uses.items()}


def architecture():
    known, seen, wrong = crates(), set(), []
    for n, cells in table(lines_of("docs", "ARCHITECTURE.md"), ["Crate", "Holds", "Uses"]):
        name, uses = cells[0].strip("`"), cells[-1] if len(cells) == 3 else None
        if name in seen:
            wrong.append("docs/ARCHITECTURE.md:%d: `%s` has an earlier row too" % (n, name))
        seen.add(name)
        if name not in known:
            wrong.append("docs/ARCHITECTURE.md:%d: `%s` is not in crates.txt" % (n, name))
            continue
        right = ", ".join("`%s`" % other for other in known[name])
        if uses != right:
            wrong.append("docs/ARCHITECTURE.md:%d: Uses of `%s` must be: %s" % (n, name, right or "empty"))
    missing = [name for name in known if name not in seen]
    return wrong + ["docs/ARCHITECTURE.md lacks `%s`, whose Uses are: %s" % (name, ", ".join("`%s`" % other for other in known[name])) for name in missing]


def folders():
    """crates.txt names the folders of crates/, each once."""
    names, known = set(os.listdir(os.path.join(ROOT, "crates"))), set(crates())
    return ["crates.txt lacks %s" % name for name in sorted(names - known)] + ["crates/%s is not there" % name for name in sorted(known - names)]


# ---- exports

def functions(crate):
    """Each public function of the crate's lib.rt: its parameters, its result and clauses, and its body, in single spaces."""
    text = "\n".join(lines_of("crates", crate, "src", "lib.rt"))
    found = re.findall(r'^pub (?:extern "C" )?fn (\w+)\((.*?)\)(.*?)^\{(.*?)^\}', text, re.M | re.S)
    return {name: tuple(" ".join(part.split()).strip(", ") for part in parts) for name, *parts in found}


def exports():
    calls, exported, wrong = functions("tag_c"), functions("kazdumera"), []
    for name, (parameters, promise, body) in exported.items():
        if calls.get(name, ("", "", ""))[:2] != (parameters, promise):
            wrong.append("`%s` of crates/kazdumera has other parameters or clauses than crates/tag_c" % name)
        if body != "tag_c::%s(%s)" % (name, ", ".join(re.findall(r"(\w+):", parameters))):
            wrong.append("`%s` of crates/kazdumera is not that call alone" % name)
    return wrong + ["crates/kazdumera does not export `%s`" % name for name in sorted(set(calls) - set(exported))]


# ---- names from outside

# what starts a program, and what the kit's write goes by
START_UP = {"__libc_start_main", "__sysv_signal", "__write", "__x86_get_cpuid_feature_leaf"}


def undefined(path):
    listed = subprocess.run(["nm", "-u", path], cwd=ROOT, capture_output=True, text=True, check=True).stdout
    return set(re.findall(r"^ +U (\S+)$", listed, re.M))


def built(name):
    """The file of a program, or of a library lib*.a, which is built where it is not there."""
    library = re.fullmatch(r"lib(\w+)\.a", name)
    if not library:
        path = os.path.join("crates", name, "out", name)
        if not os.path.exists(os.path.join(ROOT, path)):
            raise ValueError("%s is not there: rt ci builds it" % path)
        return path
    subprocess.run([os.path.join(ROOT, "host", "library.sh"), library[1]], check=True, capture_output=True)
    return os.path.join("target", "staticlib", name)


def linked():
    """The programs, whose crates have a main.rt, and the libraries for C: the one of kazdumera goes by the name of tag_c."""
    programs = [path.split(os.sep)[-3] for path in glob.glob(os.path.join(ROOT, "crates", "*", "src", "main.rt"))]
    libraries = [line.split()[0] for line in lines_of("crates.txt") if re.match(r"\w+ staticlib:", line)]
    return {"`%s`" % name for name in programs} | {"`lib%s.a`" % name.replace("kazdumera", "tag_c") for name in libraries}


def outside():
    rows = table(lines_of("docs", "CLAIMS.md"), ["Program or library", "Needs"])
    wrong = ["no row for %s" % name for name in sorted(linked() - {cells[0] for _, cells in rows})]
    for _, (name, needs) in rows:
        named, needed = set(re.findall(r"`(\w+)`", needs)), undefined(built(name.strip("`")))
        if not name.endswith(".a`"):
            needed -= START_UP
        wrong += ["%s needs %s" % (name, other) for other in sorted(needed - named)]
        wrong += ["%s does not need %s" % (name, other) for other in sorted(named - needed)]
    return wrong


# ---- the count

TESTS = [
    ("the must-fail table of docs/CLAIMS.md and crates/*/must-fail", edits),
    ("the table of docs/ARCHITECTURE.md and crates.txt", architecture),
    ("crates.txt and the folders of crates/", folders),
    ("the exports of crates/kazdumera and the calls of crates/tag_c", exports),
    ("the needs in docs/CLAIMS.md, and the programs and libraries", outside),
]


def main():
    failed = 0
    for name, test in TESTS:
        try:
            wrong = test()
        except (OSError, ValueError, subprocess.CalledProcessError) as error:
            wrong = [str(error)]
        for message in wrong:
            print("    " + message)
        print("%s: %s" % ("FAILED" if wrong else "ok", name))
        failed += bool(wrong)
    print("%d passed, %d failed" % (len(TESTS) - failed, failed))
    return 1 if failed else 0


if __name__ == "__main__":
    sys.exit(main())
