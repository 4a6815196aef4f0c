#!/usr/bin/env python3
"""Respells the repository's own definitions and lemmas: words in snake case, as Rattle's library has them.

usage: tools/snake_names.py        at the top of the repository, once, after the toolchain's own scripts

It collects each name that a .antt file of crates/ declares with a lower-case first letter and a capital within (crcBits, sBox-byte), and respells it
wherever it stands as a word in crates/: .antt, .rt and .edit files. Functions of src/, strings and fields that come from src/ have no such names.
It stops where two names would fall together anywhere, and writes then nothing.
"""
import os
import re
import sys

DECLARES = re.compile(r"^\s*(?:(?:abbrev|unfoldable|pub|private|opaque|instance)\s+)*([A-Za-z_][\w'′·-]*)\s*:(?!=)", re.M)
WORD = re.compile(r"(?<![\w'′-])[A-Za-z_][\w'′-]*")
# where the rule would part a hex number or cut a word of the library
OWN = {"getD-state": "get_or-state", "lock0F": "lock_0f", "pairLock1E": "pair_lock_1e", "read3C": "read_3c"}


def files(*ends):
    for folder, dirs, names in os.walk("crates"):
        dirs[:] = sorted(d for d in dirs if d != "out")
        for name in sorted(names):
            if name.endswith(ends):
                yield os.path.join(folder, name)


def snake(name):
    return OWN.get(name) or re.sub(r"(?<=[a-z0-9])([A-Z])", r"_\1", name).lower()


def main():
    texts = {}
    for path in files(".antt", ".rt", ".edit"):
        with open(path, encoding="utf-8") as f:
            texts[path] = f.read()
    declared = {n for p, t in texts.items() if p.endswith(".antt") for n in DECLARES.findall(t)}
    turned = {n: snake(n) for n in declared if n[0].islower() and re.search("[A-Z]", n) and "·" not in n}
    # a name that keeps a type's capital after its dash, as of IsBlock-zeros, begins with a capital and is not among these
    clash = [f"{n} -> {s}: declared already" for n, s in turned.items() if s in declared]
    spelled = {}
    for n, s in turned.items():
        spelled.setdefault(s, []).append(n)
    clash += [f"{' and '.join(sorted(ns))} -> {s}" for s, ns in spelled.items() if len(ns) > 1]
    if clash:
        print("\n".join(sorted(clash)))
        return 1
    count = 0
    for path, text in texts.items():
        new = WORD.sub(lambda m: turned.get(m.group(0), m.group(0)), text)
        if new != text:
            count += 1
            with open(path, "w", encoding="utf-8") as f:
                f.write(new)
    print(f"{len(turned)} names respelled in {count} files")
    return 0


if __name__ == "__main__":
    sys.exit(main())
