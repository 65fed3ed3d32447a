#!/usr/bin/env python3
"""Spells the definitions, lemmas, fields and variables of this repository's specs/ and proofs/ in snake case, and its facts in camel case.

usage: python3 tools/respell.py          rewrites the .antt and .rt files of crates/, and the must-fail edits
       python3 tools/respell.py --list   prints each name with its new spelling, and writes nothing

It goes by words, outside comments. A dash stays in the names that Rattle makes (goals, invariants, steps of a proof) and in those of its library,
so it reads the library of the kit. Where two names would fall together it stops.
"""

import os
import re
import sys

ROOT = os.path.dirname(os.path.dirname(os.path.realpath(__file__)))
CRATES = os.path.join(ROOT, "crates")
LIBRARY = "/opt/rattle/rattle"
WORD = re.compile(r"[^\s(){}\[\].,;\\λ→×≡⊎≤<=:∷«»\"|]+")
COMMENT = re.compile(r"(?:^|(?<=\s))(?:--(?=\s)|//).*")
SIGNATURE = re.compile(r"^ *(?:(?:abbrev|pub|unfoldable|private) )*([A-Za-z_][^\s:]*) :(?: (.*))?$")
MADE = re.compile(r"^(goal|need)\.")


def files(*ends):
    for folder, dirs, names in os.walk(CRATES):
        dirs[:] = sorted(d for d in dirs if d != "out")
        for name in sorted(names):
            if name.endswith(ends):
                yield os.path.join(folder, name)


def read(path):
    with open(path, encoding="utf-8", errors="replace") as f:
        return f.read()


def without_comments(line):
    return COMMENT.sub("", line)


def dashed(word):
    return "-" in word.strip("-") and word[0].isalpha()


def signatures(path):
    for line in read(path).splitlines():
        found = SIGNATURE.match(without_comments(line))
        if found and dashed(found.group(1)) and not MADE.match((found.group(2) or "").strip()):
            yield found.group(1)


def library():
    names = set()
    for folder, dirs, found in os.walk(LIBRARY):
        for name in found:
            if name.endswith(".antt"):
                names.update(signatures(os.path.join(folder, name)))
    return names


def is_shared(path):
    """Whether a file holds definitions or lemmas, and not the proof of one function."""
    return "/specs/" in path or re.search(r"/proofs/[^/]*\.antt$", path)


def own_names():
    own, used, outside = set(), set(), set()
    inside = "|".join(sorted(os.listdir(CRATES)))
    for path in files(".antt"):
        own.update(signatures(path))
        for line in read(path).splitlines():
            line = without_comments(line)
            if is_shared(path) and not re.match(r"^(use|mod|pub mod|ghost use) ", line):
                used.update(w for w in WORD.findall(line) if dashed(w))
            brought = re.match(r"^use (?!Rattle\.(?:%s)\.)\S*?\{(.*)\}" % inside, line)
            if brought:
                outside.update(w.strip().split(" as ")[0] for w in brought.group(1).split(","))
    return (own | (used - library())) - outside


def spelled(name):
    if name == "written-out-stands":
        return "written_out_stands_lem"  # a lemma that would have its function's name
    if name[0].isupper():
        parts = name.split("-")
        return "".join(p[0].upper() + p[1:] for p in parts)
    return name.replace("-", "_")


def main():
    table = {n: spelled(n) for n in own_names()}
    if "--list" in sys.argv:
        for n in sorted(table):
            print(n, table[n])
        return 0
    present = set()
    for path in files(".antt"):
        for line in read(path).splitlines():
            present.update(WORD.findall(without_comments(line)))
    met = {}
    for n in table:
        met.setdefault(table[n], []).append(n)
    # A field or a definition that has the name of what it shows of src/ is not one name with it.
    shown = {"clear_enabled", "roll_over", "one_low", "one_high", "temperature_low", "temperature_high", "spare_log", "spare_journal", "check_values"}
    fallen = [n for n in table if table[n] in present - shown] + [ns for ns in met.values() if len(ns) > 1]
    if fallen:
        print("these would fall together:", fallen)
        return 1
    for path in files(".antt", ".rt", ".edit"):
        text = read(path)
        lines = []
        for line in text.split("\n"):
            code = without_comments(line)
            lines.append(WORD.sub(lambda m: table.get(m.group(0), m.group(0)), code) + line[len(code):])
        new = "\n".join(lines)
        if new != text:
            with open(path, "w", encoding="utf-8") as f:
                f.write(new)
    print(len(table), "names respelled")
    return 0


if __name__ == "__main__":
    raise SystemExit(main())
