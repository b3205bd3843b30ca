#!/usr/bin/env python3
"""Brings the repository's own definitions and lemmas to today's spelling: words in snake case, types in camel case.

usage: tools/respell.py [--dry]        at the top of a checkout, once, after port.py

A name of antt is cut at its dashes. A part that is in camel case and begins with a small letter (`wordsOf`) is written
in snake case (`words_of`), in specs/, in proofs/, in the clauses and comments of src/, in the must-fail edits and in
the pages. Functions of src/, exported names, strings, inputs and outputs are in snake case as they are. CLASH below
gives another name to each of those that would fall together with a name that stands there already.
"""
import os
import re
import sys

# Names whose snake case is taken where they are used: old name, new name.
CLASH = {"row_words": "row_words_lem", "told_at": "told_at_lem"}

# Names of the library, or of things outside Rattle, that keep their spelling.
KEEP = {"kB"}

NAME = re.compile(r"(?<![A-Za-z0-9_'])[A-Za-z_][A-Za-z0-9_]*(?:['′]+)?(?:-[A-Za-z0-9_]+['′]*)*")
CAMEL = re.compile(r"^[a-z][a-z0-9]*(?:[A-Z][a-z0-9]*)+['′]*$")


def snake(word):
    return re.sub(r"(?<!^)([A-Z])", lambda m: "_" + m.group(1).lower(), word)


def turned(name):
    if name in KEEP:
        return name
    if name in CLASH:
        return CLASH[name]
    parts = name.split("-")
    return "-".join(CLASH.get(p) or (snake(p) if CAMEL.match(p) and p not in KEEP else p) for p in parts)


def files(top, ends):
    for folder, dirs, names in os.walk(top):
        dirs[:] = sorted(d for d in dirs if d not in ("out", ".git", "target"))
        for n in sorted(names):
            if n.endswith(ends):
                yield os.path.join(folder, n)


def read(path):
    with open(path, encoding="utf-8") as f:
        return f.read()


def main(argv):
    dry = "--dry" in argv
    antt = list(files("crates", (".antt",)))
    rt = list(files("crates", (".rt",)))
    edits = list(files("crates", (".edit",)))
    pages = [p for p in ["README.md", "host/README.md", "include/charkhavo.h"] if os.path.exists(p)] + list(files("docs", (".md",)))
    known = set()
    for p in antt:
        for name in NAME.findall(read(p)):
            if turned(name) != name:
                known.add(name)
    new_of = {n: turned(n) for n in known}
    clashes = {}
    for p in antt + rt:
        text = read(p)
        here = set(NAME.findall(text))
        for name in here & known:
            if new_of[name] in here:
                clashes.setdefault((name, new_of[name]), []).append(p)
    back = {}
    for o, n in new_of.items():
        back.setdefault(n, []).append(o)
    for n, olds in sorted(back.items()):
        if len(olds) > 1:
            print("together:", n, olds)
    for (o, n), where in sorted(clashes.items()):
        print("clash:", o, n, len(where), where[:3])
    print(len(known), "names")
    if dry:
        return 0
    changed = 0
    for p in antt + rt + edits + pages:
        text = read(p)
        def each(m):
            name = m.group(0)
            if name in new_of:
                return new_of[name]
            return turned(name) if not p.endswith(".rt") else name

        new = NAME.sub(each, text)
        if new != text:
            changed += 1
            with open(p, "w", encoding="utf-8") as f:
                f.write(new)
    print(changed, "files")
    return 0


if __name__ == "__main__":
    raise SystemExit(main(sys.argv[1:]))
