#!/usr/bin/env python3
"""Brings this repository's own definitions and lemmas to one spelling: words in snake case, types and modules in camel case.

usage: python3 tools/respell.py        once, at the top, after the scripts of the toolchain's port

A definition that begins with a capital letter is a type, and gets camel case (Is-the-order: IsTheOrder); any other name gets
underscores (device-count: device_count). Names that the library declares, and names that Rattle makes from the code, stay as
they are. Functions, strings and comments of src/ stay too: there only ghost items and clauses are touched.
"""

import os
import re
import sys

NAME = r"[^\W\d_][\w']*(?:-[\w']+)+"
WORDS = r"(?:(?:abbrev|unfoldable|pub|record|data|let|in|module)\s+)*"
DECLARED = re.compile(rf"\s*{WORDS}({NAME})\s*(?:(?:\{{[^}}]*\}}|\([^)]*\))\s*)*:(?!=)\s*(.*)")
MADE = re.compile(r"(?:goal|need)\.")
CLAUSE = re.compile(r"\s*(?:pub )?(?:ghost|requires|ensures)\b")
TOKEN = re.compile(rf"{NAME}")
IMPORT = re.compile(r"use Rattle\.std\.[\w.+']*\{([^}]*)\}")


def files(ending):
    for folder, dirs, names in os.walk("crates"):
        dirs[:] = sorted(d for d in dirs if d != "out")
        for name in sorted(names):
            if name.endswith(ending):
                yield os.path.join(folder, name)


def code(line):
    """The line without its comment."""
    return line.split("--", 1)[0]


def respelled(name):
    parts = name.split("-")
    if name[0].isupper():
        return "".join(p[:1].upper() + p[1:] for p in parts)
    return "_".join(parts)


def own_names():
    own, library = set(), set()
    for path in files(".antt"):
        with open(path, encoding="utf-8") as f:
            for line in f:
                m = DECLARED.match(code(line))
                if m and not MADE.match(m[2]):
                    own.add(m[1])
                for m in IMPORT.finditer(code(line)):
                    library.update(w.strip().split(" as ")[0] for w in m[1].split(","))
    both = own & library
    if both:
        sys.exit(f"the library has these names too: {', '.join(sorted(both))}")
    return own


def outside_strings(text, turn):
    """Applies turn to what stands outside of strings."""
    parts = re.split(r'("(?:[^"\\]|\\.)*")', text)
    return "".join(p if i % 2 else turn(p) for i, p in enumerate(parts))


def main():
    own = own_names()
    new = {}
    for name in sorted(own):
        new.setdefault(respelled(name), []).append(name)
    for name, old in new.items():
        if len(old) > 1:
            sys.exit(f"{' and '.join(old)} would both be {name}")

    def turn(text):
        return TOKEN.sub(lambda m: respelled(m[0]) if m[0] in own else m[0], text)

    changed = 0
    for ending in (".antt", ".rt"):
        for path in files(ending):
            with open(path, encoding="utf-8") as f:
                before = f.read()
            lines = []
            for line in before.split("\n"):
                if ending == ".antt":
                    head, dash, tail = line.partition("--")
                    # a comment that names a definition names it as it is now: types alone, since other names read as plain words
                    tail = TOKEN.sub(lambda m: respelled(m[0]) if m[0] in own and m[0][0].isupper() else m[0], tail)
                    lines.append(outside_strings(head, turn) + dash + tail)
                elif CLAUSE.match(line):
                    lines.append(outside_strings(line, turn))
                else:
                    lines.append(line)
            after = "\n".join(lines)
            if after != before:
                with open(path, "w", encoding="utf-8") as f:
                    f.write(after)
                changed += 1
    print(f"respell: {len(own)} names, {changed} files")


if __name__ == "__main__":
    main()
