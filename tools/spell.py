#!/usr/bin/env python3
"""Brings this repository's own names to snake case: placesInUse becomes places_in_use, getD-half becomes get_or-half.

usage: python3 tools/spell.py            at the top of the repository, once, after port.py
       python3 tools/spell.py --fields   its second half alone: the dashes of records' fields
       python3 tools/spell.py --pages    the names in the pages of docs/, README.md, and the must-fail edits

A field of a record has underscores for dashes, unless the name that it would get stands for another thing. Any other name is turned if it begins with a small letter and a part of it has a capital behind a small letter or a digit. Types, modules and constructors
begin with a capital and stay. Names in src/ outside clauses have none such, so what the code does is not touched.
Where a turned name stands already for another thing, that one is renamed first (FIRST). A Rust function and the definition that its contract cites may
share a name, as `placesInUse` and `places_in_use` then do. The file filter/specs/Contracts.antt becomes Promises.antt, since the kit makes a module of that name.
"""

import os
import re
import sys

WHOLE = re.compile(r"[^\W\d][\w'₀-₉]*(?:-[\w']+)*")
RECORD = re.compile(r"(?m)^(?:pub )?record [^\n]*\n((?:[ \t]+[^\n]*\n|\n)*)")
FIELD = re.compile(r"(?m)^\s+(?:pub )?([^\W\d][\w']*(?:-[\w']+)+)\s*:")
NAME = re.compile(r"(?<![\w'-])[a-z][\w']*(?:-[\w']+)*")
# xxHash is the name of a library that the pages speak of
PARTS = {"getD": "get_or", "xxHash": "xxHash"}
# folder, a name that stands in the way, its new name
FIRST = [("crates/keeps", "in_use", "places_in_use-tables")]
MOVED = [("crates/filter/specs/Contracts.antt", "crates/filter/specs/Promises.antt", "crates/filter", "Contracts", "Promises")]


def part(p):
    if p in PARTS:
        return PARTS[p]
    if not p[:1].islower():
        return p
    return re.sub(r"(?<=[a-z0-9])[A-Z]", lambda m: "_" + m[0].lower(), p)


def turned(name):
    return "-".join(part(p) for p in name.split("-"))


def files(endings, *roots):
    for root in roots:
        if os.path.isfile(root):
            yield root
        for folder, dirs, names in os.walk(root):
            dirs[:] = sorted(d for d in dirs if d != "out")
            yield from (os.path.join(folder, n) for n in sorted(names) if n.endswith(endings))


def word(name):
    return re.compile(r"(?<![\w'-])" + re.escape(name) + r"(?![\w'-])")


def fields():
    """The fields of records that have a dash, and whose name with underscores is free."""
    found, taken = set(), set()
    for path in files((".antt", ".rt"), "crates"):
        with open(path, encoding="utf-8") as f:
            text = re.sub(r"--.*|//.*", "", f.read())
        taken.update(WHOLE.findall(text))
        if path.endswith(".antt"):
            for block in RECORD.findall(text):
                found.update(FIELD.findall(block))
    return sorted(name for name in found if name.replace("-", "_") not in taken)


def turn_fields():
    names = fields()
    each = re.compile(r"(?<![\w'-])(?:" + "|".join(map(re.escape, names)) + r")(?![\w'-])") if names else None
    count = 0
    for path in files((".antt", ".rt", ".md"), "crates", "docs"):
        with open(path, encoding="utf-8") as f:
            text = f.read()
        new = each.sub(lambda m: m[0].replace("-", "_"), text) if each else text
        if new != text:
            count += 1
            with open(path, "w", encoding="utf-8") as f:
                f.write(new)
    print(f"{len(names)} fields in {count} files")


def main(argv):
    pages = "--pages" in argv
    if "--fields" in argv:
        turn_fields()
        return 0
    if not pages:
        for old, new, _, _, _ in MOVED:
            if os.path.exists(old):
                os.rename(old, new)
    paths = list(files((".md", ".edit"), "docs", "README.md", "crates") if pages else files((".antt", ".rt"), "crates"))
    count = 0
    for path in paths:
        with open(path, encoding="utf-8") as f:
            text = f.read()
        new = text
        if not pages:
            for folder, old, to in FIRST:
                if path.startswith(folder + "/"):
                    new = word(old).sub(to, new)
            for _, _, folder, old, to in MOVED:
                new = re.sub(r"(Rattle\.filter\.specs\.)" + old + r"\b", r"\1" + to, new)
                if path.startswith(folder + "/specs/"):
                    new = re.sub(r"(?m)^(pub mod )" + old + "$", r"\1" + to, new)
        new = NAME.sub(lambda m: turned(m[0]), new)
        if new != text:
            count += 1
            with open(path, "w", encoding="utf-8") as f:
                f.write(new)
    print(f"{count} files changed")
    if not pages:
        turn_fields()
    return 0


if __name__ == "__main__":
    sys.exit(main(sys.argv[1:]))
