#!/usr/bin/env python3
"""Brings the repository's own definitions, lemmas, fields and constructors to snake case, once, after port.py.

usage: python3 tools/port_names.py            at the top of the repository
       python3 tools/port_names.py --list     prints the names and what they become, and changes nothing

Types, modules, functions of src/, constants and exported names keep their names.
"""
import os
import re
import sys

NAME = r"[A-Za-z_ℕ₀-₉][\w'ℕ₀-₉-]*"
DEFINED = re.compile(r"^(?:  )?(?:abbrev |unfoldable |pub )*(" + NAME + r")(?: :| \()")
CONSTRUCTOR = re.compile(r"^  (?:pub )?(" + NAME + r") :")
TOKEN = re.compile(r"(?<![\w'ℕ-])[A-Za-z_][\w'ℕ-]*")
# a lemma whose name would fall together with a field's
OTHER = {"at_source": "chain-at_source"}


def files(root, ends):
    for folder, dirs, names in os.walk(os.path.join(root, "crates")):
        dirs[:] = sorted(d for d in dirs if d not in ("out", "must-fail"))
        for name in sorted(names):
            if name.endswith(ends):
                yield os.path.join(folder, name)


def snake(word):
    """Each part between dashes that starts in lower case; `T` and other types keep their spelling."""

    def part(p):
        if not p or not (p[0].islower()) or p.upper() == p:
            return p
        p = re.sub(r"(?<=[a-z0-9])(?=[A-Z])", "_", p)
        return p.lower() if "_" in p else p

    return "-".join(part(p) for p in word.split("-"))


def mapping(root):
    found = {}
    for path in files(root, ".antt"):
        parts = path.split(os.sep)
        with open(path, encoding="utf-8") as f:
            for line in f:
                m = DEFINED.match(line)
                if m and m.group(1)[0].islower():
                    old = m.group(1)
                    new = OTHER.get(old, snake(old))
                    if new != old:
                        found[old] = new
    return found


def turn(text, names):
    return TOKEN.sub(lambda m: names.get(m.group(0), m.group(0)), text)


def main(argv):
    names = mapping(".")
    if argv == ["--list"]:
        for old in sorted(names):
            print(old, names[old])
        return 0
    for path in files(".", (".antt", ".rt")):
        with open(path, encoding="utf-8") as f:
            text = f.read()
        new = turn(text, names)
        if new != text:
            with open(path, "w", encoding="utf-8") as f:
                f.write(new)
    return 0


if __name__ == "__main__":
    raise SystemExit(main(sys.argv[1:]))
