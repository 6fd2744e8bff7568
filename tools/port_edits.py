#!/usr/bin/env python3
"""Brings the must-fail edits to today's text, once, after port.py and port_names.py.

usage: python3 tools/port_edits.py OLD          OLD: a checkout of the repository from before the port
       python3 tools/port_edits.py OLD --check  changes nothing; lists the edits that do not fit today's files

Each edit keeps its name and its wrong meaning. One that does not fit after the turning is listed and left as it was:
it is brought over by hand.
"""
import itertools
import os
import re
import sys

from port_names import files, mapping, turn

NAME = r"[A-Za-z_ℕ][\w'′]*"
WORDS = {"getD": ["get_or", "slice_index_or", "slice_index"], "r": ["result", "r"], "entry": ["old", "now", "entry"]}
DEFINITION = re.compile(r"^(?:pub )?(?:const )?fn (\w+)|^    (?:pub )?fn (\w+)|^(?:abbrev |unfoldable |pub )+([\w'′-]+)|^([\w'′-]+) .*=")


def read(path):
    with open(path, encoding="utf-8") as f:
        return f.read()


def parts(text):
    """What an edit names: a file, an old text and a new one each."""
    file, triples = "", []
    for line in text.split("\n"):
        if line.startswith("file: "):
            file = line[6:]
        elif line.startswith("old: "):
            old = line[5:]
        elif line.startswith("new: "):
            triples.append((file, old, line[5:]))
    return triples


def tight(text):
    """Projections are written tight: `(x .f)` is x.f."""
    while True:
        new = re.sub(r"(?<=[\w)]) \.([a-z0-9]\w*)", r".\1", text)
        new = re.sub(r"\((" + NAME + r"(?:\.[a-z0-9]\w*)+)\)", r"\1", new)
        if new == text:
            return text
        text = new


def spellings(text, both, names, is_clause):
    """What a text may have become: the words that depend on their place give several, in one order for both texts."""
    text = re.sub(r"Rattle·(\w+?)(?:·specs)?\.specs\.", r"Rattle.\1.specs.", text)
    text = turn(text, names).replace("′", "'")
    ways = [w for w in ("getD", "entry", "r") if re.search(r"\b" + w + r"\b", both) and (is_clause or w == "getD")]
    for choice in itertools.product(*(WORDS[w] for w in ways)):
        said = text
        for word, new in zip(ways, choice):
            said = re.sub(r"\b" + word + r"\b", new, said)
        if is_clause:
            said = said.replace("⌜ ", "").replace(" ⌝ }", " }").replace(" ⌝", " }").replace("λ result. ", "").replace(" .exit", " .new")
            said = tight(said)
            said = re.sub(r"\bnow \((" + NAME + r"\.(?:old|new|now))\)", r"\1", said)
            said = re.sub(r"\bnow (" + NAME + r"(?:\.(?:old|new|now)))", r"\1", said)
        yield tight(re.sub(r"\bnow (" + NAME + r")(?!\.)", r"\1.now", said))
    yield text


def definition(text, place):
    """The name of the definition or function that a place stands in."""
    found = ""
    for line in text[: text.index("\n", place) if "\n" in text[place:] else None].split("\n"):
        m = DEFINITION.match(line)
        if m:
            found = next(x for x in m.groups() if x)
    return found


def pieces(text):
    return re.findall(r"[\w.]+|\s+|.", text)


def shared(a, b):
    return len(os.path.commonprefix([a, b]))


def turned(old, new, today, names, is_clause):
    """The pair in today's words, or None. Where a text was split over lines, what both sides share at the ends goes."""
    found = []
    both = old + " " + new
    for o, n in zip(*(spellings(x, both, names, is_clause) for x in (old, new))):
        a, b = pieces(o), pieces(n)
        front = shared(a, b)
        back = min(shared(a[::-1], b[::-1]), len(a) - front, len(b) - front)
        for i, j in itertools.product(range(front + 1), range(back + 1)):
            o, n = "".join(a[i : len(a) - j]), "".join(b[i : len(b) - j])
            if o.strip() == o != "" and today.count(o) == 1:
                found.append((i + j, o, n))
    return min(found, key=lambda x: x[0])[1:] if found else None


def ported(triples, folder_before, folder, names):
    """The edit for today's files, or None."""
    found, was, now = [], {}, {}
    for file, old, new in triples:
        if file not in now:
            was[file], now[file] = read(f"{folder_before}/{file}"), read(f"{folder}/{file}")
        here = was[file].find(old)
        line = was[file][was[file].rfind("\n", 0, here) + 1 :].split("\n")[0]
        is_code = file.endswith(".rt") and "⌜" not in line and "ghost" not in line
        pair = (old, new) if is_code else turned(old, new, now[file], names, file.endswith(".rt"))
        if pair is None or here < 0 or now[file].count(pair[0]) != 1:
            return None
        if turn(definition(was[file], here), names) != definition(now[file], now[file].find(pair[0])):
            return None
        was[file], now[file] = was[file].replace(old, new), now[file].replace(*pair)
        found.append((file, *pair))
    return found


def written(triples):
    lines, last = [], ""
    for file, old, new in triples:
        lines += ([] if file == last else [f"file: {file}"]) + [f"old: {old}", f"new: {new}"]
        last = file
    return "\n".join(lines) + "\n"


def words(text):
    return set(re.findall(r"(?<![\w'])[^\W\d][\w'-]*", text))


def misfits(triples, folder, known):
    """Why an edit can't be applied to today's files, or a word of it that no file has, or nothing."""
    now = {}
    for file, old, new in triples:
        text = now.setdefault(file, read(f"{folder}/{file}"))
        if text.count(old) != 1:
            return f"in {file} {text.count(old)} times: {old}"
        now[file] = text.replace(old, new)
        if words(new) - known:
            return f"unknown: {' '.join(sorted(words(new) - known))}"
    if not any(text != read(f"{folder}/{file}") for file, text in now.items()):
        return "changes nothing"
    return ""


def edits(root):
    for crate in sorted(os.listdir(os.path.join(root, "crates"))):
        folder = os.path.join(root, "crates", crate, "must-fail")
        if os.path.isdir(folder):
            for name in sorted(os.listdir(folder)):
                if name.endswith(".edit"):
                    yield crate, name


def main(argv):
    before, only_check = argv[0], argv[1:] == ["--check"]
    names = mapping(before)
    known = set().union(*(words(read(path)) for path in files(".", (".rt", ".antt"))))
    left = [f"{c} {n}: gone" for c, n in edits(before) if not os.path.exists(f"crates/{c}/must-fail/{n}")]
    for crate, name in edits("."):
        path, folder = f"crates/{crate}/must-fail/{name}", f"crates/{crate}"
        if not only_check:
            found = ported(parts(read(f"{before}/{path}")), f"{before}/{folder}", folder, names)
            if found:
                with open(path, "w", encoding="utf-8") as f:
                    f.write(written(found))
        why = misfits(parts(read(path)), folder, known)
        if why:
            left.append(f"{crate} {name}: {why}")
    print("\n".join(left + [f"{len(left)} left"]))
    return 1 if left else 0


if __name__ == "__main__":
    raise SystemExit(main(sys.argv[1:]))
