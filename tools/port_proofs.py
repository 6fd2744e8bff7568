#!/usr/bin/env python3
"""Turns a proof that hands its needs to `tie.spec` (proofs/F/Proof.antt) into Invariants.antt and Answers.antt.

usage: python3 tools/port_proofs.py NAMES CRATE [FUNCTION..]     NAMES: the folder that `rt names` wrote

What it turns is text: names of steps, goals and places, by the list of `rt names`. Answers that the search finds by
itself go. rt check says what is left by hand. The old file stays beside as Proof.antt.old, which is not committed.
"""
import json
import os
import re
import sys

ID = r"[^\s.,;:(){}\[\]λ→×≡≤<+*/∷∙⊎=]+"


def norm(s):
    s = re.sub(r"^(overflow|nonzero)[-_]", "", s)
    return s.replace("_", "-")


def items(text):
    """Top-level declarations: each with the comments above it."""
    out, cur = [], []
    for line in text.split("\n"):
        if line.strip() == "":
            if cur:
                cur.append("")
            continue
        start = not line.startswith((" ", "\t"))
        if start and cur and cur[-1] == "":
            out.append(cur)
            cur = []
        cur.append(line)
    if cur:
        out.append(cur)
    return ["\n".join(c).rstrip("\n") for c in out]


class Turn:
    def __init__(self, names):
        self.n = names
        self.needs = {}
        for old, new in names["needs"]:
            self.needs[norm(old)] = new
        self.places = {}
        self.steps = {}
        self.sub = {}
        for row, new in zip(names["places"], names["places_by_name"]):
            place, parent, (old, field), callee, subs = row
            self.places[norm(place)] = new
            if old:
                self.steps.setdefault(norm(old), field)
                for a, b in subs:
                    self.sub[(norm(old), norm(a))] = b
        self.arms = []
        for arm in names["arms"]:
            if arm:
                step, _, fields = arm
                for field, old, path in fields:
                    if path:
                        self.arms.append((norm(old), path, step, field))
        self.loops = names["loops"]
        self.changed = names["changed"]
        self.said = []

    def path(self, m):
        befores, rest = m.group(1), m.group(2)
        parts = rest[1:].split(".")
        step = norm(parts[0])
        for old, path, new, field in self.arms:
            if old == step and parts[1:1 + len(path)] == path:
                return "." + new + "." + field + "".join("." + p for p in parts[1 + len(path):])
        if step in self.steps:
            parts[0] = self.steps[step]
            if len(parts) > 1 and (step, norm(parts[1])) in self.sub:
                parts[1] = self.sub[(step, norm(parts[1]))]
            return "." + ".".join(parts)
        if parts[0] in ("args", "requires", "ranges", "well_formed", "lifetimes", "pre"):
            if parts[0] == "pre":
                parts[0] = "requires"
            return "." + ".".join(parts)
        return befores + rest

    def text(self, t):
        t = re.sub(r"((?:\.before)*)((?:\.(?!before\b)[\w'₀-]+)+)", self.path, t)

        def place(m):
            key = norm(m.group(1))
            if key in self.places:
                self.used.add(self.places[key])
                return self.places[key]
            self.said.append("no place " + m.group(1))
            return m.group(0)

        t = re.sub(r"tie\.([A-Z][\w-]*)", place, t)
        return t


def loop_names(loops, word):
    """Old 'invariant-loop', 'decreases-loop-2' to new, by the order of the loops."""
    out = {}
    for (old, new), vs in loops:
        out[norm(word + "-" + old)] = (word + "-" + new, vs, new)
    return out


def prune(uses, body):
    out = []
    for line in uses:
        m = re.match(r"use ([^{]*)\.\{(.*)\}$", line)
        if not m:
            out.append(line)
            continue
        keep = []
        for n in [x.strip() for x in m.group(2).split(",")]:
            bare = n.split(" as ")[-1]
            if "◌" in bare:
                sym = [p for p in bare.split("◌") if p]
                ok = all(s in body for s in sym)
            else:
                ok = re.search(r"(?<![\w.'-])" + re.escape(bare) + r"(?![\w'-])", body) is not None
            if ok:
                keep.append(n)
        if keep:
            out.append("use " + m.group(1) + ".{" + ", ".join(keep) + "}")
    return out


PLACE = r"tie\.((?!Need)[A-Z][\w'-]*)"


def aliased(t, names, body):
    """Words for an earlier place: `start c` and `let w = c.before in` become `c`; a lemma at an earlier place gets `(goal.at.GOAL c).PLACE`."""
    asked = {new: at[1] for (old, new), at in zip(names["needs"], names["asked_at"])}
    parts = items(body)
    ups, at, inline = set(), {}, {}
    seen = {norm(p) for p in asked.values()}
    kept = []
    for it in parts:
        plain = re.sub(r"^--.*\n", "", it, flags=re.M)
        m = re.match(r"(?:abbrev )?(?:pub )?([\w'-]+) : (?:\([\w']+ : " + PLACE + r"\)|" + PLACE + r") (?:→ )?(.*)", plain, re.S)
        if m:
            place = m.group(2) or m.group(3)
            if re.match(PLACE + r"\n", m.group(4)):
                ups.add(m.group(1))
                continue
            new = t.places.get(norm(place), place)
            short = re.match(r"abbrev [^\n]*\n" + re.escape(m.group(1)) + r" ([\w']+) = ([^\n]*)$", plain.strip("\n"))
            if short and norm(new) not in seen:
                inline[m.group(1)] = short.groups()
                continue
            at[m.group(1)] = new
        kept.append(it)
    out = []
    for it in kept:
        m = re.search(r"^(?:abbrev )?(?:pub )?([\w'-]+) : tie\.Need-([\w'-]+)", it, re.M)
        name = context = here = None
        if m and norm(m.group(2)) in t.needs:
            name, context = m.group(1), t.needs[norm(m.group(2))]
            here = asked[context]
        else:
            m = re.search(r"^(?:abbrev )?(?:pub )?([\w'-]+) : (?:\([\w']+ : " + PLACE + r"\)|" + PLACE + r") (?:→|\()", it, re.M)
            if m and m.group(1) in at:
                name, context = m.group(1), at[m.group(1)]
                here = context
        if not name:
            out.append(it)
            continue
        m = re.search(r"^" + re.escape(name) + r" ([\w']+)", it, re.M)
        if not m:
            out.append(it)
            continue
        var = m.group(1)
        roots = {var}
        m = re.search(r"\(([\w']+) : " + PLACE + r"\)", it)
        if m:
            roots.add(m.group(1))
        for _ in range(12):
            before = it
            root = r"((?:" + "|".join(re.escape(r) for r in sorted(roots)) + r")(?:\.before)*)(?![\w'.-])"
            for up in ups:
                it = re.sub(r"\(" + re.escape(up) + r" " + root + r"\)", r"\1", it)
                it = re.sub(r"(?<![\w.'-])" + re.escape(up) + r" " + root, r"\1", it)
            for word, (param, term) in inline.items():

                def put(m):
                    got = re.sub(r"(?<![\w.'-])" + re.escape(param) + r"(?![\w'-])(?! = [^≡])", lambda k: m.group(1), term)
                    return got if re.match(r"[\w.']+$", got) else "(" + got + ")"

                it = re.sub(r"\(" + re.escape(word) + r" " + root + r"\)", put, it)
                it = re.sub(r"(?<![\w.'-])" + re.escape(word) + r" " + root, put, it)
            m = re.search(r"let ([\w']+) = " + root + r" in[ \n]", it)
            if m:
                a, b = m.span()
                alias, target = m.group(1), m.group(2)
                head, tail = it[:a], it[b:]
                if it[b - 1] == "\n" and re.search(r"\n *$", head):
                    head = re.sub(r"\n *$", "\n", head)
                    it = head + re.sub(r"(?<![\w.'-])" + re.escape(alias) + r"(?![\w'-])(?! = [^≡])", lambda k: target, tail)
                else:
                    it = head + re.sub(r"(?<![\w.'-])" + re.escape(alias) + r"(?![\w'-])(?! = [^≡])", lambda k: target, tail).lstrip(" ")
            if it == before:
                break
        root = r"(" + "|".join(re.escape(r) for r in sorted(roots)) + r")(?:\.before)*(?![\w'.-])"
        for h, place in at.items():
            if h == name:
                continue

            def call(m):
                if place == here:
                    return h + " " + m.group(1)
                return h + " (goal.at." + context + " " + m.group(1) + ")." + place

            it = re.sub(r"(?<![\w.'-])" + re.escape(h) + r" " + root, call, it)
        out.append(it)
    return "\n\n".join(out)


def convert(path, module, names):
    with open(path, encoding="utf-8") as f:
        text = f.read()
    t = Turn(names)
    t.used = set()
    lines = text.split("\n")
    head, uses, i = [], [], 0
    while i < len(lines) and (lines[i].startswith("--") or lines[i].startswith("use ") or lines[i].strip() == ""):
        if lines[i].startswith("use "):
            if not re.search(r"\.(Statement\.\{statement\}|Tie as tie)$", lines[i]):
                uses.append(lines[i])
        elif lines[i].startswith("--"):
            if uses:
                break
            head.append(lines[i])
        i += 1
    body = "\n".join(lines[i:])
    handed = r"(?: (?:invariant|decreases)-loop[\w-]*)+"
    body = re.sub(r"(tie\.[A-Z][\w'-]*)" + handed, r"\1", body)
    body = aliased(t, names, body)
    invs, answers = [], []
    inv = loop_names(t.loops, "invariant")
    dec = loop_names(t.loops, "decreases")
    changed = {new: ch for ((old, new), vs), ch in zip(t.loops, t.changed)}
    renames = {}
    for it in items(body):
        m = re.search(r"^pub ([\w-]+)[-_]spec : ", it, re.M)
        if m and "statement" in it:
            continue
        m = re.search(r"^(?:abbrev )?(?:pub )?([\w'-]+) : tie\.(invariant|decreases)-loop", it, re.M)
        if m:
            key = norm(m.group(1))
            table = inv if key.startswith("invariant") else dec
            if key not in table:
                t.said.append("no loop " + m.group(1))
                invs.append("-- ?? " + it)
                continue
            new, vs, loop = table[key]
            comment = [l for l in it.split("\n") if l.startswith("--")]
            eqn = re.search(r"^" + re.escape(m.group(1)) + r" (.*?)=(.*)$", it, re.M | re.S)
            params = eqn.group(1).split()
            rest = eqn.group(2)
            terms = ["l.initial." + v if c else "l." + v for v, c in zip(vs, changed[loop])] + ["l." + v for v, c in zip(vs, changed[loop]) if c]
            if len(params) != len(terms):
                t.said.append(f"{m.group(1)}: {len(params)} parameters, {len(terms)} variables: {vs} {changed[loop]}")
            mp = {p: e for p, e in zip(params, terms) if p != "_"}
            rest = re.sub(r"(?<![\w.'₀-])([\w'₀-]+)(?![\w'₀-])(?! = [^≡])", lambda k: mp.get(k.group(1), k.group(1)), rest)
            invs.append("\n".join(comment + [f"abbrev pub {new} : goal.{new}", f"{new} l ={rest}"]))
            continue
        m = re.search(r"^(?:abbrev )?(?:pub )?([\w'-]+) : tie\.Need-([\w'-]+)", it, re.M)
        if m:
            old, need = m.group(1), norm(m.group(2))
            if need not in t.needs:
                t.said.append("no goal for " + m.group(2))
                continue
            new = t.needs[need]
            renames[old] = new
            it = re.sub(r"^((?:abbrev )?)(?:pub )?" + re.escape(old) + r" : tie\.Need-[\w'-]+", lambda k: "pub \0" + new + " : goal." + new, it, flags=re.M)
            it = re.sub(r"^" + re.escape(old) + r"(?= )", lambda k: "\0" + new, it, flags=re.M)
            it = re.sub(r"^(\0" + re.escape(new) + r" c) κs(?= )", r"\1", it, flags=re.M)
            plain = re.sub(r"^--.*\n", "", it, flags=re.M)
            last = re.sub(r"\s+", " ", plain)
            if re.search(r" c = (search rules|omega arith)$", last) and "unfolding" not in it:
                continue
            answers.append(t.text(it))
            continue
        answers.append(t.text(it))
    answers = [re.sub(r"(?<![\w.'\0-])([\w'-]+)(?= c\b)", lambda k: renames.get(k.group(1), k.group(1)), a).replace("\0", "") for a in answers]
    folder = os.path.dirname(path)
    written = []
    local = [re.search(r"^(?:record |abbrev |unfoldable |pub )*([\w'-]+)", re.sub(r"^--.*\n", "", a)) for a in answers]
    if invs:
        # what an invariant cites goes with it
        moved, more = [], True
        while more:
            more = False
            for a, m in list(zip(answers, local)):
                if m and a not in moved and " : goal." not in a and any(re.search(r"(?<![\w.'-])" + re.escape(m.group(1)) + r"(?![\w'-])", x) for x in invs + moved):
                    moved.append(a)
                    more = True
        kept = [a for a in answers if a not in moved]
        pubs = []
        for a in [a for a in answers if a in moved]:
            a = re.sub(r"^(record|abbrev|unfoldable) (?!pub)", r"\1 pub ", a, flags=re.M) if re.search(r"^(abbrev|unfoldable) ", a, re.M) else re.sub(r"^(?=record )", "pub ", a, flags=re.M)
            if a.startswith("pub record") or "\npub record" in a:
                a = re.sub(r"^  (?!pub )(?=[\w'-]+ :)", "  pub ", a, flags=re.M)
            pubs.append(a)
        names_moved = [re.search(r"^(?:record |abbrev |unfoldable |pub )*([\w'-]+)", re.sub(r"^--.*\n", "", a)).group(1) for a in pubs]
        b = "\n\n".join(pubs + invs)
        file = head + prune(uses, b) + [f"use {module}.Given as goal", "", b, ""]
        with open(os.path.join(folder, "Invariants.antt"), "w", encoding="utf-8") as f:
            f.write("\n".join(file))
        written.append("Invariants")
        answers = kept
        if names_moved:
            uses = uses + [f"use {module}.Invariants." + "{" + ", ".join(names_moved) + "}"]
    has = any(" : goal." in a for a in answers)
    if has:
        b = "\n\n".join(answers)
        file = ([] if invs else head) + prune(uses, b) + [f"use {module}.Goals as goal"]
        if t.used:
            used = [u for u in sorted(t.used) if re.search(r"(?<![\w.'-])" + re.escape(u) + r"(?![\w'-])", b)]
            if used:
                file.append(f"use {module}.Goals." + "{" + ", ".join(used) + "}")
        with open(os.path.join(folder, "Answers.antt"), "w", encoding="utf-8") as f:
            f.write("\n".join(file + ["", b, ""]))
        written.append("Answers")
    os.rename(path, path + ".old")
    return written, t.said


def main(argv):
    names = argv[0]
    crate = argv[1]
    with open(os.path.join(names, "crates", crate, "names.json"), encoding="utf-8") as f:
        table = json.load(f)
    root = os.path.join("crates", crate, "proofs")
    for folder, dirs, files in sorted(os.walk(root)):
        if "Proof.antt" not in files:
            continue
        path = os.path.join(folder, "Proof.antt")
        with open(path, encoding="utf-8") as f:
            if "Tie as tie" not in f.read():
                print("by hand:", path)
                continue
        rel = os.path.relpath(folder, root)
        if argv[2:] and rel not in argv[2:]:
            continue
        dotted = rel.replace(os.sep, ".")
        key = f"Rattle-{crate}-proofs.{dotted}.Lts"
        if key not in table:
            print("no names:", key)
            continue
        written, said = convert(path, f"Rattle.{crate}.proofs.{dotted}", table[key])
        print(rel, *written, *(["| " + "; ".join(said)] if said else []))
    return 0


if __name__ == "__main__":
    raise SystemExit(main(sys.argv[1:]))
