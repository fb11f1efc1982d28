#!/usr/bin/env python3
"""Respells this repository's own definitions and lemmas: words in snake case, types in upper camel case.

usage: python3 tools/respell.py [--list]     at the top of the repository, once, after the kit's port.py

The names are gathered from the definitions, fields and constructors of specs/ and proofs/. They are replaced in .antt files, in the clauses
and the comments of .rt files, and in must-fail edits; in a comment a name with a dash only where it stands in backticks. Names of functions,
types and constants of src/, exported names, strings and the labels of clauses stay, but for those labels that port.py made up. With --list it
writes what it would do, and nothing else.
"""
import collections
import glob
import os
import re
import sys

WORD = r"[^\s(){}\[\];:,.\"`⌜⌝@]+"
HEAD = re.compile(r"^((?:(?:abbrev|unfoldable|pub|record|data|ruleset)\s+)*)(" + WORD + r")((?:\s+\(.*?\))*)\s*:(?:\s+(.*))?$")
FIELD = re.compile(r"^\s+pub (" + WORD + r")\s*:\s")
CONSTRUCTOR = re.compile(r"^\s+((?:" + WORD + r"\s+)+):\s")
# Names that Rattle or its library gives, which look like ours.
NOT_OURS = {"goal", "tie", "arith", "rules"}
# A local name that would fall together with a definition used beside it, by the file where it stands.
LOCAL = {"crates/advance/proofs/Turning.antt": {"turns_at": "turned_here"}}
# Lemmas that port.py had given the name that a definition now gets, and a field that would have the name of a definition in its type.
OTHERWISE = {"by_number": "by_number_lem", "cut_inside": "cut_inside_lem", "kept_byte": "kept_byte_lem", "advance-steps": "advance_step_count"}
# Labels that port.py made of a clause's first fact, where a function has several clauses of a kind and had named none.
LABELS = {
    "slots_le_max_slots": "sizes", "i_lt_slots": "sizes", "i_lt_top": "sizes", "table_bound": "sizes", "k_bound": "sizes", "count_in_bounds": "sizes",
    "cell_lt_max_cells": "cell", "cell_size_in_bounds": "cell", "cell_size_in_bounds_2": "body", "from_le_cells": "passed", "table_value": "rule",
    "seen_len_bound": "blank", "ends_at": "stages", "vias_markable": "vias", "by_index": "pairs",
}
TYPES = {"allStopped": "AllStopped", "offsetWithin": "OffsetWithin", "placeWithin": "PlaceWithin", "wrOk": "WrOk"}


def snake(name):
    name = name.replace("getD", "get_or")
    name = re.sub(r"(?<=[a-z0-9₀-₉])(?=[A-Z])", "_", name)
    name = re.sub(r"(?<=[A-Z])(?=[A-Z][a-z])", "_", name)
    parts = name.replace("-", "_").split("_")
    return "_".join(p.lower() if not (i == 0 and p[:1].isupper()) else p for i, p in enumerate(parts)).replace("′", "'")


def respelled(name):
    if name in OTHERWISE:
        return OTHERWISE[name]
    if name in TYPES:
        return TYPES[name]
    if "◌" in name or "." in name or re.match(r"^[A-Z]\w*$", name):
        return name
    if re.search(r"[a-z0-9][A-Z]|-|′", name) and re.match(r"^[\w'′₀-₉-]+$", name):
        return snake(name)
    return name


def declared(path):
    """The names that an .antt file declares, with what each is: 'top', 'field' or 'constructor'."""
    found, inside, section = [], None, False
    with open(path, encoding="utf-8") as f:
        lines = f.read().split("\n")
    for l in lines:
        m = re.match(r"use .* as ([a-z]+(?:-[a-z]+)+)$", l)
        if m:
            found.append((m.group(1), "alias"))
        if l and not l.startswith((" ", "--")):
            m = HEAD.match(l)
            inside = None
            section = l.startswith("module ")
            if m:
                kind = m.group(1).split()
                if not ((m.group(4) or "").startswith("tie.") or m.group(2).endswith("-spec") and "proofs/" in path and path.endswith("Proof.antt")):
                    found.append((m.group(2), "top"))
                if "record" in kind:
                    inside = "record"
                elif "data" in kind:
                    inside = "data"
            elif re.match(r"^(pub )?(data|record) ", l):
                inside = "data" if "data " in l else "record"
        elif section:
            # definitions in a section with parameters of its own
            m = re.match(r"^(?:  )+((?:(?:abbrev|unfoldable|pub)\s+)*)(" + WORD + r")\s*:(?:\s+(.*))?$", l)
            if m and m.group(2) not in ("module", "where", "let", "in"):
                found.append((m.group(2), "top"))
        elif inside:
            m = FIELD.match(l)
            if inside == "record" and m:
                found.append((m.group(1), "field"))
            m = CONSTRUCTOR.match(l)
            if inside == "data" and m:
                found += [(n, "constructor") for n in m.group(1).split()]
    return found


def files(root, kinds):
    for kind in kinds:
        yield from sorted(glob.glob(os.path.join(root, "crates", "*", kind), recursive=True))


TOKEN = re.compile(r"[\w'′₀-₉]+(?:-[\w'′₀-₉]+)*")


def plain(text, names, dashes):
    """text with its tokens replaced; dashes says whether names with a dash are."""
    def put(m):
        t = m.group(0)
        if t in names and (dashes or "-" not in t):
            return names[t]
        return t
    return TOKEN.sub(put, text)


def comment(text, names):
    """A comment: names with a dash in backticks alone."""
    out = []
    for i, part in enumerate(text.split("`")):
        out.append(plain(part, names, i % 2 == 1))
    return "`".join(out)


def antt(text, names, local, by_hand, fields):
    out = []
    both = {**names, **local}
    for l in text.split("\n"):
        code, mark, rest = l, "", ""
        m = re.search(r"(^|\s)--(\s|-|$)", l)
        if m:
            code, rest = l[:m.start()], l[m.start():]
        if by_hand:
            # what stands behind a dot there is mostly a step or a goal that Rattle names
            def put(m):
                t = m.group(2)
                if m.group(1) and t not in fields:
                    return m.group(0)
                return m.group(1) + both.get(t, t)
            code = re.sub(r"(\.|)([\w'′₀-₉]+(?:-[\w'′₀-₉]+)*)", put, code)
        else:
            code = plain(code, both, True)
        out.append(code + comment(rest, names))
    return "\n".join(out)


def rt(text, names):
    out = []
    for l in text.split("\n"):
        m = re.search(r"(^|\s)//", l)
        code, rest = (l[:m.start()], l[m.start():]) if m else (l, "")
        parts = re.split(r'("(?:[^"\\]|\\.)*")', code)
        code = "".join(p if i % 2 else plain(p, names, True) for i, p in enumerate(parts))
        out.append(code + comment(rest, names))
    return "\n".join(out)


def edited(line):
    """A line of an edit of specs/: every name in it is the repository's own, and port.py turns no edit."""
    line = re.sub(r"(?<=[\w)]) \.(?=[a-z])", ".", line)
    line = re.sub(r"\((\w+(?:\.\w+)+)\)", r"\1", line)
    return line[:4] + TOKEN.sub(lambda m: snake(m.group(0)) if re.match(r"[a-z]", m.group(0)) else m.group(0), line[4:])


def main():
    root = os.path.dirname(os.path.dirname(os.path.abspath(__file__)))
    shared, local = {}, {}
    where = collections.defaultdict(set)
    for p in files(root, ["specs/*.antt", "proofs/*.antt"]):
        for n, kind in declared(p):
            where[n].add((os.path.relpath(p, root), kind))
            if n not in NOT_OURS and respelled(n) != n:
                shared[n] = respelled(n)
    for p in files(root, ["proofs/*/**/*.antt"]):
        local[p] = {n: respelled(n) for n, kind in declared(p) if n not in NOT_OURS and respelled(n) != n}
    # a lemma that would have the name of a definition
    to = collections.defaultdict(set)
    for n in where:
        to[shared.get(n, n)].add(n)
    for t, ns in to.items():
        for n in ns:
            if len(ns) > 1 and "-" in n and all(k != "field" for w, k in where[n]):
                shared[n] = t + "_lem"
    own = set(os.listdir(os.path.join(root, "crates")))
    fields = {n for n in where if any(k == "field" for w, k in where[n])}
    if "--list" in sys.argv:
        for n in sorted(shared):
            print(n, shared[n], *sorted({w for w, k in where[n]}))
        to = collections.defaultdict(set)
        for n in where:
            to[shared.get(n, n)].add(n)
        for t, ns in sorted(to.items()):
            if len(ns) > 1:
                print("TOGETHER", t, *[f"{n} ({', '.join(sorted(w for w, k in where[n]))})" for n in sorted(ns)])
        return
    for p in files(root, ["specs/*.antt", "proofs/*.antt", "proofs/*/**/*.antt"]):
        t = open(p, encoding="utf-8").read()
        # names that come from the library in this file stay
        foreign = set()
        for m in re.finditer(r"^use ([\w.]+)\.\{([^}]*)\}", t, re.M):
            if not (m.group(1).startswith("Rattle.") and m.group(1).split(".")[1] in own):
                foreign |= {n.strip() for n in m.group(2).split(",")}
        for n, to in LOCAL.get(os.path.relpath(p, root), {}).items():
            t = re.sub(r"(?<![\w'-])" + n + r"(?![\w'-])", to, t)
        new = antt(t, {n: to for n, to in shared.items() if n not in foreign}, local.get(p, {}), p.endswith("Proof.antt"), fields)
        open(p, "w", encoding="utf-8").write(new)
    for p in files(root, ["src/**/*.rt"]):
        t = open(p, encoding="utf-8").read()
        new = re.sub(r"(?m)^(\s+(?:requires|ensures) )(\w+)(?= \{)", lambda m: m.group(1) + LABELS.get(m.group(2), m.group(2)), rt(t, shared))
        if new != t:
            open(p, "w", encoding="utf-8").write(new)
    for p in files(root, ["must-fail/*.edit"]):
        t = open(p, encoding="utf-8").read()
        if re.search(r"(?m)^file: (specs|proofs)/", t):
            new = "\n".join(edited(l) if re.match(r"(old|new):", l) else l for l in t.split("\n"))
            if new != t:
                open(p, "w", encoding="utf-8").write(new)


if __name__ == "__main__":
    main()
