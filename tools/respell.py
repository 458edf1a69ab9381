#!/usr/bin/env python3
"""Brings the names of definitions and lemmas to one spelling: words in snake case, as the library of Rattle has them.

    python3 tools/respell.py [FOLDER]

It was run once over the whole repository, right after the scripts of the kit. Names are turned where they are declared in an .antt file (definitions,
lemmas, fields, constructors, names bound by `let`), and then wherever they stand: in .antt files, in the clauses of .rt files, in edits, and between
backticks in documents. Functions, types, modules and the names that the kit gives to goals keep their spelling. Afterwards `rt fmt` lays the files out.
"""

import os
import re
import sys

NAME = r"[^\W\d][\w']*(?:-[\w'][\w']*)*"
WORDS = "pub |abbrev |unfoldable |irreducible |opaque |record |data |inductive "
DECLARED = re.compile(rf"^\s*(?:{WORDS})*({NAME}(?: {NAME})*) :(?=\s)(.*)", re.M)
BOUND = re.compile(rf"\blet ({NAME})(?= [:=])|[({{]({NAME}(?: {NAME})*) : ")
# A string, a comment or a name; only the last is turned.
TOKEN = re.compile(rf'"(?:[^"\\\n]|\\.)*"|{NAME}')

# Names that would fall together with another that is in reach: four layouts with the slices of the same name, and lemmas with the definition that
# they speak of. The first three lemmas had a hyphen, which the scripts of the kit turned already.
APART = {
    "edgeNumbers": "edge_number_layout",
    "edgeFloats": "edge_float_layout",
    "vertexNumbers": "vertex_number_layout",
    "vertexFloats": "vertex_float_layout",
    "lower_of": "lower_same",
    "sized_of": "sized_if_sound",
    "joined_at": "joined_there",
    "no-edge": "no_edge_past",
    "table-after": "table_after_is",
    "lent-walk": "lent_walkable",
    "k10-edges": "k10_edges_after",
}

# Names that are bound on the left of an equation alone.
BESIDES = {"curveKind", "em-is", "us-is"}


def is_old(name):
    return name[0].islower() and ("-" in name or any(c.isupper() for c in name))


def turned(name):
    if name in APART:
        return APART[name]
    name = re.sub("^getD", "get_or", name)
    parts = re.sub(r"(?<=[a-z0-9])(?=[A-Z])", "_", name.replace("-", "_"))
    return "".join(c.lower() if c.isupper() and parts[i - 1] == "_" else c for i, c in enumerate(parts))


def code_of(text):
    return re.sub(r"(?:^|(?<=\s))--(?:\s[^\n]*)?$", "", text, flags=re.M)


def files(top, endings):
    for folder, below, names in os.walk(top):
        below[:] = sorted(d for d in below if d not in ("out", "target", ".git"))
        for name in sorted(names):
            if name.endswith(endings):
                yield os.path.join(folder, name)


def read(path):
    with open(path, encoding="utf-8") as f:
        return f.read()


def declared(crates):
    names, goals = set(), set()
    for path in files(crates, (".antt",)):
        code = code_of(read(path))
        for them, kind in DECLARED.findall(code):
            into = goals if re.search(r"\b(goal|tie)\b", kind) else names
            into.update(them.split())
        for one, more in BOUND.findall(code):
            names.update((one or more).split())
    return {n for n in names - goals if is_old(n) or n in APART} | BESIDES


def turn(text, names):
    return TOKEN.sub(lambda m: turned(m.group()) if m.group() in names else m.group(), text)


def main(top):
    crates = os.path.join(top, "crates")
    names = declared(crates)
    for path in list(files(crates, (".antt", ".rt", ".edit"))) + list(files(top, (".md",))):
        text = read(path)
        if path.endswith(".md"):
            new = re.sub(r"`[^`\n]*`", lambda m: turn(m.group(), names), text)
        else:
            new = turn(text, names)
        if new != text:
            with open(path, "w", encoding="utf-8") as f:
                f.write(new)
    print(f"{len(names)} names turned")


if __name__ == "__main__":
    main(sys.argv[1] if len(sys.argv) > 1 else ".")
