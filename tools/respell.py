#!/usr/bin/env python3
"""Brings the repository's own definitions and lemmas to snake case, types and modules staying in camel case. Ran once, after the port's first script.

usage: tools/respell.py [FOLDER]     FOLDER is a checkout; none: the one that this file lies in

It collects what specs/ and proofs/ of each crate declare, and the aliases of `use .. as ..`, and rewrites those names in .rt, .antt and .edit files.
A name that a file takes from a library of the kit stays in that file. Names that would fall together are told apart by LAW and PLACES below.
In a proof of a function, below proofs/NAME/, a name with a hyphen is rewritten only where the file imports it from one of these crates.
"""

import collections
import os
import re
import sys

ROOT = sys.argv[1] if len(sys.argv) > 1 else os.path.join(os.path.dirname(os.path.realpath(__file__)), "..")
CRATES = os.path.join(ROOT, "crates")
OWN = {d for d in os.listdir(CRATES) if os.path.isdir(os.path.join(CRATES, d))}
TOKEN = re.compile(r"(?<![\w'-])[A-Za-z_⊎][\w'⊎]*(?:-[\w'⊎<>≤=]+)*")
DECLARED = re.compile(
    r"^\s*(?:(?:unfoldable|abbrev|opaque|pub)\s+)*(?:(?:ruleset|record|data)\s+)?([A-Za-z_][\w'<>≤⊎=-]*)((?:\s+\([^()]*\)|\s+\{[^{}]*\})*)\s*(?::|=|where)(?=\s|$)"
)
USED = re.compile(r"^\s*(?:ghost )?use ([\w.'+-]+)\.\{([^}]*)\}", re.M)
ALIAS = re.compile(r"^\s*(?:pub )?use .* as ([\w'-]+)\s*$", re.M)

# A lemma whose snake case is the name of a definition, or of a library's word in the same file, is called a law.
LAW = {"bit-or", "read-on"}
# A name that is in snake case already, and would meet another in the one file.
PLACES = {
    ("lines/proofs/Laws.antt", "one_more"): "one_more_law",
    ("range_many/proofs/Laws.antt", "range_at"): "range_at_law",
    ("pending_acks/proofs/History.antt", "insert-one"): "insert_one_fn",
    ("pending_acks/proofs/History.antt", "subtract-below"): "subtract_below_fn",
}


def files(*endings):
    for folder, dirs, names in os.walk(CRATES):
        # each crate's folder out/ is the toolchain's; there is a crate of that name too
        dirs[:] = sorted(d for d in dirs if d != "out" or folder == CRATES)
        for name in sorted(names):
            if name.endswith(endings):
                yield os.path.join(folder, name)


def short(path):
    return os.path.relpath(path, CRATES)


def of_function(path):
    steps = short(path).split("/")
    return steps[1] == "proofs" and len(steps) > 3


def snake(name):
    if name[:1].islower():
        name = re.sub(r"(?<=[a-z0-9])([A-Z])", lambda m: "_" + m[1].lower(), name)
    return name.replace("-", "_")


def text(path):
    with open(path, encoding="utf-8") as f:
        return f.read()


def renamings():
    names = set()
    for path in files(".antt"):
        if of_function(path):
            continue
        t = text(path)
        for line in t.split("\n"):
            if not line.lstrip().startswith("--"):
                m = DECLARED.match(line)
                if m:
                    names.add(m[1])
        names |= set(ALIAS.findall(t))
    told = {n: snake(n) for n in names if snake(n) != n}
    together = collections.Counter(told.values())
    for n in told:
        if "-" in n and (together[told[n]] > 1 or n in LAW):
            told[n] += "_law"
    return told


def taken(t):
    """The names that a text takes from a library of the kit, and those that it takes from these crates."""
    kit, own = set(), set()
    for path, names in USED.findall(t):
        steps = path.split(".")
        mine = steps[0] == "Rattle" and len(steps) > 1 and steps[1] in OWN
        for n in re.split(r",\s*", names.strip()):
            (own if mine else kit).add(n.split(" as ")[-1].strip())
            if mine:
                own.add(n.split(" as ")[0].strip())
    return kit, own


def respelled(path, told):
    t = text(path)
    kit, own = taken(t)
    places = {n: to for (p, n), to in PLACES.items() if p == short(path)}

    def turn(m):
        n = m[0]
        if n in places:
            return places[n]
        if n not in told or n in kit:
            return n
        if "-" in n and path.endswith(".rt"):
            return n
        if "-" in n and of_function(path) and n not in own:
            return n
        return told[n]

    def line(s):
        head, mark, rest = (s, "", "") if not path.endswith(".rt") else s.partition("//")
        return TOKEN.sub(turn, head) + mark + (re.sub(r"(?<![\w-])[a-z]\w*[A-Z]\w*", turn, rest))

    return "\n".join(line(s) for s in t.split("\n")) if not path.endswith(".edit") else edit(t, turn)


def edit(t, turn):
    of_source = re.search(r"^file: src/", t, re.M)
    token = re.compile(r"(?<![\w-])[a-z]\w*[A-Z]\w*") if of_source else TOKEN
    return "\n".join(token.sub(turn, s) if s.startswith(("old:", "new:")) else s for s in t.split("\n"))


def main():
    told = renamings()
    n = 0
    for path in files(".rt", ".antt", ".edit"):
        old = text(path)
        new = respelled(path, told)
        if new != old:
            n += 1
            with open(path, "w", encoding="utf-8") as f:
                f.write(new)
    print(f"respell: {len(told)} names, {n} files")
    for name in sorted(told):
        print(f"{name} {told[name]}", file=sys.stderr)


main()
