#!/usr/bin/env python3
"""Brings this repository's definitions and lemmas to today's spelling: words in snake case, types in camel case.

usage: python3 tools/port_names.py [ROOT]   once, after port.py: rewrites the .antt and .rt files below ROOT/crates
       python3 tools/port_names.py --list [ROOT]   prints old and new names, and changes nothing

A name is one that specs/ or proofs/ declare. Names of goals that Rattle makes, functions and types of src/,
strings and comments stay as they are.
"""

import os
import re
import sys

DECLARED = re.compile(
    r"^\s*(?:(?:abbrev|unfoldable|pub)\s+)*(?:(?:record|data|module)\s+)?([A-Za-z][^\s(){};,.\"]*)"
    r"(?:\s+[({].*?)?\s*:(?=\s|$)"
)
ALIAS = re.compile(r"^use\s.*\sas\s+([a-z][^\s(){};,.\"]*)\s*$")
GOAL = re.compile(r":\s*(?:tie|goal)\.")
PIECE = re.compile(r"\"(?:[^\"\\]|\\.)*\"|[A-Za-z◌«][^\s(){};,.\"]*")
# what Rattle makes, or the library has, under the same spelling as a declaration here
LEFT = {"well-formed"}


def files(root, ends):
    for folder, dirs, names in os.walk(os.path.join(root, "crates")):
        dirs[:] = sorted(d for d in dirs if d not in ("out", ".git"))
        for n in sorted(names):
            if n.endswith(ends):
                yield os.path.join(folder, n)


def read(path):
    with open(path, encoding="utf-8") as f:
        return f.read()


def spelled(name):
    if name[0].isupper():
        parts = re.split(r"[-_]", name)
        return parts[0] + "".join(p[:1].upper() + p[1:] for p in parts[1:])
    return re.sub(r"(?<=[a-z0-9])([A-Z])", r"_\1", name).replace("-", "_").lower()


def declared(root):
    names, goals, library = set(), set(), set()
    for p in files(root, ".antt"):
        for line in read(p).split("\n"):
            if line.lstrip().startswith("--"):
                continue
            m = ALIAS.match(line)
            if m:
                names.add(m.group(1))
            if line.startswith("use "):
                if not line.startswith("use Rattle.") or line.startswith("use Rattle.std"):
                    m = re.search(r"\{(.*)\}", line)
                    library.update(x.strip() for x in m.group(1).split(",") if x.strip()) if m else None
                continue
            m = DECLARED.match(line)
            if m and GOAL.search(line):
                goals.add(m.group(1))
            elif m and "=" not in line.split(" : ")[0]:
                names.add(m.group(1))
    return {n for n in names if n not in goals and n not in library and n not in LEFT}


def renamed(root):
    """Old names to new. A lemma that would fall together with a definition ends in _lem."""
    names = declared(root)
    words = {spelled(n) for n in names if spelled(n) != n and "-" not in n}
    words |= {n for n in names if n in specified(root)}
    turns = {}
    for n in names:
        new = spelled(n)
        if "-" in n and n[0].islower() and new in words:
            new += "_lem"
        if new != n:
            turns[n] = new
    return turns


def specified(root):
    """The definitions of specs/: what stands at the start of a line."""
    found = set()
    for p in files(root, ".antt"):
        if "/specs/" in p:
            for line in read(p).split("\n"):
                m = DECLARED.match(line)
                if m and line[0] not in " -" and not line.startswith("use "):
                    found.add(m.group(1))
    return found


def here(path, text, turns):
    """The names as they turn in one file: Outcomes has the functions' own names, and a lemma beside the definition of its name gives way."""
    if path.endswith("/Outcomes.antt"):
        return {a: spelled(a) for a in turns}
    own = {m.group(1) for m in map(DECLARED.match, text.split("\n")) if m}
    return dict(turns, **{b: b + "_lem" for a, b in turns.items() if a in own and b in own})


def turned(text, turns, comment, walk):
    def piece(m):
        old = m.group(0)
        # in a proof of a function, what stands behind a dot is a step of its code
        if walk and old in turns and m.string[m.start() - 1 : m.start()] == ".":
            return spelled(old)
        return old if old[0] == '"' else turns.get(old, old)

    out = []
    for line in text.split("\n"):
        at = 0 if line.lstrip().startswith(comment) else line.find(" " + comment + " ")
        code, rest = (line, "") if at < 0 else (line[:at], line[at:])
        out.append(PIECE.sub(piece, code) + rest)
    return "\n".join(out)


def main():
    words = sys.argv[1:]
    listing = words[:1] == ["--list"]
    words = words[1:] if listing else words
    root = words[0] if words else "."
    turns = renamed(root)
    olds = {}
    for a, b in sorted(turns.items()):
        olds.setdefault(b, []).append(a)
    for b, names in sorted(olds.items()):
        if len(names) > 1:
            print("fall together:", b, names, file=sys.stderr)
    if listing:
        for a, b in sorted(turns.items()):
            print(a, b)
        return
    for p in files(root, (".antt", ".rt")):
        text = read(p)
        new = turned(text, here(p, text, turns), "--" if p.endswith(".antt") else "//", p.endswith("/Proof.antt"))
        if new != text:
            with open(p, "w", encoding="utf-8") as f:
                f.write(new)


if __name__ == "__main__":
    main()
