#!/usr/bin/env python3
"""Spells the repository's own definitions and lemmas as today's Rattle does: words in snake case, types and modules in upper camel case.

usage: python3 tools/spell_names.py [--names]      at the top of the repository, once, after the toolchain's own port

A name is taken from where it is declared in specs/ and proofs/ (a signature, a data type, a record, a constructor, a field). The names of
goals are the toolchain's and stay. A name that would fall together with another one is in KEPT, with the spelling that it has instead.
Files of src/ change only in ghost lines and clauses, never in the text of a string; edits and pages change in the same words.
"""

import os
import re
import sys

# Names whose plain spelling is taken by another word that stands in the same files.
KEPT = {
    "Bad-order": "IsBadOrder",
    "Bad-ring": "IsBadRing",
    "begin-of": "beginning_of",
    "bit-and": "bit_of_and",
    "bit-or": "bit_of_or",
    "put-mid": "put_in_middle",
}

# Paths of the toolchain's own that end in a word of ours.
PATHS = {"c.loop-end", "w.queue-is"}

TOKEN = re.compile(r"[^\s(){}\[\],;.`\"|⌜⌝]+")
SIGNED = re.compile(r"^\s*(?:(?:abbrev|unfoldable|pub)\s+)*([^\s:(){}]+)\s+:\s+(.*)$")
TYPED = re.compile(r"^\s*(?:(?:abbrev|unfoldable|pub)\s+)*(?:data|record)\s+([^\s:(){}]+)")
GHOST = re.compile(r"ghost ([^\s:(){}]+):")
GOAL = re.compile(r"^(?:goal|needs)\b")


def files(ends):
    for folder, dirs, names in os.walk("crates"):
        dirs[:] = sorted(d for d in dirs if d != "out")
        for name in sorted(names):
            if name.endswith(ends):
                yield os.path.join(folder, name)


def read(path):
    with open(path, encoding="utf-8") as f:
        return f.read()


def declared():
    """The names that specs/ and proofs/ declare, but for answers to goals."""
    found = set()
    for path in files(".antt"):
        for line in read(path).splitlines():
            signed = SIGNED.match(line)
            if signed and not GOAL.match(signed.group(2)):
                found.add(signed.group(1))
            typed = TYPED.match(line)
            if typed:
                found.add(typed.group(1))
    return found


def spelled(name):
    if name in KEPT:
        return KEPT[name]
    if name[0].isupper():
        return "".join(w[:1].upper() + w[1:] for w in re.split("[-_]", name))
    return re.sub(r"(?<=[a-z])(?=[A-Z])", "_", name).lower().replace("-", "_")


def turned(text, to):
    def one(m):
        here = m.group(0)
        return here if text[m.start() - 2 : m.start()] + here in PATHS else to.get(here, here)

    return TOKEN.sub(one, text)


def turned_source(text, to):
    """Source text: everything but what stands in double quotes."""
    return "".join(p if p.startswith('"') else turned(p, to) for p in re.split(r'("(?:[^"\\\n]|\\.)*")', text))


def main():
    names = declared()
    to = {n: spelled(n) for n in names if spelled(n) != n}
    clash = {n: t for n, t in to.items() if t in names or list(to.values()).count(t) > 1}
    if "--names" in sys.argv:
        for n in sorted(to):
            print(n, to[n], "FALLS TOGETHER" if n in clash else "")
        return
    for path in files((".antt", ".edit")):
        text = read(path)
        out = turned(text, to)
        if out != text:
            with open(path, "w", encoding="utf-8") as f:
                f.write(out)
    for path in files(".rt"):
        text = read(path)
        out = turned_source(text, to)
        if out != text:
            with open(path, "w", encoding="utf-8") as f:
                f.write(out)
    for path in ["README.md"] + sorted("docs/" + f for f in os.listdir("docs") if f.endswith(".md")):
        text = read(path)
        out = re.sub(r"`[^`\n]+`", lambda m: turned(m.group(0), to), text)
        if out != text:
            with open(path, "w", encoding="utf-8") as f:
                f.write(out)


if __name__ == "__main__":
    main()
