#!/usr/bin/env python3
"""Respells this repository's own definitions and lemmas: words in snake case, a dash only between two names.

usage: python3 tools/respell.py            at the top, once: rewrites crates/, docs/ and README.md in place
       python3 tools/respell.py --list     prints each old name with its new one, and changes nothing

Functions and fields of src/, exported names, strings, inputs and outputs keep their names, and so do the names that
the check makes, as loop-port-init. A lemma that would get the name of its definition gets _lem.
"""

import os
import re
import sys

WORD = re.compile(r"[^\s(){}.;,@\"«»:`|]+")
SIGNATURE = re.compile(r"^\s*(?:(?:abbrev|unfoldable|pub|record|data|ruleset)\s+)*([^\s:(){}]+)(?:\s+[({].*[)}])?\s*:\s+(.*)$")
CAMEL = re.compile(r"^[a-z][a-z0-9]*(?:[A-Z][a-z0-9]*)+'*$")
MADE = ("returns", "loop-", "invariant-", "decreases-", "ghost-", "overflow", "bounds-", "nonzero", "slice_bounds")
LIBRARY = {"length", "append", "take", "drop", "map", "zip", "zero", "suc", "set", "filter", "leb", "ltb", "eqb"}
# lemmas that the definition of this name would fall on
FALLEN = ("sum_over", "same_load", "too_much", "too_short", "in_order", "no_cell", "goes_on")


def files(root, endings):
    for folder, dirs, names in os.walk(root):
        dirs[:] = sorted(d for d in dirs if d not in ("out", ".git", "target"))
        for name in sorted(names):
            if name.endswith(endings):
                yield os.path.join(folder, name)


def read(path):
    with open(path, encoding="utf-8") as f:
        return f.read()


def snake(part):
    if not CAMEL.match(part):
        return part
    return re.sub(r"(?<=[a-z0-9])([A-Z])", lambda m: "_" + m.group(1).lower(), part)


def declared(root):
    """The definitions of specs/, and the lemmas of proofs/ that no goal asks for."""
    specs, lemmas = set(), set()
    for path in files(os.path.join(root, "crates"), (".antt",)):
        for line in read(path).split("\n"):
            m = SIGNATURE.match(line)
            if not m or line.lstrip().startswith(("--", "let ", "λ")):
                continue
            name, kind = m.groups()
            if "/specs/" in path:
                specs.add(name)
            elif "goal." not in kind and not name.startswith(MADE):
                lemmas.add(name)
    return specs, lemmas


def table(root):
    specs, lemmas = declared(root)
    words = {snake(n) for n in specs} | LIBRARY
    renamed = {name: name + "_lem" for name in FALLEN}
    taken = words | {snake(n) for n in lemmas if "-" not in n}
    for name in sorted(lemmas):
        parts = [snake(p) for p in name.split("-")]
        if len(parts) == 1:
            continue
        if len(parts) == 2 and (parts[0][:1].isupper() or all(p in words for p in parts)):
            new = "-".join(parts)
        else:
            new = "_".join(parts)
        if new in taken and new != name:
            new += "_lem"
        if new != name:
            renamed[name] = new
        taken.add(new)
    return renamed


def respelled(text, renamed, lemmas):
    aliases = set(re.findall(r"^(?:pub )?use [^{}\n]*?([\w'-]+)\s*$", text, re.M))

    def one(m):
        word, start = m.group(0), m.start()
        behind = re.search(r"([\w'-]+)\.$", text[max(0, start - 40) : start])
        free = text[start - 1 : start] != "." or (behind and behind.group(1) in aliases)
        if lemmas and free and word in renamed:
            return renamed[word]
        return "-".join(snake(p) for p in word.split("-"))

    return WORD.sub(one, text)


def main():
    if os.path.exists("docs/PORT.md"):
        raise SystemExit("respell: this repository has its new spelling already: see docs/PORT.md")
    renamed = table(".")
    if sys.argv[1:] == ["--list"]:
        for old in sorted(renamed):
            print(old, renamed[old])
        return
    for path in files("crates", (".antt", ".rt", ".edit")):
        old = read(path)
        new = respelled(old, renamed, path.endswith(".antt"))
        if new != old:
            with open(path, "w", encoding="utf-8") as f:
                f.write(new)
    for path in ["README.md"] + list(files("docs", (".md",))):
        old = read(path)
        pages = {a: b for a, b in renamed.items() if a not in FALLEN}
        new = re.sub(r"`[^`\n]+`", lambda m: respelled(m.group(0), pages, True), old)
        if new != old:
            with open(path, "w", encoding="utf-8") as f:
                f.write(new)


main()
