#!/usr/bin/env python3
"""Brings definitions and lemmas of specs/ and proofs/ to snake case, everywhere that they are named.

usage: python3 tools/spell.py [--list]      at the top of the repository

A definition `floorDiv` becomes `floor_div`, a lemma `sum-plus` becomes `sum_plus`, and so does each field of a
record. Facts and types keep their camel case, and what the check itself names (goals, steps) keeps its dashes.
--list prints the names and those that fall together with others, and writes nothing.
"""

import os
import re
import sys

WORD = r"[\w'◌⊎-]"
MADE = re.compile(r"^(returns|loop|invariant|overflow|decreases|ghost)-|-requires(-\d+)?$|^(step|error|bounds)-")
HEAD = re.compile(r"^(\s*)((?:(?:abbrev|unfoldable|pub)\s+)*)(?:(data|record)\s+)?([^\s:(){}=,]+)\s*(?:\([^:]*:[^)]*\)\s*)*:(?!:)(.*)$")
# lemmas whose new name is that of a definition
OTHER = {"gain-at": "gain_at_is", "price-of": "price_of_is", "written-bytes": "written_bytes_are"}
# the same of a lemma that has no dash: file, name and new name
HERE = [("crates/curve/proofs/Sound.antt", "in_order", "rows_in_order")]


def files(root, ends):
    for folder, dirs, names in os.walk(os.path.join(root, "crates")):
        dirs[:] = sorted(d for d in dirs if d not in ("out", "target"))
        for n in sorted(names):
            if n.endswith(ends):
                yield os.path.join(folder, n)


def spelled(name):
    if name in OTHER:
        return OTHER[name]
    if name[0].islower():
        name = re.sub(r"(?<=[a-z0-9])([A-Z])", lambda m: "_" + m.group(1).lower(), name)
    return re.sub(r"(?<=\w)-(?=\w)", "_", name)


def own(root):
    names = {}
    for p in files(root, ".antt"):
        with open(p, encoding="utf-8") as f:
            for line in f:
                m = HEAD.match(line.rstrip("\n"))
                if not m or line.lstrip().startswith(("use ", "--", "let ", "λ")):
                    continue
                name, rest = m.group(4), m.group(5)
                if re.search(r"\bgoal\." + re.escape(name) + r"(?!" + WORD + ")", rest) or MADE.search(name):
                    continue
                new = spelled(name)
                if new != name:
                    names.setdefault(name, (new, p))
    return names


def tokens(text):
    return set(re.findall(r"(?<!" + WORD + r")" + WORD + "+", text))


def main(argv):
    root = "."
    names = own(root)
    every = list(files(root, (".antt", ".rt")))
    texts = {}
    for p in every:
        with open(p, encoding="utf-8") as f:
            texts[p] = f.read()
    said = {p: tokens(t) for p, t in texts.items()}
    if "--list" in argv:
        for old, (new, p) in sorted(names.items()):
            both = [q for q in every if old in said[q] and new in said[q]]
            note = f"   BOTH IN {both}" if both else ""
            print(f"{old} {new} {p}{note}")
        return 0
    pattern = re.compile(r"(?<!" + WORD + r")(" + "|".join(sorted(map(re.escape, names), key=len, reverse=True)) + r")(?!" + WORD + ")")
    for p, t in texts.items():
        for where, old, new in HERE:
            if os.path.normpath(p) == where:
                t = re.sub(r"(?<!" + WORD + ")" + old + r"(?!" + WORD + ")", new, t)
        new = pattern.sub(lambda m: names[m.group(1)][0], t)
        if new != texts[p]:
            with open(p, "w", encoding="utf-8") as f:
                f.write(new)
    return 0


if __name__ == "__main__":
    raise SystemExit(main(sys.argv[1:]))
