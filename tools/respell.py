#!/usr/bin/env python3
"""Brings the repository's own definitions and lemmas to today's spelling: words in snake case, facts and types in camel case.

usage: tools/respell.py [--dry]      at the top of the repository, once, after the kit's port.py

What is declared at the top of a file in specs/ or right in proofs/, a field and a constructor is respelled wherever it stands in
crates/. Names from src/, goals, local names, strings, inputs and outputs stay. It refuses where two names would fall together.
"""
import os
import re
import sys
from collections import defaultdict

# Names that need another word than the one that their spelling gives.
BY_HAND = {
    "Bounds-are": "BoundsAre",
    "Shown-on": "ShownOn",
    "P-mul": "plus_part_mul",
    "P-neg": "plus_part_neg",
    "P-zero": "plus_part_zero",
    "N-mul": "minus_part_mul",
    "N-neg": "minus_part_neg",
    "N-zero": "minus_part_zero",
}
# Lemmas that would have their function's name get `_lem`.
LEMMAS = """steps-from step-asked contract-choice over-cuts over-removed linear-at end-steps linear-of linear-out from-little from-twos
block-after near-fine edge-size bit-or bit-and bit-xor all-of mask-of edge-at""".split()
BY_HAND |= {n: n.replace("-", "_") + "_lem" for n in LEMMAS}
# Spelled as the library's names beside which they stand.
KEPT = {"and-true", "or-false"}
# Functions with a capital of one letter, in the files that use them.
PARTS = {"P": "plus_part", "N": "minus_part", "PS": "plus_parts", "NS": "minus_parts"}
PARTS_IN = ("whole/specs/Parts.antt", "whole/specs/Ints.antt", "size_laws/specs/Values.antt", "size_laws/specs/ValueLaws.antt")
# Where the new spelling stands already, as a field, in a path or in a comment: the two do not meet.
APART = {"growBack", "lowDegree", "degreeThree", "dominantEdge", "smallBlock", "inBlocks", "termWeights"}
WORD = re.compile(r"[^\s(){}\[\].,;«»:λ`\"]+")
HEAD = re.compile(r"^(\s*)((?:abbrev|unfoldable|pub|private|record|data)\s+)*([^\s:(){}]+(?: [^\s:(){}]+)*?)\s*(?:[{(][^})]*[})]\s*)*:(?:\s|$)")


def files(top):
    for folder, dirs, names in os.walk(os.path.join(top, "crates")):
        dirs[:] = sorted(d for d in dirs if d != "out")
        for n in sorted(names):
            if n.endswith((".antt", ".rt")):
                yield os.path.join(folder, n)


def shared(path):
    """Whether the file's declarations can be cited elsewhere: specs/X.antt and proofs/X.antt."""
    return path.endswith(".antt") and os.path.basename(os.path.dirname(path)) in ("specs", "proofs")


def respelled(name):
    if name in KEPT:
        return name
    if name in BY_HAND:
        return BY_HAND[name]
    if re.match(r"[A-Z]", name):
        return name.replace("-", "_") if "-" in name and not re.match(r"[A-Z][a-z]+-", name) else name
    out = re.sub(r"([a-z0-9])([A-Z])", lambda m: m.group(1) + "_" + m.group(2), name)
    out = re.sub(r"_([A-Z])(?![A-Z])", lambda m: "_" + m.group(1).lower(), out)
    return re.sub(r"(?<=[\w'])-(?=\w)", "_", out)


def declared(path):
    with open(path, encoding="utf-8") as f:
        for line in f:
            if line.lstrip().startswith("--"):
                continue
            m = HEAD.match(line.rstrip("\n"))
            if m and (not m.group(1) or m.group(2) or "specs" in path or "proofs" in path):
                for n in m.group(3).split():
                    if n not in ("use", "λ", "let", "in", "module", "_"):
                        yield n


def words(text):
    return set(WORD.findall(text))


def main():
    dry = "--dry" in sys.argv
    top = os.getcwd()
    all_files = list(files(top))
    text = {}
    for p in all_files:
        with open(p, encoding="utf-8") as f:
            text[p] = f.read()
    turned = {}
    for p in all_files:
        if shared(p):
            for n in declared(p):
                if respelled(n) != n:
                    turned[n] = respelled(n)
    # camelCase names of one proof's own
    for p in all_files:
        if p.endswith(".antt") and not shared(p):
            for n in declared(p):
                if re.match(r"[a-z]\w*[A-Z]", n) and "-" not in n:
                    turned[n] = respelled(n)
    by_new = defaultdict(set)
    for old, new in turned.items():
        by_new[new].add(old)
    bad = [f"{' and '.join(sorted(olds))} would all be {new}" for new, olds in by_new.items() if len(olds) > 1]
    for p in all_files:
        here = words(text[p])
        for old in sorted(here & set(turned)):
            # a ghost name and a function of src/ may have one name
            if turned[old] in here and shared(p) and old not in APART:
                bad.append(f"{os.path.relpath(p, top)}: {old} and {turned[old]} both stand here")
    if "--names" in sys.argv:
        for old in sorted(turned):
            print(old, turned[old])
    if bad:
        print("\n".join(bad))
        print(f"{len(bad)} names would fall together: nothing was written")
        return 1
    changed = 0
    for p in all_files:
        goals = p.endswith(".antt") and not shared(p)

        def turn(m):
            w = m.group(0)
            if w not in turned:
                return w
            before = text[p][max(0, m.start() - 1):m.start()]
            if goals and "-" in w and before == "." and not re.search(r"(?:Rattle(?:\.\w+)*)\.$", text[p][:m.start()][-80:]):
                return w
            return turned[w]

        new = WORD.sub(turn, text[p])
        if p.endswith(PARTS_IN):
            new = WORD.sub(lambda m: PARTS.get(m.group(0), m.group(0)), new)
        if new != text[p]:
            changed += 1
            if not dry:
                with open(p, "w", encoding="utf-8") as f:
                    f.write(new)
    print(f"{len(turned)} names respelled in {changed} files")
    return 0


if __name__ == "__main__":
    raise SystemExit(main())
