#!/usr/bin/env python3
"""Spells the repository's own definitions and lemmas as today's Rattle does.

Run once at the top of the repository, right after the kit's port.py. Words are in snake case (`floor-over` becomes
`floor_over`), types in camel case (`Kind-laws` becomes `KindLaws`). It goes through specs/, proofs/ and the clauses of src/,
and says where two names would fall together. Names that the check makes (goals, invariants) stay.
"""
import collections
import glob
import re
import sys

# names whose words also change with the library's: the old word -> today's
WORDS = {"natAbs": "nat_abs", "getD": "get_or"}
# variables that several proofs bind by the same name
LOCAL = {"e-w", "e-x", "in-u", "in-v", "is-u", "is-v"}
LETTER = r"[^\s(){}\[\].,;:|«»⌜⌝\"=◌]"
DECLARED = re.compile(r"\s*((?:pub |abbrev |unfoldable |data |record )*)(" + LETTER + r"+)(?: " + LETTER + r"+)*\s*(?:\(.*|\{.*)?:\s")
MADE = re.compile(r"^(invariant|measure|ghost)-")


def today(name):
    """The spelling of today for one of our names."""
    parts = name.split("-")
    parts = [WORDS.get(p, p) for p in parts]
    if parts[0][:1].isupper():
        return "".join(p[:1].upper() + p[1:] for p in parts)
    return "_".join(parts)


def files():
    found = []
    for kind in ("crates/*/specs/**/*.antt", "crates/*/proofs/**/*.antt", "crates/*/src/**/*.rt", "crates/*/must-fail/*.edit"):
        found += glob.glob(kind, recursive=True)
    return sorted(found)


def own_names(paths):
    """What our own antt files declare: definitions, lemmas, fields and constructors."""
    names = set()
    for path in paths:
        if not path.endswith(".antt"):
            continue
        for line in open(path, encoding="utf-8"):
            line = line.split("--")[0]
            m = DECLARED.match(line)
            if m and not re.search(r":\s+goal\.", line) and not MADE.match(m.group(2)):
                names.add(m.group(2))
    return names


def main():
    paths = files()
    renamed = {n: today(n) for n in own_names(paths) | LOCAL if "-" in n}
    renamed = {o: n for o, n in renamed.items() if o != n}
    together = collections.Counter(renamed.values())
    for old, new in sorted(renamed.items()):
        if together[new] > 1:
            print(f"falls together: {old} -> {new}")
    if not renamed:
        return
    longest = sorted(renamed, key=len, reverse=True)
    word = re.compile(r"(?<![\w\-'≤])(" + "|".join(map(re.escape, longest)) + r")(?![\w\-'])")
    for path in paths:
        text = open(path, encoding="utf-8").read()
        before = set(re.findall(LETTER + "+", text))
        new = word.sub(lambda m: renamed[m.group(1)], text)
        for old in sorted(set(word.findall(text))):
            if renamed[old] in before:
                print(f"look: {path}: {old} -> {renamed[old]}, a word that the file has already")
        if new != text:
            open(path, "w", encoding="utf-8").write(new)
    print(f"{len(renamed)} names")


if __name__ == "__main__":
    sys.exit(main())
