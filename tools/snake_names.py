#!/usr/bin/env python3
"""Spells the repository's own definitions and lemmas in snake case: numberAt becomes number_at, seenState-step seen_state-step.

usage: tools/snake_names.py [--dry]     once, at the top of the repository, after port.py

Types and modules begin with a capital and stay; so do strings and Rust's own names. A lemma whose name a definition now has gets
'_lem' (MET), a short name of a proof's own another word. It goes over specs/, proofs/, the ghost lines of src/ and must-fail/.
With --dry it writes nothing and prints, as 'meets:', each new name that stands somewhere already, with the files where both stand.
"""
import glob
import re
import sys

TOKEN = re.compile(r"[^\s(){}\[\].;,@\"«»:!&*<>|=+/\\]+")
CAMEL = re.compile(r"(?<=[a-z0-9])[A-Z]")
# Lemmas and short names of proofs that would have the new name of a definition.
MET = {
    n: n + "_lem"
    for n in "ends_of first_above flat_goes goes_by in_pairs index_in is_cut keys_from keys_in labels_in left_by no_cell owner_at "
    "place_at root_by same_ends".split()
}
MET |= {"map_of": "map_here", "listed_b": "listing_b"}


def part(p):
    return CAMEL.sub(lambda m: "_" + m[0].lower(), p) if p[:1].islower() else p


def turned(token):
    return "-".join(part(p) for p in token.split("-"))


def files():
    for pattern in ("specs/**/*.antt", "proofs/**/*.antt", "src/**/*.rt", "must-fail/*.edit"):
        yield from sorted(glob.glob("crates/*/" + pattern, recursive=True))


def main():
    dry = "--dry" in sys.argv[1:]
    texts = {}
    for p in files():
        with open(p, encoding="utf-8") as f:
            texts[p] = f.read()
    # A name behind a dot is a step of a proof, called as a function of the code is.
    met = re.compile(r"(?<![^\s(){};,])(" + "|".join(sorted(MET)) + r")(?![^\s(){};,.])")
    new_texts = {p: met.sub(lambda m: MET[m[0]], t) if "/proofs/" in p else t for p, t in texts.items()}
    stand = {}
    for p, t in new_texts.items():
        for m in TOKEN.finditer(t):
            stand.setdefault(m[0], set()).add(p)
    names = {w: turned(w) for w in stand if turned(w) != w}
    if dry:
        for old, new in sorted(names.items()):
            if new in stand:
                both = sorted(stand[old] & stand[new])
                print(f"meets: {old} {new}: {len(stand[new])} files, both in {' '.join(both)}")
    n = 0
    for p, t in new_texts.items():
        u = TOKEN.sub(lambda m: names.get(m[0], m[0]), t)
        if u != texts[p]:
            n += 1
            if not dry:
                with open(p, "w", encoding="utf-8") as f:
                    f.write(u)
    print(f"turned: {len(names)} names in {n} files")


main()
