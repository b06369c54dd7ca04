#!/usr/bin/env python3
"""Brings the names of definitions and lemmas that port.py leaves in camel case to snake case, in every crate.

usage: python3 tools/respell.py        at the top of the repository, once, after port.py
       python3 tools/respell.py --said  prints the names and what they become, and changes nothing

A name is respelled if it begins with a small letter and a capital follows a small letter or a digit with nothing between: setOf is set_of.
A lemma that would have the name of a definition gets _lem. A dash joins names, and each of them is respelled for itself: has-setOf is has-set_of. Types, modules and constructors begin with a capital and stay.
It stops before it changes anything if two names would fall together, or a name would fall together with one that the repository has.
"""
import glob
import re
import sys

FILES = sorted(glob.glob("crates/*/specs/**/*.antt", recursive=True) + glob.glob("crates/*/proofs/**/*.antt", recursive=True) + glob.glob("crates/*/src/**/*.rt", recursive=True))
EDITS = sorted(glob.glob("crates/*/must-fail/*.edit"))
TOKEN = re.compile(r"(?<!\d)[A-Za-z_][\w'\u2080-\u2089\u2192]*")
CAMEL = re.compile(r"[a-z][a-z0-9_]*[a-z0-9][A-Z][\w'\u2080-\u2089\u2192]*$")
STRING = re.compile(r'("(?:\\.|[^"\\\n])*")')
HUMP = re.compile(r"(?<=[a-z0-9])([A-Z])")
# names of the older library that stand in edits alone: they are no names of the repository
NOT_OURS = {"getD"}
# lemmas whose name would be that of a definition; in .antt files alone, where no dot stands before them
LEMMAS = ("both_code", "goes_on", "list_read", "no_store", "row_is", "step_by")
LEMMA = re.compile(r"(?<![\w'.-])(" + "|".join(LEMMAS) + r")(?![\w'.-])")
# store_in is a name of the library too, in crates that do not import ours; noSite-is is a lemma of no_site
APART = {"store_in", "no_site"}


def snake(name):
    return HUMP.sub(lambda m: "_" + m.group(1).lower(), name)


def outside(text, change):
    """Changes the text outside strings."""
    return "".join(part if i % 2 else change(part) for i, part in enumerate(STRING.split(text)))


def tokens(text):
    return {t for part in STRING.split(text)[::2] for t in TOKEN.findall(part)}


def there_without_lemmas(texts):
    """The names that no renaming below may meet: those of antt's files that no dot stands before, and the parameters of clauses."""
    found = set()
    for f in FILES:
        for line in texts[f].split("\n"):
            if f.endswith(".rt"):
                found |= set(re.findall(r"\b([a-z]\w*)\s*:(?!:)", line))
            else:
                line = LEMMA.sub(lambda m: m.group(1) + "_lem", line.split("-- ")[0])
                found |= set(re.findall(r"(?<![\w.'])([a-z][\w'\u2080-\u2089\u2192]*)", line))
    return found - APART


def main():
    texts = {f: open(f, encoding="utf-8").read() for f in FILES + EDITS}
    there = set().union(*(tokens(texts[f]) for f in FILES))
    names = {t: snake(t) for t in set().union(*map(tokens, texts.values())) if CAMEL.match(t) and t not in NOT_OURS}
    for t, s in sorted(names.items()):
        if "--said" in sys.argv[1:]:
            print(t, s)
    ours = {t: s for t, s in names.items() if t in there}
    there = there_without_lemmas(texts)
    bad = sorted(f"{t} would fall together with {s}" for t, s in ours.items() if s in there)
    by = {}
    for t, s in ours.items():
        by.setdefault(s, []).append(t)
    bad += sorted(f"{' and '.join(ts)} would be one" for ts in by.values() if len(ts) > 1)
    for line in bad:
        print("respell: " + line, file=sys.stderr)
    if "--said" in sys.argv[1:]:
        return
    if bad:
        raise SystemExit(1)
    for f, text in texts.items():
        if f.endswith(".antt") and not f.startswith("crates/walks/"):
            text_in = LEMMA.sub(lambda m: m.group(1) + "_lem", text)
        else:
            text_in = text
        new = outside(text_in, lambda part: TOKEN.sub(lambda m: names.get(m.group(0), m.group(0)), part))
        if new != text:
            open(f, "w", encoding="utf-8").write(new)


main()
