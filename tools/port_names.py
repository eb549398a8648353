#!/usr/bin/env python3
"""Brings the definitions and lemmas of crates/ to snake case, once, after port.py: `elementWord` is `element_word`, `upTo-frame` is `up_to-frame`.

usage: python3 tools/port_names.py          at the top of the repository
A name is changed, part by part between its dashes, if a file of specs/ or proofs/ declares it, or if it is made of words, as a constructor's or a parameter's
may be. Functions, types, modules, texts and the short names of locals stay as they are. It can run again.
Names that would fall together in one file have a name of their own in OTHER.
"""

import glob
import re

OTHER = {"walkAt": "walk_place", "allFair": "every_fair", "tooLong": "is_too_long", "is_T": "is_T"}
# A lemma that had the new name of a function already.
LEMMAS = {"or_count": "or_count_lem"}
TOKEN = re.compile(r"[^\s(){}\[\]·.,;:|«»\"]+")
WORDS = re.compile(r"[a-z][A-Za-z0-9]*?[A-Z][a-z][A-Za-z0-9]*\Z")
DECLARED = re.compile(r"\s*(?:abbrev |unfoldable |pub |data |record |ruleset )*([^\s(){}\[\].,;:|]+) :(?: |$)")


def camel(part):
    return re.match(r"[a-z]", part) and re.search(r"[a-z0-9][A-Z]", part)


def snake(part):
    return OTHER.get(part, re.sub(r"(?<=[a-z0-9])([A-Z])", lambda m: "_" + m.group(1).lower(), part))


def declared(files):
    found = set()
    for name in files:
        with open(name, encoding="utf-8") as f:
            for line in f:
                m = DECLARED.match(line)
                if m:
                    found |= {p for p in m.group(1).split("-") if camel(p)}
                code = line.split("--")[0]
                found |= {p for m in TOKEN.finditer(code) for p in m.group(0).split("-") if WORDS.match(p)}
    return found


def renamed(text, names):
    if "orCount" in text:
        text = TOKEN.sub(lambda m: LEMMAS.get(m.group(0), m.group(0)), text)
    return TOKEN.sub(lambda m: "-".join(snake(p) if p in names else p for p in m.group(0).split("-")), text)


def files(ending):
    return sorted(f for part in ("src", "specs", "proofs") for f in glob.glob(f"crates/*/{part}/**/*{ending}", recursive=True))


def main():
    proofs = files(".antt")
    names = declared(proofs)
    for name in proofs + files(".rt"):
        with open(name, encoding="utf-8") as f:
            old = f.read()
        new = renamed(old, names)
        if new != old:
            with open(name, "w", encoding="utf-8") as f:
                f.write(new)
    for n in sorted(names):
        print(f"{n} {snake(n)}")


if __name__ == "__main__":
    main()
