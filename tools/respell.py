#!/usr/bin/env python3
"""Gives the definitions and lemmas of this repository today's spelling, in every crate.

usage: python3 tools/respell.py [--list]     at the top of the repository, once, after the kit's port.py
       --list prints the names and changes nothing

Types and modules keep upper camel case; everything else that specs/ and proofs/ declare is in snake case. A dash stays
only where it joins names of functions, as in length-set. Functions of src/, strings, inputs and outputs are not touched.
"""

import collections
import os
import re
import sys

MARKS = r"(?:(?:pattern|unfoldable|abbrev|pub|axiom) )*"
NAME = r"([^\s:(){}\[\],;.«»]+)"
DECLARED = re.compile(rf"^{MARKS}{NAME}(?:\s*\{{[^}}]*\}})?\s*:(?!:)\s*(.*)")
TYPE = re.compile(rf"^{MARKS}(?:record|data) {NAME}")
MEMBER = re.compile(rf"^  (?:pub )?{NAME}\s*:(?!:)")
LETTER = r"[\w'\-⊥⊎<>≤≡≢]"
STRING = re.compile(r'"(?:[^"\\]|\\.)*"|//[^\n]*')
LIBRARY = {"length", "getD", "get_or", "take", "drop", "set", "map"}
# Lemmas that would have the name of the function that they are about, or of another; port.py has turned by_code.
LEMMAS = {
    "family-at": "family_at_lem",
    "by-id": "by_id_lem",
    "by_code": "by_code_lem",
    "numbers-reply": "numbers_reply_lem",
    "two-octets": "wide_columns",
}


def files(root):
    for folder, below, names in os.walk(os.path.join(root, "crates")):
        below[:] = sorted(d for d in below if d not in ("out", "must-fail", "data"))
        for name in sorted(names):
            if name.endswith((".antt", ".rt")):
                yield os.path.join(folder, name)


def declared(path):
    """The names that a file of specs/ or proofs/ declares, but for the goals and invariants of a function's proof, and
    whether each is a definition or a lemma, and no member."""
    inside = False
    with open(path, encoding="utf-8") as lines:
        for line in lines:
            kind = TYPE.match(line)
            if kind or line.startswith("module "):
                inside = True
                continue
            if line.strip() and not line[0].isspace():
                inside = False
            if line.startswith(("use ", "mod ", "pub mod ", "--")):
                continue
            found = DECLARED.match(line)
            if found:
                if not found.group(2).startswith("goal."):
                    yield found.group(1), True
                continue
            found = MEMBER.match(line)
            if inside and found:
                yield found.group(1), False


def snake(word):
    word = re.sub(r"(?<=[a-z0-9])([A-Z])(?=[a-z])", lambda m: "_" + m.group(1).lower(), word)
    return re.sub(r"(?<=[a-z0-9])([A-Z])(?![a-z])", lambda m: "_" + m.group(1).lower(), word)


def respelled(name, functions):
    parts = name.split("-")
    joined = "-" if len(parts) > 1 and all(p in functions for p in parts) else "_"
    return joined.join("get_or" if p == "getD" else snake(p) for p in parts)


def mapping(root):
    names, functions = set(), set(LIBRARY)
    for path in files(root):
        if path.endswith(".antt"):
            here = set(declared(path))
            names |= {n for n, _ in here}
            if "/specs/" in path:
                functions |= {n for n, defined in here if defined and not n[0].isupper() and "-" not in n}
    out = {}
    for name in names:
        if name[0].isupper() or (name not in LEMMAS and not re.search(r"[a-z][A-Z]|-", name)):
            continue
        new = LEMMAS.get(name) or respelled(name, functions)
        if new != name:
            out[name] = new
    return out, names


def turned(text, pattern, names, source):
    def one(piece):
        return pattern.sub(lambda m: names[m.group(0)], piece)

    if not source:
        return one(text)
    parts, at = [], 0
    for kept in STRING.finditer(text):
        parts += [one(text[at : kept.start()]), kept.group(0)]
        at = kept.end()
    return "".join(parts) + one(text[at:])


def main(argv):
    root = "."
    names, known = mapping(root)
    together = collections.defaultdict(list)
    for old, new in names.items():
        together[new].append(old)
    for new in sorted(together):
        fell = sorted(together[new]) + ([new] if new in known and new not in names else [])
        if len(fell) > 1:
            print("falls together:", new, "of", ", ".join(fell))
    if argv == ["--list"]:
        for old in sorted(names):
            print(old, names[old])
        return 0
    longest = sorted(names, key=len, reverse=True)
    pattern = re.compile(rf"(?<!{LETTER})(?:{'|'.join(re.escape(n) for n in longest)})(?!{LETTER})")
    changed = 0
    for path in files(root):
        with open(path, encoding="utf-8") as f:
            text = f.read()
        new = turned(text, pattern, names, path.endswith(".rt"))
        if new != text:
            changed += 1
            with open(path, "w", encoding="utf-8") as f:
                f.write(new)
    print(f"respell: {len(names)} names, {changed} files changed")
    return 0


if __name__ == "__main__":
    raise SystemExit(main(sys.argv[1:]))
