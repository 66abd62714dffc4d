#!/usr/bin/env python3
"""Brings the names of this repository's own definitions and lemmas to one spelling: words in snake case, types in camel case.

usage: tools/respell.py        at the top of the repository, once, after the kit's port.py

It reads every .antt file for the names that are declared there (definitions, lemmas, fields), and turns each of them that has a dash,
or that stands in OTHERS, as a whole word, in every .antt and .rt file below crates/. Goals' names (declared at a type `goal.x`) and
names of the kit's library stay. It stops, and writes nothing, where two names would fall together or a new name is taken already.
"""

import os
import re
import sys

WORD = re.compile(r"[^\s(){}.;,@\"«»:`]+")
HEAD = re.compile(r"^\s*((?:(?:pub|unfoldable|abbrev|record|data)\s+)*)([^\s(){}.;,@\"«»:`]+)\s*(?:[({][^)}\n]*[)}]\s*)*:\s*(.*)$", re.M)
DECLARED = re.compile(r"^\s*(?:pub\s+)?(?:record|data)\s+(?:pub\s+)?([^\s(){}.;,@\"«»:`]+)", re.M)
COMMENT = re.compile(r"(?m)^\s*--.*$")

# names without a dash that are neither snake nor camel case, and names whose plain turning would not read
OTHERS = {
    "firsts": "Firsts",
    "aWb": "a_wide_b",
    "W": "wide_w",
    "W-at-1": "wide_at_1",
    "zone-W": "zone_wide",
    "length-aW": "length_a_wide",
    "prune-aW": "prune_a_wide",
    "getD-behind": "get_or_behind",
    "UTF8-char": "Utf8Char",
    "UTF8-octets": "Utf8Octets",
    "UTF8-tail": "Utf8Tail",
}


def files(root):
    for folder, dirs, names in os.walk(os.path.join(root, "crates")):
        dirs[:] = sorted(d for d in dirs if d != "out")
        for name in sorted(names):
            if name.endswith((".antt", ".rt")):
                yield os.path.join(folder, name)


def declared(texts):
    """The names that the repository declares, and those of them that are types."""
    names, types = set(), set()
    for path, text in texts.items():
        if not path.endswith(".antt"):
            continue
        code = COMMENT.sub("", text)
        for m in HEAD.finditer(code):
            if re.match(r"(goal|given|need)\.|[\w.]*Given\.", m[3]):
                continue
            names.add(m[2])
            if re.search(r"Type 0\s*$", m[3]):
                types.add(m[2])
        for m in DECLARED.finditer(code):
            names.add(m[1])
            types.add(m[1])
    return names, types


def turned(name, types):
    if name in OTHERS:
        return OTHERS[name]
    parts = name.split("-")
    if name in types:
        return "".join(p[:1].upper() + p[1:] for p in parts)
    return "_".join(parts).lower()


def respelled(line, table, is_antt_code):
    """A line with its names turned; those of OTHERS may be words of prose, of a grammar or of Rust, and turn in antt code alone."""
    return WORD.sub(lambda m: table.get(m[0], m[0]) if is_antt_code or m[0] not in OTHERS else m[0], line)


def main():
    root = os.getcwd()
    texts = {}
    for path in files(root):
        with open(path, encoding="utf-8") as f:
            texts[path] = f.read()
    names, types = declared(texts)
    table = {n: turned(n, types) for n in sorted(names) if "-" in n or n in OTHERS}
    wrong = False
    back = {}
    for old, new in table.items():
        if new in back or new in names:
            print(f"respell: {old} and {back.get(new, new)} would fall together as {new}", file=sys.stderr)
            wrong = True
        back[new] = old
    if wrong:
        raise SystemExit(2)
    changed = 0
    for path, text in texts.items():
        new = "".join(respelled(line, table, path.endswith(".antt") and not COMMENT.match(line)) for line in text.splitlines(keepends=True))
        if new != text:
            changed += 1
            with open(path, "w", encoding="utf-8") as f:
                f.write(new)
    print(f"respell: {len(table)} names turned in {changed} files")


if __name__ == "__main__":
    main()
