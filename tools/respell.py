#!/usr/bin/env python3
"""Spells the definitions' names in snake case, in the crates and where the pages name them.

    python3 tools/respell.py

Run once, at the top of the repository, after the kit's own script. A name of a definition, constructor or field that
begins with a small letter is spelled in snake case, as `turned_down` for `turnedDown`. Functions of src/, types and
facts keep their names. A snake-cased name that already stood for something else where it would be used is given
another, below.
"""
import glob
import re

# Names that would fall together with a parameter, a local or a lemma of the files that use them.
OTHERS = {"inOrder": "is_in_order"}

WORD = re.compile(r"(?<![A-Za-z0-9_'#])[a-z][a-z0-9]*(?:[A-Z][a-z0-9]*)+(?![A-Za-z0-9_'])")
# A lone capital ends a local's name, as in `eA`; such locals stay.
LOCAL = re.compile(r"^[a-z][A-Z]$")
# Words of other languages in pages and comments.
KEPT = {"getD"}


def spelled(match):
    name = match.group(0)
    if LOCAL.match(name) or name in KEPT:
        return name
    if name in OTHERS:
        return OTHERS[name]
    return re.sub(r"(?<=[a-z0-9])([A-Z])", lambda m: "_" + m.group(1).lower(), name)


def respelled(text):
    return WORD.sub(spelled, text)


def in_ticks(text):
    return re.sub(r"`[^`\n]*`", lambda m: respelled(m.group(0)), text)


def main():
    code = [f for kind in ("rt", "antt", "edit") for f in glob.glob(f"crates/**/*.{kind}", recursive=True)]
    pages = ["README.md", "CONTRIBUTING.md", "docs/CONTRACTS.md", "docs/DECISIONS.md"]
    for paths, change in ((code, respelled), (pages, in_ticks)):
        for path in paths:
            if "/out/" in path:
                continue
            before = open(path, encoding="utf-8").read()
            after = change(before)
            if after != before:
                open(path, "w", encoding="utf-8").write(after)


main()
