#!/usr/bin/env python3
"""Lists the places in crates/*/src that docs/DESIGN-PASS.md counts, point by point.

    python3 tools/places.py [COMMIT]     of a commit, or of the files as they are
    python3 tools/places.py -v [COMMIT]  with each place
"""
import difflib
import os
import re
import subprocess
import sys

ROOT = os.path.dirname(os.path.dirname(os.path.abspath(__file__)))


def git(*words):
    return subprocess.run(["git", "-C", ROOT, *words], check=True, capture_output=True, text=True).stdout


def files(commit, suffix):
    """The texts of the files below crates/ whose path matches, by path."""
    if commit:
        names = git("ls-tree", "-r", "--name-only", commit, "crates").split("\n")
    else:
        names = git("ls-files", "crates").split("\n")
    wanted = [name for name in names if re.search(suffix, name)]
    if commit:
        return {name: git("show", f"{commit}:{name}") for name in wanted}
    return {name: open(os.path.join(ROOT, name), encoding="utf-8").read() for name in wanted
            if os.path.exists(os.path.join(ROOT, name))}


def lines_with(sources, pattern):
    """The lines of code, not of comments, with a pattern."""
    found = []
    for name, text in sources.items():
        for number, line in enumerate(text.split("\n"), 1):
            code = line.split("//")[0]
            if re.search(pattern, code):
                found.append(f"{name}:{number}: {line.strip()}")
    return found


def comments_with(sources, pattern):
    found = []
    for name, text in sources.items():
        for number, line in enumerate(text.split("\n"), 1):
            if "//" in line and re.search(pattern, line.split("//")[1]):
                found.append(f"{name}:{number}: {line.strip()}")
    return found


FUNCTION = re.compile(r"^ *(?:pub )?(?:extern \"C\" )?fn (\w+)(?:<[^>]*>)?\(([^)]*)\)[^{]*?(?:\n|\{)", re.M)


def functions(sources):
    """Each function: its file, name, parameters and body's lines."""
    found = []
    for name, text in sources.items():
        for match in FUNCTION.finditer(text):
            parameters = [p.strip() for p in match[2].split(",") if p.strip()]
            start = text.find("\n{\n", match.start())
            end = text.find("\n}\n", match.start())
            if re.match(r"^ +(pub )?fn", text[match.start():].lstrip("\n")):
                start = text.find("\n    {\n", match.start())
                end = text.find("\n    }\n", match.start())
            body = text[start + 2:end].split("\n") if 0 <= start < end else []
            body = [line.strip() for line in body if line.strip() and not line.strip().startswith("//")]
            found.append((name, match[1], parameters, body))
    return found


def shape(body):
    """A body with its names, numbers and texts made alike."""
    text = re.sub(r'b?"[^"]*"', "T", "\n".join(body))
    text = re.sub(r"\b[0-9]+\b", "0", text)
    keywords = r"(let|mut|if|else|match|return|for|in|while|true|false|None|Some|Ok|Err|as)\b"
    return re.sub(r"\b(?!" + keywords + r")[A-Za-z_]\w*", "n", text)


def twins(sources):
    """Pairs of functions of five lines or more whose bodies have nearly the same shape."""
    whole = [(f, n, shape(b)) for f, n, _, b in functions(sources) if len(b) >= 6]
    found = []
    for i, (file, name, one) in enumerate(whole):
        for other_file, other, two in whole[i + 1:]:
            if min(len(one), len(two)) * 5 < max(len(one), len(two)) * 4:
                continue
            if difflib.SequenceMatcher(None, one, two, autojunk=False).ratio() >= 0.92:
                found.append(f"{file} {name} ~ {other_file} {other}")
    return found


def many_parameters(sources):
    return [f"{file} {name}: {len(ps)} parameters" for file, name, ps, _ in functions(sources) if len(ps) >= 7]


def buffers(sources):
    """Functions that take a buffer and, right behind it, a place or length in it."""
    found = []
    for file, name, ps, _ in functions(sources):
        for one, two in zip(ps, ps[1:]):
            if re.search(r": &mut \[u(8|16)[\];]", one) and re.match(r"(at|tail|end|count|len|booked): usize", two):
                found.append(f"{file} {name}: {one}, {two}")
    return found


def answers(proofs):
    return [f"{name}: {text.count(chr(10))} lines" for name, text in proofs.items()]


def report(commit, verbose):
    sources = files(commit, r"/src/.*\.rt$")
    proofs = files(commit, r"/proofs/.*(Answers|Invariants|Proof)\.antt$")
    points = [
        ("1 own enums", lines_with(sources, r"^(pub )?enum ")),
        ("1 refusals by number", lines_with(sources, r"Refused\([0-9]+,|refused(_pair)?\(out, [^)]*\b60,")),
        ("1 refusals matched to be passed on", lines_with(sources, r"Refused\([a-z]\w*, [a-z]\w*\) (=>|$)")),
        ("1 a flag with a value beside it", lines_with(sources, r"^    (pub )?(whole|flat): bool,")),
        ("1 a number that stands for none", comments_with(
            sources, r"the length (where there is none|of the counts)|their count$|which is 0 where|more than any sect")),
        ("1 numbers for kinds", lines_with(sources, r"\b(tag|code): u16")),
        ("2 functions of nearly one shape", twins(sources)),
        ("3 while loops", lines_with(sources, r"^ +while ")),
        ("4 conversions and comparisons by hand", lines_with(
            sources, r"\b(wide|byte|larger|smaller|bit|either)\(| as (usize|u64|u32)\b")),
        ("4 narrowing conversions", lines_with(sources, r" as (u16|u8)\b")),
        ("5 functions of seven parameters or more", many_parameters(sources)),
        ("6 a buffer with a place or length beside it", buffers(sources)),
        ("7 a number that says which step to run", lines_with(sources, r"match (tag|code)\b")),
        ("8 files of answers and invariants", answers(proofs)),
    ]
    for title, places in points:
        print(f"{len(places):4}  {title}")
        if verbose:
            for place in places:
                print(f"        {place}")
    total = sum(text.count("\n") for text in proofs.values())
    print(f"{total:4}  8 lines in them")


if __name__ == "__main__":
    rest = [word for word in sys.argv[1:] if word != "-v"]
    report(rest[0] if rest else None, "-v" in sys.argv)
