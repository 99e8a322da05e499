#!/usr/bin/env python3
"""Brings the repository's own definitions and lemmas to today's spelling: words in snake case, a module for a namespace.

Run once at the top, after the kit's port.py (docs/PORT.md). What a name means stays; strings stay; names that begin with a
capital are types, facts and modules and stay. It prints names that fall together with a name that stood already."""
import collections
import glob
import re

NAME = re.compile(r"(?<![\w'′-])[a-z][\w'′-]*")
HUMP = re.compile(r"(?<=[a-z0-9])(?=[A-Z])|(?<=[A-Z])(?=[A-Z][a-z])")
# Lemmas whose names would fall together with a definition that their file names: 'a lemma that would have its function's name gets _lem'.
LEMMAS = {
    "arguments/proofs/Digits.antt": ["same_word"],
    "demand2/proofs/Watermark.antt": ["goes_on"],
    "events/proofs/Parts.antt": ["by_parts"],
    "follow/proofs/Comes.antt": ["goes_on"],
    "months/proofs/Few.antt": ["in_all", "sum_fits"],
    "months/proofs/Totals.antt": ["count_fits", "sum_fits"],
    "ranges/proofs/Ranges.antt": ["answer_at"],
    "recorded/proofs/Recorded.antt": ["at_own"],
    "sheetlines/proofs/Cases.antt": ["all_apart"],
}
STRING = re.compile(r'(b?"(?:[^"\\]|\\.)*")')


def snake(name):
    return HUMP.sub("_", name).lower() if HUMP.search(name) else name


def part(name):
    """A dash joins names, and a fact keeps its capital there."""
    return "-".join(snake(p) if p[:1].islower() else p for p in name.split("-"))


def respelled(text, seen):
    def one(m):
        new = part(m.group(0))
        if new != m.group(0):
            seen[m.group(0)] = new
        return new

    pieces = STRING.split(text)
    text = "".join(p if i % 2 else NAME.sub(one, p) for i, p in enumerate(pieces))
    return re.sub(r"\b([A-Z]\w*)·(\w+)", lambda m: f"{snake(m.group(1))}_{m.group(2)}", text)


def parted(path, text):
    """The lemmas of LEMMAS, at home and where they are brought in."""
    for home, names in LEMMAS.items():
        crate, _, module = home.removesuffix(".antt").split("/")
        brought = re.findall(rf"use Rattle\.{crate}\.proofs\.{module}\.\{{([^}}]*)\}}", text)
        for name in names:
            word = rf"(?<![\w'′.-]){name}(?![\w'′-])"
            if path.endswith("crates/" + home) or any(re.search(word, b) for b in brought):
                text = re.sub(word, name + "_lem", text)
    return text


def main():
    files = sorted(
        f
        for kind in ("src/**/*.rt", "specs/**/*.antt", "proofs/**/*.antt", "must-fail/*.edit")
        for f in glob.glob(f"crates/*/{kind}", recursive=True)
    )
    texts = {f: open(f, encoding="utf-8").read() for f in files}
    stood = {n for t in texts.values() for n in NAME.findall(t)}
    seen = {}
    for f, t in texts.items():
        new = respelled(parted(f, t), seen)
        if new != t:
            open(f, "w", encoding="utf-8").write(new)
    made = collections.defaultdict(list)
    for old, new in seen.items():
        made[new].append(old)
    for new, olds in sorted(made.items()):
        if new in stood:
            print("stood already:", new, "<-", *olds)
        if len(olds) > 1:
            print("fall together:", new, "<-", *olds)


main()
