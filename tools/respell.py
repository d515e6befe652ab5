#!/usr/bin/env python3
"""Brings the repository's own definitions and lemmas to today's spelling, once, after port.py.

Facts are spelled like types, all other names in snake case; a dash stays where it joins two names, as in
has-without, the law of has at without. Names that the library or the prover makes are left as they are.
"""
import pathlib
import re
import sys

# Facts: what is true or false of its arguments.
FACTS = {
    "At-home": "AtHome",
    "By-hand": "ByHand",
    "Never-twice": "NeverTwice",
    "Open-by-form": "OpenByForm",
    "Own-lanes-only": "OwnLanesOnly",
}

# Names that say a function of the library or of this repository: the function's name of today, joined by a dash.
JOINED = {
    "getD-zeros": "slice_index-replicate",
    "has-and": "has-bit_and",
    "has-or": "has-bit_or",
    "has-moved": "has-moved_set",
    "has-those-below": "has-those_below",
    "has-without": "has-without",
    "has-only": "has-only",
    "nth-map": "slice_get-own_map",
    "nth-set-here": "slice_get-set_here",
    "nth-set-there": "slice_get-set_there",
    "nth-take": "slice_get-take",
    "nth_drop": "slice_get-drop",
    "ring-length": "length-ring",
    "unpacked-packed": "unpacked-packed",
}

# All others: the same words in snake case.
PLAIN = """
    added-other added-tag adding-old agree-drawn agree-other all-at all-empty all-formed all-home and-odd
    at-home-same back-moved backward-at backward-table blank-sound body-length brought-one by-choice by-places
    changed-here changed-there choice-is choice-tags choice-text cleared-part cut-drawn cut-empty cut-lawful
    cut-new deal-is draw-empty draw-lowest draw-none drawn-by drawn-empty drawn-lawful drawn-place drop-it
    drop-none every-round first-moved first-place first-stood first-take forward-at forward-table full-lane
    full-lawful full-roll has-half has-past has-power has-zero home-small in-only in-part in-those in-union
    is-lane keep-it lane-dealt lane-is lane-old lane-other lane-tag lanes-of lawful-prop less-digit less-odd
    less-sound line-changed lost-none mine-alone mixed-none moved-set never-twice next-free no-places none-empty
    none-freed none-some none-taken none-waits not-of nothing-lost nothing-mixed nowhere-else of-choice one-added
    one-deal one-freed one-letter open-by-form open-dealt or-odd own-lanes-only part-from part-has part-lawful
    pass-by passed-past passed-some past-empty placed-sound recorded-at recorded-set rest-take ring-all ring-first
    ring-more ring-rest roll-opens rolled-lawful rolled-none same-answers same-below same-homed same-meaning
    shuffled-drawn shuffled-lawful sound-lawful stands-is step-sound table-from table-from-at tags-cleared
    tags-empty tags-found tags-from tags-in tags-low tags-once tags-rising take-empty taking-old those-below
    valid-below value-from with-lane zeros-even zeros-odd
""".split()

NAMES = {**FACTS, **JOINED, **{name: name.replace("-", "_") for name in PLAIN}}
TOKEN = re.compile(r"(?<![\w'·-])[A-Za-z_][\w']*(?:-[\w']+)*(?![\w'-])")


def main():
    crates = pathlib.Path(sys.argv[1] if len(sys.argv) > 1 else ".") / "crates"
    texts = {p: p.read_text() for p in sorted(crates.rglob("*")) if p.suffix in (".antt", ".rt") and "out" not in p.parts}
    before = {name for text in texts.values() for name in TOKEN.findall(text)}
    fall_together = [(o, n) for o, n in NAMES.items() if o != n and o in before and n in before]
    if fall_together:
        sys.exit(f"these would fall together: {fall_together}")
    for path, text in texts.items():
        new = TOKEN.sub(lambda m: NAMES.get(m.group(), m.group()), text)
        if new != text:
            path.write_text(new)
            print(path)


main()
