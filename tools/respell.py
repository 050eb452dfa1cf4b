#!/usr/bin/env python3
"""Brings the repository's own definitions, lemmas, fields and ghost members to snake case.

Run once, at the top, right after the kit's port.py: `python3 tools/respell.py`; `--list` only lists the names.
It turns each name that begins with a small letter and has a capital inside (`firstNo`, `largestFilter-push`)
in specs/, proofs/, the ghost text of src/ and the must-fail edits. Types, modules and facts keep their capitals.
A new name that stands already for something else stops it, but for those in LOOKED_AT.
"""
import collections
import glob
import re
import sys

WORD = re.compile(r"(?<![A-Za-z0-9_'])[a-z][A-Za-z0-9_']*")
CAMEL = re.compile(r"[a-z0-9][A-Z]")

# Each stands also as a function, a local or a goal of src/, which no clause can mean.
LOOKED_AT = set(
    "clip_on_tiles default_mode draw_lines draw_shows draws_in is_draw largest_filter last_draw layer_shows "
    "nodes_of on_tiles opacity_fits past_holder placed_kind recorded_open recording_call shift_on_tiles "
    "shift_x shift_y without_return".split()
)


def snake(word):
    return re.sub(r"(?<=[a-z0-9'])([A-Z])", lambda m: "_" + m.group(1).lower(), word)


def turned(text):
    return WORD.sub(lambda m: snake(m.group()) if CAMEL.search(m.group()) else m.group(), text)


def main():
    files = [
        name
        for kind in ("antt", "rt", "edit")
        for name in sorted(glob.glob(f"crates/**/*.{kind}", recursive=True))
        if "/out/" not in name
    ]
    texts = {name: open(name, encoding="utf-8").read() for name in files}
    words = collections.Counter()
    for text in texts.values():
        words.update(m.group() for m in WORD.finditer(text))
    names = {word: snake(word) for word in sorted(words) if CAMEL.search(word)}
    if "--list" in sys.argv:
        for old, new in names.items():
            print(old, new, words[old])
        return
    met = [new for new in names.values() if new in words and new not in LOOKED_AT]
    if met:
        sys.exit("these new names stand already: " + ", ".join(met))
    for name, text in texts.items():
        new = turned(text)
        if new != text:
            open(name, "w", encoding="utf-8").write(new)


main()
