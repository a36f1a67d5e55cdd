#!/usr/bin/env python3
"""Spells this repository's own definitions and lemmas as today's Rattle does: words in snake case (slotNext is slot_next).

usage: tools/port_names.py [FOLDER]        in a folder that port.py has turned, once; FOLDER is `.` if it is not given

It goes over crates/*/src, specs and proofs, comments too. Types and modules begin with a capital and stay, and so do a lemma's hyphens, strings,
and each function of src/. `tools/port_names.py --table` prints what each word becomes, for pages, tests and edits: these are done by hand with it.
Seven lemmas and fields would fall together with a definition (port.py has spelled `pairs-of`, a lemma on pairsOf, as pairs_of): these keep the
hyphen that they had.
"""

import os
import re
import sys

WORD = re.compile(r"(?<![A-Za-z0-9_'])[a-z][A-Za-z0-9_']*")
HUMP = re.compile(r"(?<=[a-z0-9])[A-Z]")
TEXT = re.compile(r'b?"(?:[^"\\\n]|\\.)*"')
# A lemma or a field that port.py gave the name that a definition has from here on: it keeps its hyphen.
TOGETHER = {
    "pairs_of": "pairs-of",
    "good_length": "good-length",
    "all_quiet": "all-quiet",
    "goes_on": "goes-on",
    "too_few": "too-few",
    "no_bytes": "no-bytes",
    "to_none": "to-none",
}
# Of these the name of a function of src/ as well: it stays where it stands in a path.
FUNCTION = "all_quiet"


def snake(word):
    return HUMP.sub(lambda m: "_" + m[0].lower(), word)


def spell(text):
    return WORD.sub(lambda m: snake(m[0]), text)


def texts(root):
    for folder, dirs, files in os.walk(os.path.join(root, "crates")):
        dirs[:] = sorted(d for d in dirs if d not in ("out", ".git"))
        for name in sorted(files):
            if name.endswith((".rt", ".antt")):
                yield os.path.join(folder, name)


def turned(path, text):
    if path.endswith(".antt"):
        for was, now in TOGETHER.items():
            before = r"(?<![\w'.-])" if was == FUNCTION else r"(?<![\w'-])"
            text = re.sub(rf"{before}{was}(?![\w'-])", now, text)
    out, at = [], 0
    for m in TEXT.finditer(text):
        out += [spell(text[at : m.start()]), m[0]]
        at = m.end()
    return "".join(out) + spell(text[at:])


def main(argv):
    table = "--table" in argv
    root = ([a for a in argv if a != "--table"] or ["."])[0]
    words = set()
    for path in texts(root):
        with open(path, encoding="utf-8") as f:
            text = f.read()
        if table:
            words |= {w for w in WORD.findall(text) if HUMP.search(w)}
            continue
        new = turned(path, text)
        if new != text:
            with open(path, "w", encoding="utf-8") as f:
                f.write(new)
    for w in sorted(words):
        print(w, snake(w))
    return 0


if __name__ == "__main__":
    raise SystemExit(main(sys.argv[1:]))
