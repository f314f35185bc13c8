#!/usr/bin/env python3
"""Brings this repository's own words of specs/ and proofs/ to the spelling of today's library: words in snake case.

usage: tools/spelling.py [FOLDER]      once, after port.py; FOLDER is the top of the repository

Turned are the words that a file of specs/, or one right in proofs/, declares: definitions, lemmas and the fields of records. A name in
camel case gets underscores. A dash stays where it joins names of definitions, as in length-field_bytes, and is an underscore elsewhere.
Types, modules, functions of src/, and the names that the check makes for a function's proof keep theirs.
It stops, with nothing written, where two words would fall together.
"""

import glob
import os
import re
import sys

# Lemmas that would get the name of the definition that they are about, by the names that port.py leaves.
BESIDE = {w: n + "_lem" for w, n in {
    "copied_at": "copied_at", "goes_on": "goes_on", "long-enough": "long_enough", "same-field": "same_field", "front-widths": "front_widths",
    "late-reuse": "late_reuse", "same-data": "same_data", "same-pointers": "same_pointers", "same-adr": "same_adr", "read_told": "read_told", "after_free": "after_free", "points_to": "points_to", "no_race": "no_race",
}.items()}
# Names that definitions bind, and lemmas on what the library calls get_or today.
OTHERS = {
    "parseRest": "parse_rest", "selectorsOfCell": "selectors_of_cell",
    "get_d_set": "get_or-set", "set_get_d": "set-get_or", "getD-same": "get_or-same",
}
LIBRARY = set(
    "length take drop append map reverse set get get_or sum add mul sub div mod min max not and or cons nil replicate splice suc zero eq lt le refl".split()
)
WORD = r"[^\s(){}\[\].,;:`\"|]"
DECLARED = re.compile(r"^(?:(?:abbrev|unfoldable|pub|private)\s+)*(" + WORD + r"+)\s*(?:\{[^}]*\}\s*)?:(?!:)")
FIELD = re.compile(r"^\s+(?:pub\s+)?([a-z]" + WORD + r"*)\s*:(?!:)")
INNER = re.compile(r"^(?: {2}| {4}| {6})(?:(?:abbrev|unfoldable|pub|private)\s+)*([a-z]" + WORD + r"*)\s*:(?!:)")


def files(top, *patterns):
    for pattern in patterns:
        yield from sorted(glob.glob(os.path.join(top, "crates", "*", pattern), recursive=True))


def declared(top):
    """The words that a file of specs/ or one right in proofs/ declares, without the types."""
    words = set()
    for path in files(top, "specs/*.antt", "proofs/*.antt"):
        form = DECLARED
        for line in open(path, encoding="utf-8"):
            if re.match(r"(?:pub\s+)?(?:record|data)\b", line):
                form = FIELD
                continue
            if re.match(r"(?:pub\s+)?module\b", line):
                form = INNER
                continue
            if line.strip() and not line[0].isspace():
                form = DECLARED
            found = form.match(line)
            if found and re.match(r"[a-z]", found.group(1)):
                words.add(found.group(1))
    return words


def snake(part):
    part = re.sub(r"([a-z0-9])([A-Z])", r"\1_\2", part)
    part = re.sub(r"([A-Z])([A-Z][a-z])", r"\1_\2", part)
    return part.lower()


def definitions(top):
    """The words of specs/ and of the library that a dash may join."""
    words = set(LIBRARY)
    for path in files(top, "specs/*.antt"):
        for line in open(path, encoding="utf-8"):
            found = re.match(r"(?:abbrev|unfoldable) pub ([a-z]\w*)", line)
            if found:
                words.add(found.group(1))
    return words


def spelled(word, known):
    parts = word.split("-")
    joint = "-" if len(parts) > 1 and all(p in known for p in parts) else "_"
    if any(ord(c) > 127 for c in word):
        return word
    return joint.join(snake(p) for p in parts)


def main():
    top = os.path.abspath(sys.argv[1] if len(sys.argv) > 1 else ".")
    words = declared(top)
    known = definitions(top)
    turned = {w: spelled(w, known) for w in words}
    turned = {w: n for w, n in turned.items() if w != n and w not in BESIDE}
    back = {}
    for old, new in turned.items():
        back.setdefault(new, []).append(old)
    texts = {p: open(p, encoding="utf-8").read() for p in files(top, "specs/**/*.antt", "proofs/**/*.antt", "src/**/*.rt")}
    used = {}
    for path, text in texts.items():
        for token in re.findall(WORD + "+", text):
            used.setdefault(token, set()).add(path)
    together = [(new, olds) for new, olds in back.items() if len(olds) > 1 or (new in words and new not in BESIDE)]
    for new, olds in sorted(together):
        print("fall together:", new, sorted(olds), "declared too" if new in words else "")
    for new in sorted(back):
        if new in used:
            print("look:", new, "from", back[new][0], "stands already in", ", ".join(os.path.relpath(p, top) for p in sorted(used[new]))[:200])
    if together:
        raise SystemExit(1)
    edge = r"[\w'\-]"
    both = {"antt": turned | BESIDE | OTHERS, "rt": turned}
    pattern = {kind: re.compile("(?<!" + edge + ")(" + "|".join(re.escape(w) for w in sorted(ws, key=len, reverse=True)) + ")(?!" + edge + ")") for kind, ws in both.items()}
    for path, text in texts.items():
        kind = path.rsplit(".", 1)[1]
        new = pattern[kind].sub(lambda m: both[kind][m.group(1)], text)
        if new != text:
            open(path, "w", encoding="utf-8").write(new)
    print(len(turned), "words turned")


main()
