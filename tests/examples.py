#!/usr/bin/env python3
"""examples.py: the page examples/README.md, which says of each log of examples/ what its fields are and its verdict.

    examples.py          compares the page with what is made
    examples.py --write  stores it

The words are read off the bytes of each log by document 01's table of tags and order 1's two rows, and the verdicts are those of
examples/verdicts, which tests/cases.py keeps; nothing comes from the program.
"""
import os
import struct
import sys

ROOT = os.path.dirname(os.path.dirname(os.path.abspath(__file__)))

# of each tag: its value after the thread, a letter for each number in its order (cells take two bytes, data and constants four),
# and the words
TAGS = {
    1: ("pCN", "p{0} := malloc cell {1} data {2}"),
    2: ("p", "free p{0}"),
    3: ("pp", "p{0} := p{1}"),
    4: ("pps", "p{0} := p{1}.{2}"),
    5: ("psp", "p{0}.{1} := p{2}"),
    6: ("xp", "x{0} := p{1}.data"),
    7: ("px", "p{0}.data := x{1}"),
    8: ("xN", "x{0} := {1}"),
    9: ("pp", "assert p{0} = p{1}"),
    10: ("pp", "assert p{0} ≠ p{1}"),
    11: ("xx", "assert x{0} = x{1}"),
    12: ("xx", "assert x{0} ≠ x{1}"),
    13: ("xxx", "x{0} := x{1} + x{2}"),
    14: ("ppp", "cas done p{0} = p{1}, p{0} := p{2}"),
    15: ("ppp", "cas failed p{0} ≠ p{1}, r = p{2}"),
}
FORMATS = {"C": "H", "N": "I"}

HEAD = """# Examples

A log for each case of [document 01](../docs/01-scope.md) (A to T) and of [the orders](../docs/02-orders.md), with its verdict, as
`./thawhazel < examples/NAME.log` prints it. A field with no thread named is thread 0's. The logs and the file `verdicts` are made
by `tests/cases.py --write`, this page by `tests/examples.py --write`.

| name | fields | verdict |
|---|---|---|
"""


def fields_of(log):
    """The words of the fields at the front, and the bytes after them, which are no field."""
    fields, at = [], 0
    while at < len(log):
        letters, words = TAGS.get(log[at], (None, None))
        if letters is None or len(log) < at + 3:
            break
        form = "<B" + "".join(FORMATS.get(letter, "B") for letter in letters)
        (length,) = struct.unpack_from("<H", log, at + 1)
        if length != struct.calcsize(form) or len(log) < at + 3 + length:
            break
        thread, *numbers = struct.unpack_from(form, log, at + 3)
        said = words.format(*numbers)
        fields.append(f"thread {thread}: {said}" if thread else said)
        at += 3 + length
    return fields, log[at:]


def in_words(log):
    fields, rest = fields_of(log)
    if len(fields) > 30:
        said = fields[:3] + [f"… {len(fields)} fields in all"]
        return "; ".join(said + (["a byte more"] if rest else []))
    return "; ".join(fields + ([f"{len(rest)} bytes that are no field"] if rest else [])) or "empty"


def page():
    rows = ""
    for line in open(ROOT + "/examples/verdicts").read().splitlines():
        file, verdict = line.split(" ", 1)
        log = open(f"{ROOT}/examples/{file}", "rb").read()
        rows += f"| [{file.removesuffix('.log')}]({file}) | {in_words(log)} | `{verdict}` |\n"
    return HEAD + rows


def main():
    path = ROOT + "/examples/README.md"
    if "--write" in sys.argv:
        open(path, "w").write(page())
        return
    if open(path).read() != page():
        sys.exit("examples/README.md is not what the logs and their verdicts give: tests/examples.py --write")
    print(f"examples/README.md says what the {page().count('](') - 2} logs are")


main()
