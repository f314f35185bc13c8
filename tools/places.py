#!/usr/bin/env python3
"""Counts, in crates/*/src, the places that docs/DESIGN-PASS.md speaks of, point by point.

    python3 tools/places.py            the counts
    python3 tools/places.py WORD       the lines behind the counts whose label holds the word
    python3 tools/places.py --at REV   the counts at a commit

Each line of PLACES is a label and a pattern; what is counted are the lines of the sources that match it.
"""

import re
import subprocess
import sys

PLACES = [
    ("1 enums of our own", r"^ *(pub )?enum "),
    ("1 constants that are numbers for kinds", r"const (ACCEPTED|RACE|REFUSED|NO_ROOM|DONE|NEVER_USED|LIVE|FREED|UNSET|INVALID|EINTR|NOT_WHOLE|CELL|NUMBER|NONE): "),
    ("1 arms of a match on numbers", r"^ *[0-9]+ => "),
    ("1 results that say by a bool whether it went well", r"fn (write|answer|end_line|is_read|show|judge_poisoned)[a-z_]*\(.*-> bool|^\) -> bool \{"),
    ("2 functions with a type, a size or a kind in their name", r"fn [a-z_]*(words?|numbers?|status(es)?|bytes|u16|u32|pair|byte|data|datum|slot|named|selected)(_[a-z]+)*[(<]"),
    ("3 while", r"^ *while "),
    ("3 steps of an index by one", r"^ *[a-z]+ \+= 1;"),
    ("3 for over a range of numbers", r"for [a-z_]+ in [0-9a-zA-Z_:]+\.\."),
    ("4 arms that are true or false", r"=> (true|false),"),
    ("4 returns of true or false", r"return (true|false);"),
    ("4 arms that turn a variant to a number", r"::[A-Za-z]+ => [0-9]+,"),
    ("4 numbers put together or taken apart by hand", r"(256|65_536) \*|% 256|/ 256"),
    ("4 numbers widened by as", r" as (u16|u32|u64|usize)\b"),
    ("4 numbers printed by hand", r"io::(decimal|hex)\(|fn put_[a-z_]*\("),
    ("5 lines of a requires", r"^ *requires "),
    ("5 the status bytes among the parameters", r"^ *status: &"),
    ("5 the text among the parameters", r"text: &mut \[u8; ROOM\]"),
    ("6 a length beside what it is of", r"pub (length|letters|count): usize"),
    ("6 arrays in fields of a struct", r"^ +pub [a-z]+: \[(u8|u16|u32); "),
    ("7 a switch on what is to be done", r"match (choice|target) \{|(buffer|short) == |short: u8"),
]


def sources(rev):
    if rev is None:
        names = sorted(subprocess.run(["git", "ls-files", "crates/*/src/*.rt"], capture_output=True, text=True, check=True).stdout.split())
        return [(name, open(name, encoding="utf-8").read()) for name in names]
    listed = subprocess.run(["git", "ls-tree", "-r", "--name-only", rev, "crates"], capture_output=True, text=True, check=True).stdout.split()
    names = [name for name in listed if "/src/" in name and name.endswith(".rt")]
    return [(name, subprocess.run(["git", "show", f"{rev}:{name}"], capture_output=True, text=True, check=True).stdout) for name in names]


def main():
    args = sys.argv[1:]
    rev = None
    if args[:1] == ["--at"]:
        rev, args = args[1], args[2:]
    files = sources(rev)
    for label, pattern in PLACES:
        if args and args[0] not in label:
            continue
        found = [(name, i, line) for name, text in files for i, line in enumerate(text.splitlines(), 1) if re.search(pattern, line)]
        print(f"{len(found):4}  {label}")
        if args:
            for name, i, line in found:
                print(f"      {name}:{i}: {line.strip()}")


main()
