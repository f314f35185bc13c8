#!/usr/bin/env python3
"""cases.py: the log cases of docs/01-scope.md and of document 02's orders, as files of examples/ with their verdicts.

    cases.py          compares examples/ with what is made, then judges and replays every example by ./thawhazel, and has it show
                      some of their fields
    cases.py --write  stores the examples

The fields and verdicts below are typed from document 01's table "Log cases to settle" and from the orders' words; nothing
comes from the program.
"""
import os
import struct
import subprocess
import sys

ROOT = os.path.dirname(os.path.dirname(os.path.abspath(__file__)))


def field(tag, thread, *numbers):
    """A field: one-byte numbers as they stand, ("cell", c) in two bytes, ("number", n) in four."""
    value = bytes([thread])
    for n in numbers:
        value += bytes([n]) if isinstance(n, int) else struct.pack({"cell": "<H", "number": "<I"}[n[0]], n[1])
    return bytes([tag]) + struct.pack("<H", len(value)) + value


def malloc(p, cell, data, thread=0):
    return field(1, thread, p, ("cell", cell), ("number", data))


def free(p, thread=0):
    return field(2, thread, p)


def constant(x, n):
    return field(8, 0, x, ("number", n))


def copy(p, q, thread=0):
    return field(3, thread, p, q)


def equal(p, q):
    return field(9, 0, p, q)


def differ(p, q):
    return field(10, 0, p, q)


def cas_done(p, q, r, thread=0):
    return field(14, thread, p, q, r)


def cas_failed(p, q, r, thread=0):
    return field(15, thread, p, q, r)


C_BEGINS = malloc(0, 5, 7) + copy(24, 0, 1) + free(0)
C_ENDS = field(6, 1, 24, 24)
E = malloc(0, 5, 0) + malloc(1, 6, 0) + field(5, 0, 0, 0, 1) + free(0) + malloc(0, 5, 0) + field(4, 0, 16, 0, 0)

# order 1: p1 keeps the cell of p0, which is freed; then given out again
STALE = malloc(0, 5, 0) + copy(1, 0) + free(0)
REUSED = STALE + malloc(0, 5, 0)


class Treiber:
    """One thread at the stack of source 004, Example 1, whose top is p0; ptop and pnode are the thread's own."""

    def __init__(self, thread):
        self.thread, self.ptop, self.pnode, self.value = thread, 16 + 8 * thread, 17 + 8 * thread, 16 + 8 * thread

    def cas(self):
        return cas_done(0, self.ptop, self.pnode, self.thread)

    def push(self, cell):
        t, ptop, pnode = self.thread, self.ptop, self.pnode
        node = malloc(pnode, cell, 0, t) + field(7, t, pnode, self.value)
        return node + copy(ptop, 0, t) + field(5, t, pnode, 0, ptop) + self.cas()

    def begin_pop(self):
        return copy(self.ptop, 0, self.thread) + field(4, self.thread, self.pnode, self.ptop, 0)

    def end_pop(self):
        return self.cas() + field(6, self.thread, self.value, self.ptop) + free(self.ptop, self.thread)


SLOW, FAST = Treiber(0), Treiber(1)
POP_BEGUN = FAST.push(6) + FAST.push(5) + SLOW.begin_pop()
MEANWHILE = FAST.begin_pop() + FAST.end_pop() + FAST.push(7) + FAST.push(5)

CASES = [
    ("A", b"", "accepted 0 0 0"),
    ("B", malloc(0, 5, 7) + free(0), "accepted 2 1 0"),
    ("C", C_BEGINS + C_ENDS, "race 3 1 24 22"),
    ("D", C_BEGINS + malloc(1, 5, 7) + C_ENDS, "race 4 1 24 33"),
    ("E", E, "accepted 6 3 2"),
    ("F", E + equal(16, 1), "race 6 0 16 52"),
    ("G", malloc(0, 5, 0) * 2, "refused 13 1 11"),
    ("H", field(6, 0, 0, 0), "refused 12 0 0"),
    ("I", free(0), "accepted 1 0 0"),
    ("J", differ(0, 0), "refused 14 0 0"),
    ("K", malloc(0, 5, 0) + differ(0, 0), "refused 14 1 11"),
    ("L", malloc(0, 5, 7) + free(0) + malloc(0, 5, 9) + field(6, 0, 0, 0), "accepted 4 2 1"),
    ("N", (malloc(0, 5, 0) + free(0)) * 1024 + malloc(0, 5, 0), "refused 11 2048 16384"),
    ("O", malloc(0, 5, 0) + free(0) + malloc(0, 5, 0) + field(4, 0, 16, 0, 0) + free(16), "race 4 0 16 34"),
    ("P", constant(0, 4294967295) + constant(1, 1) + field(13, 0, 2, 0, 1) + field(11, 0, 2, 3), "accepted 4 0 0"),
    ("Q", free(79, 7), "accepted 1 0 0"),
    ("Q-p80", free(80, 7), "refused 8 0 0"),
    ("Q-thread8", free(79, 8), "refused 7 0 0"),
    ("R", malloc(0, 1023, 0), "accepted 1 1 1"),
    ("R-cell1024", malloc(0, 1024, 0), "refused 10 0 0"),
    ("S", free(0) * 4096, "accepted 4096 0 0"),
    ("S-one-byte-more", free(0) * 4096 + b"\0", "refused 3 4096 20480"),
    ("T", bytes(45056), "refused 5 0 0"),
    ("T-one-byte-more", bytes(45057), "refused 1 0"),
    ("cas-done", malloc(0, 5, 0) + malloc(1, 6, 0) + copy(2, 0) + cas_done(0, 2, 1), "accepted 4 2 2"),
    ("cas-done-unequal", malloc(0, 5, 0) + malloc(1, 6, 0) + cas_done(0, 1, 1), "refused 14 2 22"),
    ("cas-done-race-p", STALE + cas_done(1, 0, 2), "race 3 0 1 22"),
    ("cas-done-race-q", REUSED + cas_done(0, 1, 2), "race 4 0 1 33"),
    ("cas-done-copies-invalid", REUSED + cas_done(0, 0, 1), "accepted 5 2 1"),
    ("cas-failed", malloc(0, 5, 0) + malloc(1, 6, 0) + cas_failed(0, 1, 1), "accepted 3 2 2"),
    ("cas-failed-equal", malloc(0, 5, 0) + cas_failed(0, 0, 1), "refused 14 1 11"),
    ("cas-failed-race-p", STALE + cas_failed(1, 0, 2), "race 3 0 1 22"),
    ("cas-failed-race-q", REUSED + cas_failed(0, 1, 2), "race 4 0 1 33"),
    ("cas-failed-foreign-r", cas_failed(0, 0, 24), "refused 8 0 0"),
    ("cas-treiber", POP_BEGUN + SLOW.end_pop(), "accepted 15 2 1"),
    ("cas-treiber-aba", POP_BEGUN + MEANWHILE + SLOW.end_pop(), "race 27 0 16 192"),
    ("tag16", field(16, 0, 0, 0, 0), "refused 5 0 0"),
    ("unset-equal-both", equal(0, 1), "accepted 1 0 0"),
    ("unset-equal-left", malloc(1, 0, 0) + equal(0, 1), "refused 14 1 11"),
    ("unset-equal-right", malloc(0, 0, 0) + equal(0, 1), "refused 14 1 11"),
    ("unset-differ-both", differ(0, 1), "refused 14 0 0"),
    ("unset-differ-left", malloc(1, 0, 0) + differ(0, 1), "accepted 2 1 1"),
    ("unset-differ-right", malloc(0, 0, 0) + differ(0, 1), "accepted 2 1 1"),
    ("unset-cas-done-both", malloc(2, 0, 0) + cas_done(0, 1, 2), "accepted 2 1 1"),
    ("unset-cas-done-left", malloc(1, 0, 0) + cas_done(0, 1, 2), "refused 14 1 11"),
    ("unset-cas-done-right", malloc(0, 0, 0) + cas_done(0, 1, 2), "refused 14 1 11"),
    ("unset-cas-failed-both", malloc(2, 0, 0) + cas_failed(0, 1, 2), "refused 14 1 11"),
    ("unset-cas-failed-left", malloc(1, 0, 0) + cas_failed(0, 1, 2), "accepted 2 1 1"),
    ("unset-cas-failed-right", malloc(0, 0, 0) + cas_failed(0, 1, 2), "accepted 2 1 1"),
]

# the 28 bytes that document 01 prints for case C
assert dict((n, log) for n, log, _ in CASES)["C"] == bytes.fromhex(
    "01 08 00 00 00 05 00 07 00 00 00 03 03 00 01 18 00 02 02 00 00 00 06 03 00 01 18 18")


def printed(log, *words):
    done = subprocess.run([ROOT + "/thawhazel", *words], input=log, stdout=subprocess.PIPE, check=True)
    return done.stdout.decode()


def judged(log):
    return printed(log)


# a log with every tag, so that every row is judged and replayed
EVERY_TAG = (
    malloc(0, 5, 7) + constant(0, 4294967295) + copy(1, 0) + field(5, 0, 0, 1, 1) + field(4, 0, 2, 0, 1) + field(6, 0, 1, 2)
    + field(7, 0, 0, 1) + field(13, 0, 2, 0, 1) + equal(0, 1) + differ(0, 3) + field(11, 0, 1, 1) + field(12, 0, 0, 1)
    + cas_done(1, 0, 2) + cas_failed(1, 3, 2) + free(0)
)

# the replays that the cases tell of: the k-th malloc names cell k; L's second starts with 7, which its cell held
REPLAYS = {
    "B": malloc(0, 0, 7) + free(0),
    "E": malloc(0, 0, 0) + malloc(1, 1, 0) + field(5, 0, 0, 0, 1) + free(0) + malloc(0, 2, 0) + field(4, 0, 16, 0, 0),
    "L": malloc(0, 0, 7) + free(0) + malloc(0, 1, 7) + field(6, 0, 0, 0),
    "R": malloc(0, 0, 0),
    "every tag": malloc(0, 0, 7) + EVERY_TAG[11:],
    "cas-done": malloc(0, 0, 0) + malloc(1, 1, 0) + copy(2, 0) + cas_done(0, 2, 1),
    "cas-done-copies-invalid": malloc(0, 0, 0) + copy(1, 0) + free(0) + malloc(0, 1, 0) + cas_done(0, 0, 1),
    "cas-failed": malloc(0, 0, 0) + malloc(1, 1, 0) + cas_failed(0, 1, 1),
    "cas-treiber": FAST.push(0) + FAST.push(1) + SLOW.begin_pop() + SLOW.end_pop(),
}


# order 3: what ./thawhazel show prints of an example's field
SHOWN = [
    ("C", ["0"], "01 08 00 00 00 05 00 07 00 00 00"),
    ("C", ["3"], "06 03 00 01 18 18"),
    ("C", ["4"], "refused 16 0"),
    ("L", ["2"], "01 08 00 00 00 05 00 09 00 00 00"),
    ("L", ["2", "replay"], "01 08 00 00 00 01 00 07 00 00 00"),
    ("L", ["3", "replay"], "06 03 00 00 00 00"),
    ("L", ["4", "replay"], "refused 16 0"),
    ("N", ["2047"], "02 02 00 00 00"),
    ("N", ["2048"], "refused 16 0"),
    ("S-one-byte-more", ["4095"], "02 02 00 00 00"),
    ("S-one-byte-more", ["4096"], "refused 16 0"),
    ("T", ["0"], "refused 16 0"),
    ("T-one-byte-more", ["0"], "refused 1 0"),
]


def check_shown(log, words, wanted):
    line = printed(log, "show", *words)
    if line != wanted + "\n":
        sys.exit(f"show {' '.join(words)} of {log[:40].hex()}..: {line!r}, and not {wanted!r}")


def replayed(log):
    done = subprocess.run([ROOT + "/thawhazel", "replay"], input=log, stdout=subprocess.PIPE, stderr=subprocess.PIPE, check=True)
    return done.stdout, done.stderr.decode()


def check_replay(name, log, verdict):
    replay, said = replayed(log)
    wanted = REPLAYS.get(name, log) if verdict.startswith("accepted") else b""
    if said != verdict + "\n" or replay != wanted:
        sys.exit(f"the replay of {name}: {said!r}, {replay.hex()}, and not {wanted.hex()}")
    if wanted and judged(replay) != verdict + "\n":
        sys.exit(f"the replay of {name} is judged {judged(replay)!r}")


def more_logs():
    """Other bad input: any byte string at all gets exactly one line."""
    yield bytes(60000), "refused 1 0"
    yield b"\0", "refused 4 0 0"
    yield b"\1\2", "refused 4 0 0"
    whole = malloc(0, 5, 7)
    for n in range(1, len(whole)):
        yield free(0) + whole[:n], "refused 4 1 5"


def main():
    files = {f"{name}.log": log for name, log, _ in CASES}
    files["verdicts"] = "".join(f"{name}.log {verdict}\n" for name, _, verdict in CASES).encode()
    for name, data in files.items():
        path = f"{ROOT}/examples/{name}"
        if "--write" in sys.argv:
            open(path, "wb").write(data)
        elif open(path, "rb").read() != data:
            sys.exit(f"examples/{name} is not what the documents give")
    if "--write" in sys.argv:
        return
    logs = [(log, verdict) for _, log, verdict in CASES] + list(more_logs())
    for log, verdict in logs:
        line = judged(log)
        if line != verdict + "\n":
            sys.exit(f"a log of {len(log)} bytes, {log[:40].hex()}..: {line!r}, and not {verdict!r}")
    for name, log, verdict in CASES + [("every tag", EVERY_TAG, "accepted 15 1 0")]:
        check_replay(name, log, verdict)
    named = {name: log for name, log, _ in CASES}
    for name, words, wanted in SHOWN:
        check_shown(named[name], words, wanted)
    print(f"{len(logs)} logs judged, {len(CASES) + 1} replayed and {len(SHOWN)} fields shown as the documents say")


main()
