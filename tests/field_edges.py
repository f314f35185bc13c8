#!/usr/bin/env python3
"""field_edges.py: the records and the expected output of crates/field_edges, made from docs/01-scope.md and document 02 alone.

    field_edges.py          compares the stored files with what is made, and says how many records agree
    field_edges.py --write  stores them
"""
import struct
import sys

# The table of document 01, with order 1's rows 14 and 15: the value bytes in order, after the thread. p: pointer variable,
# x: data variable, s: selector, c: cell (2 bytes), n: number (4 bytes).
ROWS = {1: "pcn", 2: "p", 3: "pp", 4: "pps", 5: "psp", 6: "xp", 7: "px", 8: "xn", 9: "pp", 10: "pp", 11: "xx", 12: "xx", 13: "xxx",
        14: "ppp", 15: "ppp"}
LENGTH = {1: 8, 2: 2, 3: 3, 4: 4, 5: 4, 6: 3, 7: 3, 8: 6, 9: 3, 10: 3, 11: 3, 12: 3, 13: 4, 14: 4, 15: 4}
ROOM = 24
# the place that the program gives every part, which the reader tells as the byte offset
PLACE = 45055


def may_name(thread, x):
    return x <= 15 or 16 + 8 * thread <= x <= 23 + 8 * thread


def judge(row, thread, slots, cell):
    """The number of the first of the checks 7 to 10 that does not pass, or None."""
    kinds = [k for k in row if k in "pxs"]
    if thread > 7:
        return 7
    if any(k in "px" and not may_name(thread, v) for k, v in zip(kinds, slots)):
        return 8
    if any(k == "s" and v > 1 for k, v in zip(kinds, slots)):
        return 9
    if "c" in row and cell > 1023:
        return 10
    return None


def value_of(row, thread, slots, cell, number):
    rest = list(slots)
    out = bytes([thread])
    for kind in row:
        if kind == "c":
            out += struct.pack("<H", cell)
        elif kind == "n":
            out += struct.pack("<I", number)
        else:
            out += bytes([rest.pop(0)])
    return out


def read(part):
    if len(part) < 3:
        return "refused 4"
    tag, length = part[0], part[1] + 256 * part[2]
    if tag not in ROWS:
        return "refused 5"
    if length != LENGTH[tag]:
        return "refused 6"
    value = part[3:3 + length]
    if len(value) < length:
        return "refused 4"
    thread, at, slots, cell, number = value[0], 1, [], 0, 0
    for kind in ROWS[tag]:
        if kind == "c":
            (cell,) = struct.unpack_from("<H", value, at)
            at += 2
        elif kind == "n":
            (number,) = struct.unpack_from("<I", value, at)
            at += 4
        else:
            slots.append(value[at])
            at += 1
    why = judge(ROWS[tag], thread, slots, cell)
    if why:
        return f"refused {why}"
    slots += [0] * (3 - len(slots))
    return "got " + " ".join(str(n) for n in [tag, thread, *slots, cell, number])


def write(tag, thread, slots, cell, number, room):
    out = bytearray(b"\xee" * ROOM)
    why = 5 if tag not in ROWS else judge(ROWS[tag], thread, slots, cell)
    if why is None:
        field = bytes([tag]) + struct.pack("<H", LENGTH[tag]) + value_of(ROWS[tag], thread, slots, cell, number)
        if len(field) <= room:
            out[:len(field)] = field
            return f"bytes {len(field)} {out.hex()}"
        why = 15
    return f"refused {why} {out.hex()}"


records, lines = [], []


def add_read(part):
    records.append(bytes([1 + len(part), 0]) + part)
    lines.append(f"{read(part)} {PLACE}")


def add_write(tag, thread, slots, cell, number, room):
    records.append(bytes([13, 1, tag, thread, *slots]) + struct.pack("<HIB", cell, number, room))
    lines.append(write(tag, thread, slots, cell, number, room))


def good(tag, thread=0, change=None):
    """A field of a tag that reads well, with one slot put to another value where asked."""
    kinds = [k for k in ROWS[tag] if k in "pxs"]
    slots = [1 if k == "s" else 16 + 8 * thread + i for i, k in enumerate(kinds)]
    if change:
        slots[change[0]] = change[1]
    return kinds, slots


def field(tag, thread, slots, cell=1023, number=0x89ABCDEF):
    return bytes([tag]) + struct.pack("<H", LENGTH[tag]) + value_of(ROWS[tag], thread, slots, cell, number)


def make():
    # every tag byte, with bytes enough for any row
    for tag in range(256):
        add_read(bytes([tag, LENGTH.get(tag, 4), 0]) + bytes(10))
        add_write(tag, 0, (0, 0, 0), 0, 0, ROOM)
    for tag in ROWS:
        kinds, slots = good(tag, 3)
        whole = field(tag, 3, slots)
        # every truncation, and a byte more than the field, which belongs to the next one
        for n in range(len(whole) + 1):
            add_read(whole[:n])
        add_read(whole + b"\x01")
        # lengths off by one, and off in the high byte
        for length in (LENGTH[tag] - 1, LENGTH[tag] + 1, LENGTH[tag] + 256):
            add_read(whole[:1] + struct.pack("<H", length) + whole[3:])
        # threads 7, 8 and 255; a wrong variable besides, of which the thread speaks first
        for thread in (7, 8, 255):
            add_read(field(tag, thread, [0 if k != "s" else 1 for k in kinds]))
            add_read(field(tag, thread, [80 if k != "s" else 2 for k in kinds]))
            add_write(tag, thread, ([0 if k != "s" else 1 for k in kinds] + [0, 0, 0])[:3], 0, 0, ROOM)
        # each slot at each edge: variables of every owner and past the last, selectors, with the others right and wrong
        for i in range(len(kinds)):
            for thread in range(8):
                for value in sorted({0, 1, 2, 15, 16, 79, 80, 255} | {16 + 8 * t + d for t in range(8) for d in (0, 7)}):
                    _, changed = good(tag, thread, (i, value))
                    add_read(field(tag, thread, changed))
        for i in range(len(kinds)):
            for value in (2, 15, 24, 80):
                _, changed = good(tag, 0, (i, value))
                padded = (changed + [77, 77, 77])[:3]
                add_write(tag, 0, padded, 5, 6, ROOM)
        if "c" in ROWS[tag]:
            for cell in (0, 1, 255, 256, 1022, 1023, 1024, 1025, 65535):
                add_read(field(tag, 0, slots and good(tag)[1], cell))
                add_write(tag, 0, (good(tag)[1] + [9, 9])[:3], cell, 4294967295, ROOM)
        # the room: exact, one byte short, none; the numbers that the row lacks are ignored
        for room in (3 + LENGTH[tag], 2 + LENGTH[tag], 3, 0):
            add_write(tag, 3, (slots + [200, 201, 202])[:3], 1023 if "c" in ROWS[tag] else 60000, 0x01020304, room)
    # a wrong selector beside a foreign variable: 8 before 9, and a wrong cell after both
    add_read(field(5, 0, [0, 2, 80]))
    add_read(field(4, 0, [80, 0, 2]))
    add_read(field(4, 0, [0, 0, 2]))
    add_read(field(1, 8, [80], 1024))
    add_read(field(1, 0, [80], 1024))
    add_read(field(1, 0, [0], 1024))


make()
made = {"stdin": b"".join(records), "stdout": ("\n".join(lines) + "\n").encode()}
folder = __file__.rsplit("/", 2)[0] + "/crates/field_edges/"
for name, data in made.items():
    if "--write" in sys.argv:
        open(folder + name, "wb").write(data)
    elif open(folder + name, "rb").read() != data:
        sys.exit(f"crates/field_edges/{name} is not what the documents give")
print(f"{len(records)} records at the edges of one field, with {len(set(lines))} different answers")
