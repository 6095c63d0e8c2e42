#!/usr/bin/env python3
"""Saved histories on which the audit is timed.

usage: audits.py KIND COUNT FILE

KIND small CELLS  entries of a session that uses a few objects of a heap with so many cells, half of them taken
     stat         `stat` entries on 65,536 taken cells
     gc           `gc` entries that keep a chain of 65,536 objects, each of which refers to the one in the slot before it
     along        the same chain, each object referring to the one in the slot after it
     cycle        the entries of `small` in an open cycle, on 65,536 taken cells

The file is written from the description of the format in docs/trace-file.md.
"""
import struct
import sys

KINDS = ("small", "stat", "gc", "along", "cycle")


def u8(n):
    return struct.pack(">B", n)


def u32(n):
    return struct.pack(">I", n)


def u64(n):
    return struct.pack(">Q", n)


def head(cells):
    return b"JLRT\x01" + u32(cells) + u8(1) + struct.pack(">H", 16) + u64(0)


def plain(slot, target):
    """An object with one reference field."""
    return u32(slot) + u8(1) + u8(1) + u8(1) + (b"\xff" * 4 if target is None else u32(target))


def image(cells, objects, handles):
    """Mutator 0 has joined, with these handles; nothing else is there."""
    session = u8(1) + u32(len(handles)) + b"".join(u8(h) + u32(s) for h, s in handles) + b"\xff" * 4 + u8(0)
    counts = u64(1) + u64(0) + u64(0) + u64(0)
    return head(cells) + u32(len(objects)) + b"".join(objects) + session + u32(0) * 7 + counts


def entry(ask, answer, choice=b"\0"):
    return u8(0) + ask + answer + choice


DONE = u8(0)


def handle(h):
    return u8(1) + u8(h)


def small_round():
    """Entries that leave the machine as it was; handle 1 stands for an object whose field holds null, or a chain's next object."""
    return [
        entry(u8(7) + b"\0\x01", handle(2)),  # dup 1
        entry(u8(9) + b"\0\x01\x02", u8(2) + u8(1)),  # same 1 2
        entry(u8(4) + b"\0\x01\0", handle(3)),  # get 1 0
        entry(u8(3) + b"\0\x02\0\x03", DONE),  # put 2 0 3
        entry(u8(8) + b"\0\x03", DONE),  # drop 3
        entry(u8(8) + b"\0\x02", DONE),  # drop 2
        entry(u8(14) + b"\0\x01", u8(16) + u8(5)),  # enqueue 1: no reference
        entry(u8(31) + b"\0", u8(7) + u32(0)),  # names
    ]


def chain(cells, step):
    """Each object refers to the one a step further; the handle stands for the first."""
    objects = [plain(s, s + step if 0 <= s + step < cells else None) for s in range(cells)]
    return objects, 0 if step > 0 else cells - 1


def history(kind, count, cells):
    if kind in ("small", "cycle"):
        taken = cells if kind == "cycle" else cells // 2
        objects, first = chain(taken, -1)
        entries = small_round()
        rounds = count // len(entries)
        begin = [entry(u8(38), u8(2) + u8(1))] if kind == "cycle" else []
        body = b"".join(begin) + b"".join(entries) * rounds
        return image(cells, objects, [(1, first)]), len(begin) + rounds * len(entries), body
    objects, first = chain(cells, 1 if kind == "along" else -1)
    if kind == "stat":
        body = entry(u8(33) + b"\0", u8(10) + u64(cells) + u64(0) * 4) * count
        return image(cells, objects, [(1, first)]), count, body
    kept = u8(1) + u32(cells) + b"".join(u32(s) for s in range(cells)) + u32(0)
    body = entry(u8(32) + b"\0\0", DONE, kept) * count
    return image(cells, objects, [(1, first)]), count, body


def main():
    words = sys.argv[1:]
    cells = 65536
    if words[0] == "small":
        cells = int(words.pop(1))
    kind, count, path = words[0], int(words[1]), words[2]
    front, number, body = history(kind, count, cells)
    with open(path, "wb") as file:
        file.write(front + u64(number) + body)


if __name__ == "__main__":
    if len(sys.argv) < 4 or sys.argv[1] not in KINDS:
        sys.exit(__doc__)
    main()
