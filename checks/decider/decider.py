#!/usr/bin/env python3
"""Decides saved histories anew, written from docs/trace-file.md and docs/specification.md alone, and compares with what the program says.

    checks/decider/decider.py FILE..
    checks/decider/decider.py --fuzz PROGRAM [--count N] [--seed S] [--jobs J]

Of each FILE a line tells the verdict: `legal N version V`, `illegal K version V`, `truncated`, `bad mark`, `bad version` or `bad entry K`.
The status is 0 where all are legal, else 3 where none is worse than illegal, else 4. The machine is in machine.py.

With --fuzz it makes N files (2,000 where nothing is said), as fuzz.py tells, and `PROGRAM audit` has to say the same of each.
A file of which it does not is kept, and the status is 1.
"""
import argparse
import os
import sys
from dataclasses import dataclass

sys.dont_write_bytecode = True
import machine  # noqa: E402
from machine import Ask, Image  # noqa: E402

MARK, NO_SLOT = b"JLRT", 0xFFFFFFFF


class Bad(Exception):
    """A value out of its range or order."""


class Short(Exception):
    """The bytes end."""


class Damage(Exception):
    """No history: which fault."""


# ---- Spellings: each reads a value, and writes it

class Reader:
    def __init__(self, data):
        self.data, self.at, self.size = data, 0, len(data)


class Number:
    def __init__(self, size, low=None, high=None, signed=False):
        self.size, self.signed = size, signed
        self.low = (-(1 << 8 * size - 1) if signed else 0) if low is None else low
        self.high = (1 << 8 * size - signed) - 1 if high is None else high

    def read(self, r):
        start = r.at
        end = r.at = start + self.size
        if end > r.size:
            raise Short
        value = r.data[start] if self.size == 1 else int.from_bytes(r.data[start:end], "big", signed=self.signed)
        if not self.low <= value <= self.high:
            raise Bad
        return value

    def write(self, value, out):
        out += value.to_bytes(self.size, "big", signed=self.signed)


class Opt(Number):
    """A slot or None."""

    def read(self, r):
        value = super().read(r)
        return None if value == NO_SLOT else value

    def write(self, value, out):
        super().write(NO_SLOT if value is None else value, out)


class Text:
    def __init__(self, low, high, letters):
        self.length, self.letters = Number(1, low, high), letters

    def read(self, r):
        length = self.length.read(r)
        value = r.data[r.at:r.at + length]
        if value.translate(None, self.letters):
            raise Bad
        if len(value) < length:
            raise Short
        r.at += length
        return value

    def write(self, value, out):
        self.length.write(len(value), out)
        out += value


class Seq:
    def __init__(self, *parts):
        self.parts = parts

    def read(self, r):
        return tuple([part.read(r) for part in self.parts])

    def write(self, value, out):
        for part, item in zip(self.parts, value):
            part.write(item, out)


class Tagged:
    """A number and what follows it: (number, body)."""

    def __init__(self, bodies):
        self.bodies = {tag: Seq(*parts) for tag, parts in bodies.items()}

    def read(self, r):
        tag = U8.read(r)
        body = self.bodies.get(tag)
        if body is None:
            raise Bad
        return tag, body.read(r)

    def write(self, value, out):
        U8.write(value[0], out)
        self.bodies[value[0]].write(value[1], out)


class List:
    """A count and items."""

    def __init__(self, item, smallest=0, count=Number(4)):
        self.item, self.smallest, self.count = item, smallest, count

    def counted(self, r):
        count = self.count.read(r)
        if count * self.smallest > r.size - r.at:
            raise Short
        return range(count)

    def read(self, r):
        return [self.item.read(r) for _ in self.counted(r)]

    def write(self, value, out):
        self.count.write(len(value), out)
        for item in value:
            self.item.write(item, out)


class Rising(List):
    """Keys that rise, each with what follows it: (key, rest), or the key alone."""

    def __init__(self, key, rest, smallest):
        super().__init__(key if rest is None else Seq(key, rest), smallest)
        self.key, self.rest = key, rest

    def read(self, r):
        found, last = [], -1
        for _ in self.counted(r):
            key = self.key.read(r)
            if key <= last:
                raise Bad
            last = key
            found.append(key if self.rest is None else (key, self.rest.read(r)))
        return found


# ---- The file, by the page

U8, U16, U32, U64, I64, OPT = Number(1), Number(2), Number(4), Number(8), Number(8, signed=True), Opt(4)
FLAG, REF_KIND, STATE, OUTCOME, FAULT = Number(1, 0, 1), Number(1, 0, 2), Number(1, 0, 3), Number(1, 0, 3), Number(1, 1, 3)
TAKEN, WHY = Number(1, 0, 200), Number(1, 1, 19)
WORK = Tagged({0: [U32], 1: [U32]})
NAME = Text(1, 32, b"abcdefghijklmnopqrstuvwxyz0123456789_")
BYTES = Text(0, 200, bytes(range(256)))
SLOTS, KEPT = List(U32, 4), Rising(U32, None, 4)
FAULTS = List(Seq(U64, FAULT), 9)
LENGTH = Number(2, 1, 4096)
FRESH = List(U32, count=Number(1, 1, 2))
HEAD = Seq(Number(4, 16, 65536), Number(1, 1, 64), Number(2, 1, 256), U64)
FIELDS = List(Tagged({0: [I64], 1: [OPT]}), count=Number(1, 0, 8))
CALL = Tagged({0: [], 1: [U32], 2: [U32], 3: [U64]})
SESSION = Tagged({0: [], 1: [Rising(U8, U32, 5), OPT, CALL]})
NAMES, JOBS, RESOURCES = List(Seq(NAME, U32), 6), Rising(U64, Seq(WORK, U8), 14), Rising(U32, Seq(U64, STATE), 13)
LISTS = Seq(NAMES, SLOTS, SLOTS, JOBS, RESOURCES, FAULTS, SLOTS, Seq(U64, U64, U64, U64))
END_OF_CALL = Tagged({0: [BYTES], 1: [TAKEN], 2: [FAULT]})
ANSWER = Tagged({
    0: [], 1: [U8], 2: [FLAG], 3: [I64], 4: [BYTES], 5: [TAKEN], 6: [FAULT], 7: [List(NAME, 2)], 8: [SLOTS], 9: [FAULTS], 10: [U64] * 5,
    11: [U64, WORK], 12: [], 13: [U32], 14: [U32], 15: [STATE], 16: [WHY]})
CHOICE = Tagged({0: [], 1: [KEPT, SLOTS], 2: [FRESH], 3: [KEPT, SLOTS, FRESH]})


def objects_of(version):
    kinds = {1: [FIELDS], 2: [REF_KIND, OPT, OPT, STATE], 3: [SLOTS], 4: [], 5: [OPT, U64, WORK, STATE], 6: [U32, U32]}
    if version == 2:
        kinds[7] = [List(OPT, count=LENGTH)]
    return Rising(U32, Tagged(kinds), 5)


def entry_of(version):
    k = U8 if version == 1 else Number(2, 0, 4095)
    m = h = U8
    asks = {
        Ask.NEW: [m, Text(0, 8, b"ri")], Ask.PUT: [m, h, k, h], Ask.GET: [m, h, k], Ask.SET_INT: [m, h, k, I64], Ask.INT: [m, h, k],
        Ask.MAKE_REF: [m, REF_KIND, h, h], Ask.REGISTER: [m, h, h, U32], Ask.OPENED: [m, OUTCOME], Ask.CHECK_IN: [m, END_OF_CALL],
        Ask.FINISH: [U8, U64, OUTCOME], Ask.BIND: [m, NAME, h], Ask.FIND: [m, NAME], Ask.UNBIND: [m, NAME], Ask.FULL: [m, FLAG]}
    for ask in "DUP DROP DEREF CLEAR ENQUEUE ENQUEUED POLL REMOVE CLEAN CHECK_OUT CLOSE".split():
        asks[Ask[ask]] = [m, h]
    for ask in "JOIN LEAVE MAKE_QUEUE MAKE_CLEANER PREPARE NAMES STAT NOTES FAULTS".split():
        asks[Ask[ask]] = [m]
    asks |= {Ask.SAME: [m, h, h], Ask.REFERS: [m, h, h]} | {Ask[ask]: [] for ask in "HAND_OVER TAKE_UP BEGIN COLLECT ABANDON".split()}
    if version == 2:
        asks[Ask.ARRAY] = [m, LENGTH]
    return Seq(U8, Tagged(asks), ANSWER, CHOICE)


OBJECTS = {version: objects_of(version) for version in (1, 2)}
ENTRY = {version: entry_of(version) for version in (1, 2)}


@dataclass(slots=True)
class History:
    version: int
    image: Image
    entries: list


def version_of(r):
    for byte in MARK:
        if U8.read(r) != byte:
            raise Damage("bad mark")
    version = U8.read(r)
    if version not in (1, 2):
        raise Damage("bad version")
    return version


def read(data):
    """The history in these bytes, or Damage."""
    r, number = Reader(data), 0
    try:
        version = version_of(r)
        cells, sessions, limit, base = HEAD.read(r)
        objects = OBJECTS[version].read(r)
        image = Image(cells, limit, base, objects, [SESSION.read(r) for _ in range(sessions)], *LISTS.read(r))
        entries, entry = [], ENTRY[version]
        for number in range(1, U64.read(r) + 1):
            entries.append(entry.read(r))
        number = len(entries) + 1
        if r.at != r.size:
            raise Bad
    except Short:
        raise Damage("truncated") from None
    except Bad:
        raise Damage(f"bad entry {number}") from None
    return History(version, image, entries)


def write(history):
    """The bytes of a history; KeyError or OverflowError where its version has no spelling for it."""
    out, image = bytearray(MARK), history.image
    U8.write(history.version, out)
    HEAD.write((image.cells, len(image.sessions), image.limit, image.base), out)
    OBJECTS[history.version].write(image.objects, out)
    for session in image.sessions:
        SESSION.write(session, out)
    LISTS.write([getattr(image, name) for name in Image.__slots__[5:]], out)
    U64.write(len(history.entries), out)
    for entry in history.entries:
        ENTRY[history.version].write(entry, out)
    return bytes(out)


def parts_of(choice):
    """The kept, the pending and the fresh slots, None where there are none."""
    flags, lists = choice
    kept, pended = lists[:2] if flags & 1 else (None, None)
    return kept, pended, lists[-1] if flags & 2 else None


def step(state, entry):
    _, ask, answer, choice = entry
    return machine.step(state, ask, answer, *parts_of(choice))


def judge(history):
    """0 where the image is not well formed, else the first entry that is not legal, else None."""
    state = machine.load(history.image)
    if state is None or not machine.is_well_formed(state):
        return 0
    return next((number for number, entry in enumerate(history.entries, 1) if not step(state, entry)), None)


def verdict(data):
    try:
        history = read(data)
    except Damage as damage:
        return str(damage)
    first = judge(history)
    said = f"legal {len(history.entries)}" if first is None else f"illegal {first}"
    return f"{said} version {history.version}"


# ---- The command line

def main():
    parser = argparse.ArgumentParser(description="Decides saved histories.")
    parser.add_argument("files", nargs="*", metavar="FILE")
    parser.add_argument("--fuzz", metavar="PROGRAM")
    parser.add_argument("--count", type=int, default=2000)
    parser.add_argument("--seed", default="1")
    parser.add_argument("--jobs", type=int, default=1)
    options = parser.parse_args()
    if options.fuzz:
        import fuzz
        return fuzz.fuzz(os.path.abspath(options.fuzz), options.count, options.seed, options.jobs)
    worst = 0
    for path in options.files:
        with open(path, "rb") as file:
            said = verdict(file.read())
        print(said if len(options.files) == 1 else f"{path}: {said}")
        worst = max(worst, {"legal": 0, "illegal": 3}.get(said.split()[0], 4))
    return worst


if __name__ == "__main__":
    sys.exit(main())
