#!/usr/bin/env python3
"""Counts the instructions that refheap takes, by callgrind (valgrind): for a command, in the mean of the mix of commands.py and by kind;
for an object of a full collection; and for a reference or a cleanable whose object is lost, by function.

    bench/instructions.py [--program crates/refheap/out/refheap]

Each figure is the difference of two sessions, one of which does more of the same, so that neither the start nor the end of a session
counts. But for the mix, all have so long a trace that no cut falls into them. A function that the compiler put in line counts with the one
that it stands in.
"""
import argparse
import os
import re
import subprocess
import tempfile

from commands import BEGIN, LINES, text_of
from lists import held

HERE = os.path.dirname(os.path.abspath(__file__))
MIXES = 30
TURNS = 1_000
OBJECTS, COLLECTIONS = 16_000, 20
FEW, MANY = 256, 2_048
# Where a copy by one instruction would begin, each byte of which callgrind counts.
NEVER = 1 << 30
LONG = ["--cells", "16384", "--trace", "1000000"]
# A queue, an object whose first field refers to itself, and a weak reference to it, with the handles 1, 2 and 3.
STAGE = ["queue", "new rri", "put 2 0 2", "weak 2 1"]
KINDS = {
    "same": ["same 1 2"],
    "int": ["int 2 2"],
    "setint": ["setint 2 2 -7"],
    "put": ["put 2 0 1"],
    "get, and drop": ["get 2 0", "drop 4"],
    "dup, and drop": ["dup 2", "drop 4"],
    "new, and drop": ["new rri", "drop 4"],
    "weak, and drop": ["weak 2 1", "drop 4"],
    "refers": ["refers 3 2"],
    "deref, and drop": ["deref 3", "drop 4"],
    "poll, of an empty queue": ["poll 1"],
    "stat": ["stat"],
}
NAMES = (1, 256)


def counted(program, options, lines):
    """The instructions of a session of these lines, by function."""
    with tempfile.TemporaryDirectory() as room:
        out = os.path.join(room, "counts")
        command = ["valgrind", "--tool=callgrind", f"--callgrind-out-file={out}", program, "run", *options]
        environment = {**os.environ, "GLIBC_TUNABLES": f"glibc.cpu.x86_rep_movsb_threshold={NEVER}"}
        text = text_of(lines + ["bye"])
        subprocess.run(command, input=text, env=environment, stdout=subprocess.DEVNULL, stderr=subprocess.DEVNULL, check=True)
        with open(out, encoding="utf-8", errors="replace") as file:
            return by_function(file)


def by_function(file):
    """What each function takes itself, without those that it calls, from what callgrind wrote."""
    names, counts, function, is_call = {}, {}, None, False
    for line in file:
        named = re.match(r"c?fn=\((\d+)\)(?: (.*))?", line)
        if named:
            name = names.setdefault(named[1], named[2])
            function = function if line.startswith("c") else name
        elif line.startswith("calls="):
            is_call = True
        elif re.match(r"[+*\d-]", line):
            if not is_call:
                counts[function] = counts.get(function, 0) + int(line.split()[1])
            is_call = False
    return counts


def more(much, less):
    """By function, what one session takes more than another."""
    return {name: much.get(name, 0) - less.get(name, 0) for name in {*much, *less}}


def total(counts):
    return sum(counts.values())


def short(name):
    """The last two words of a function's name, without the types that it is made for."""
    return "::".join(re.sub(r"::<.*", "", name).split("::")[-2:])


def chain():
    """Objects of three fields, each held by the next. The last has a handle."""
    lines = ["new rrr"]
    for place in range(1, OBJECTS):
        before = 2 - place % 2
        lines += ["new rrr", f"put {3 - before} 0 {before}", f"drop {before}"]
    return lines


def registered(length):
    """So many objects that nothing refers to but their cleanables, which a chain of objects holds, seven each, and the last handle."""
    lines = ["cleaner", "new rrrrrrrr"]
    place = 0
    for _ in range(length):
        if place == 7:
            lines += ["new rrrrrrrr", "put 3 7 2", "drop 2", "dup 3", "drop 3"]
            place = 0
        lines += ["new -", "register 1 3 7", f"put 2 {place} 4", "drop 4", "drop 3"]
        place += 1
    return lines


def settled(program, lines_of, last):
    """What each further one takes in a collection that finds it, and in all that follows, by function."""

    def of(length):
        lines = lines_of(length) + last
        return more(counted(program, LONG, lines + ["gc", "stat"]), counted(program, LONG, lines))

    return {name: count / (MANY - FEW) for name, count in more(of(MANY), of(FEW)).items()}


def tell_settled(title, counts):
    print(f"\n{title}: {total(counts):.0f} for each, of which")
    for name, count in sorted(counts.items(), key=lambda it: -it[1]):
        if count >= 2:
            print(f"    {count:5.0f}  {short(name or '')}")


def main():
    parser = argparse.ArgumentParser()
    parser.add_argument("--program", default=os.path.join(HERE, "..", "crates", "refheap", "out", "refheap"))
    program = parser.parse_args().program
    mix = BEGIN + LINES * MIXES
    took = total(more(counted(program, ["--cells", "1024"], mix), counted(program, ["--cells", "1024"], [])))
    print(f"a command of the mix: {took / len(mix):.1f}")
    for name, lines in KINDS.items():
        took = total(more(counted(program, LONG, STAGE + lines * 2 * TURNS), counted(program, LONG, STAGE + lines * TURNS)))
        print(f"    {took / TURNS:5.0f}  {name}")
    for names in NAMES:
        bound, found = [f"bind n{place} 2" for place in range(names)], [f"find n{names - 1}", "drop 4"]
        took = total(more(counted(program, LONG, STAGE + bound + found * 2 * TURNS), counted(program, LONG, STAGE + bound + found * TURNS)))
        print(f"    {took / TURNS:5.0f}  find of the last of {names} names, and drop")
    took = total(more(counted(program, LONG, chain() + ["gc"] * COLLECTIONS), counted(program, LONG, chain())))
    print(f"an object of a chain in a full collection: {took / COLLECTIONS / OBJECTS:.1f}")
    tell_settled("a weak reference that a collection clears, and that is handed over", settled(program, held, ["drop 2"]))
    tell_settled("a cleanable that a collection finds, and that is handed over, taken up and recorded", settled(program, registered, []))


if __name__ == "__main__":
    main()
