#!/usr/bin/env python3
"""Times full collections of a full heap of long arrays, beside a plain mark-sweep over the very same arrays.

    bench/arrays.py [--program crates/refheap/out/refheap] [--arrays 240] [--rounds 41]

Each array has 4,096 elements, which refer to arrays by chance, and those of the first to all of them; one handle is left. A session answers a million
lines, so 240 arrays are the most: 983,040 edges. The time of a collection is that of `gc` less that of `same 0 0`. The two sides take turns: shown are
the medians, the median of the ratios of neighbours, and the least.
"""
import argparse
import os
import random
import statistics

from collect import Plain
from session import Session

HERE = os.path.dirname(os.path.abspath(__file__))
LENGTH = 4096


def built(session, count):
    """Makes the arrays in a session, each of which has its number and one as its handle, and leaves handle 1. Their elements, for the yardstick."""
    chance = random.Random(7)
    for _ in range(count):
        session.send(f"array {LENGTH}")
    edges = [[place % count for place in range(LENGTH)]]
    edges += [[chance.randrange(count) for _ in range(LENGTH)] for _ in range(1, count)]
    for number, elements in enumerate(edges):
        for place, element in enumerate(elements):
            session.send(f"put {number + 1} {place} {element + 1}")
    for number in range(1, count):
        session.send(f"drop {number + 1}")
    session.flush()
    return edges


def main():
    arguments = argparse.ArgumentParser(description=__doc__, formatter_class=argparse.RawDescriptionHelpFormatter)
    arguments.add_argument("--program", default=os.path.join(HERE, "..", "crates", "refheap", "out", "refheap"))
    arguments.add_argument("--arrays", type=int, default=240)
    arguments.add_argument("--rounds", type=int, default=41)
    given = arguments.parse_args()
    session = Session(given.program, given.arrays)
    edges = built(session, given.arrays)
    idle = statistics.median(session.time("same 0 0") for _ in range(200))
    plain = Plain(edges, 0, "plain_arrays")
    full, other = [], []
    for _ in range(given.rounds):
        full.append(session.time("gc") - idle)
        other.append(plain.time())
    session.close()
    plain.close()
    ratio = statistics.median(mine / its for mine, its in zip(full, other))
    count = given.arrays * LENGTH
    median, plain_median, least, plain_least = (it / count for it in (statistics.median(full), statistics.median(other), min(full), min(other)))
    print(
        f"{given.arrays} arrays: {median:.2f} ns an element, plain mark-sweep {plain_median:.2f} ns, ratio {ratio:.2f}; "
        f"at best {least:.2f} and {plain_least:.2f} ns, ratio {least / plain_least:.2f}"
    )


if __name__ == "__main__":
    main()
