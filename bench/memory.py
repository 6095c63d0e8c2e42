#!/usr/bin/env python3
"""Memory that the history of a session takes: entries of `gc` over a full heap, and of `stat`.

    bench/memory.py [--program crates/refheap/out/refheap] [--cells 65536] [--entries 10000]

A chain fills the heap; then so many `gc` follow, each an entry with a collection that keeps all, and the memory of the program is read
from /proc before and after. The room of the trace was touched before by the entries that filled the heap, so what is added is what the
entries have beside their places. The same with `stat`, on an empty heap, whose entries have nothing beside their places. Ends with status 1
where an entry of `gc` takes more than 16,384 bytes at 65,536 cells, which is two bits a cell, or one of `stat` more than 80.
"""
import argparse
import os
import sys

from collect import Builder, chain
from session import Session

HERE = os.path.dirname(os.path.abspath(__file__))
# How many bytes an entry may take: one of `gc` at 65,536 cells, and one of `stat`.
MOST_GC, MOST_STAT = 16_384, 80


def grown(session, line, count):
    """Bytes that so many entries of this command add."""
    before = session.memory()
    for _ in range(count):
        session.send(line)
    return session.memory() - before


def main():
    arguments = argparse.ArgumentParser(description=__doc__, formatter_class=argparse.RawDescriptionHelpFormatter)
    arguments.add_argument("--program", default=os.path.join(HERE, "..", "crates", "refheap", "out", "refheap"))
    arguments.add_argument("--cells", type=int, default=65536)
    arguments.add_argument("--entries", type=int, default=10000)
    options = arguments.parse_args()
    trace = 2 * options.entries

    session = Session(options.program, options.cells, ["--trace", str(trace)])
    chain(Builder(session), options.cells)
    session.flush()
    # The join and each command are an entry; the trace is cut when it has so many. A cut comes with the first of these.
    for _ in range(trace - session.answered % trace):
        session.send("stat")
    added = grown(session, "gc", options.entries)
    whole = session.memory()
    session.close()
    wrong = options.cells == 65_536 and added > MOST_GC * options.entries
    print(f"gc, {options.cells} cells, all taken: {options.entries} entries add {added / 1e6:.1f} MB, {added / options.entries:.0f} bytes each; the program has {whole / 1e6:.1f} MB")

    session = Session(options.program, 1024, ["--trace", "1000000"])
    count = 100 * options.entries - 1000
    added = grown(session, "stat", count)
    session.close()
    wrong = added > MOST_STAT * count or wrong
    print(f"stat: {count} entries add {added / 1e6:.1f} MB, {added / count:.0f} bytes each")
    if wrong:
        print(f"WRONG   an entry of gc may take {MOST_GC} bytes at 65,536 cells, and one of stat {MOST_STAT}")
    return 1 if wrong else 0


if __name__ == "__main__":
    sys.exit(main())
