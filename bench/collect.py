#!/usr/bin/env python3
"""Times full collections through the line protocol, beside a plain mark-sweep over the very same objects.

    bench/collect.py [--program crates/refheap/out/refheap] [--cells 65536] [--live 100] [--new] [--rounds 101] [--shapes chain,tree,graph]

Each object has three reference fields. One handle is left, from which all objects are reached, and eight cells are free. The time of a
collection is that of `gc` less that of `same 0 0`, which does next to nothing. With `--live 10` ten in a hundred objects are reached, and
the others are made and lost again before each collection. With `--new` no cell but one is free, the object in it has just been lost, and
what is timed is a `new`, which has to collect before it takes that cell. The two sides take turns, so that a
machine that changes its speed changes it for both: shown are the medians of the rounds, the median of the ratios of neighbours, and
the least. Where processors run at different speeds, `taskset -c 1` before it keeps both sides on one.
"""
import argparse
import os
import random
import statistics
import subprocess
import sys
import tempfile

from session import Session

HERE = os.path.dirname(os.path.abspath(__file__))
FIELDS = 3


class Builder:
    """Makes objects and edges in a session, and keeps the edges for the yardstick.

    An object is named by its number in order of making. A new handle is the lowest free one, as the heap does it."""

    def __init__(self, session):
        self.session = session
        self.edges = []
        self.handles = {}
        self.free = list(range(250, 0, -1))

    def make(self):
        number = len(self.edges)
        self.edges.append([None] * FIELDS)
        self.handles[number] = self.free.pop()
        self.session.send("new " + "r" * FIELDS)
        return number

    def link(self, source, field, target):
        self.edges[source][field] = target
        self.session.send(f"put {self.handles[source]} {field} {self.handles[target]}")

    def drop(self, number):
        handle = self.handles.pop(number)
        self.session.send(f"drop {handle}")
        self.free.append(handle)
        self.free.sort(reverse=True)


def chain(builder, count):
    """Each object refers to the one before it."""
    last = builder.make()
    for _ in range(count - 1):
        new = builder.make()
        builder.link(new, 0, last)
        builder.drop(last)
        last = new
    return last


def tree(builder, count):
    """Three children each, of nearly the same size, made depth first."""

    def grow(parent, below):
        for field in range(FIELDS):
            size = below // FIELDS + (1 if field < below % FIELDS else 0)
            if size:
                child = builder.make()
                builder.link(parent, field, child)
                grow(child, size - 1)
                builder.drop(child)

    root = builder.make()
    grow(root, count - 1)
    return root


def graph(builder, count):
    """A chain through all objects, and from each object two edges to objects of a sample of all ages."""
    chance = random.Random(7)
    last, sample = None, []
    for number in range(count):
        new = builder.make()
        if last is not None:
            builder.link(new, 0, last)
        for field in range(1, FIELDS):
            if sample:
                builder.link(new, field, chance.choice(sample))
        if last is not None and last not in sample:
            builder.drop(last)
        if len(sample) < 200:
            sample.append(new)
        elif chance.random() < 200 / (number + 1):
            place = chance.randrange(200)
            old, sample[place] = sample[place], new
            builder.drop(old)
        last = new
    for number in sample:
        if number != last:
            builder.drop(number)
    return last


class Plain:
    """A plain mark-sweep, that of the source of this name, over the same objects and so many lost ones, one collection at a time."""

    def __init__(self, edges, root, source="plain_mark_sweep", lost=0):
        self.live = len(edges)
        self.folder = tempfile.TemporaryDirectory()
        program = os.path.join(self.folder.name, source)
        subprocess.run(["rustc", "-O", os.path.join(HERE, f"{source}.rs"), "-o", program], check=True)
        objects = os.path.join(self.folder.name, "objects")
        with open(objects, "w") as out:
            for fields in edges + [[None] * FIELDS] * lost:
                out.write(" ".join("-" if field is None else str(field) for field in fields) + "\n")
        self.process = subprocess.Popen([program, objects, str(root)], stdin=subprocess.PIPE, stdout=subprocess.PIPE, text=True)

    def time(self):
        """Nanoseconds of a collection."""
        self.process.stdin.write("\n")
        self.process.stdin.flush()
        live, took = self.process.stdout.readline().split()
        if int(live) != self.live:
            raise SystemExit(f"the plain mark-sweep reaches {live} of {self.live} objects")
        return int(took)

    def close(self):
        self.process.stdin.close()
        self.process.wait()
        self.folder.cleanup()


def lose_and_collect(session, handle, count):
    """Gives what makes and loses so many objects, by the lowest free handle, and times a collection."""

    def again():
        for _ in range(count):
            session.send("new " + "r" * FIELDS)
            session.send(f"drop {handle}")
        return session.time("gc")

    return again


def make_and_lose(session, handle):
    """Takes the last free cell, and gives what loses the object in it, by this handle, and times a `new` of another."""
    new = "new " + "r" * FIELDS
    session.send(new)

    def again():
        session.send(f"drop {handle}")
        return session.time(new)

    return again


def main():
    arguments = argparse.ArgumentParser(description=__doc__, formatter_class=argparse.RawDescriptionHelpFormatter)
    arguments.add_argument("--program", default=os.path.join(HERE, "..", "crates", "refheap", "out", "refheap"))
    arguments.add_argument("--cells", type=int, default=65536)
    arguments.add_argument("--live", type=int, default=100, help="of a hundred objects, how many are reached")
    arguments.add_argument("--new", action="store_true", help="time a `new` that has to collect")
    arguments.add_argument("--rounds", type=int, default=101)
    arguments.add_argument("--shapes", default="chain,tree,graph")
    given = arguments.parse_args()
    objects = given.cells - (1 if given.new else 8)
    for shape in given.shapes.split(","):
        session = Session(given.program, given.cells)
        builder = Builder(session)
        kept = objects * given.live // 100
        root = {"chain": chain, "tree": tree, "graph": graph}[shape](builder, kept)
        idle = [session.time("same 0 0") for _ in range(200)]
        plain = Plain(builder.edges, root, lost=objects - kept)
        handle = builder.free[-1]
        collect = make_and_lose(session, handle) if given.new else lose_and_collect(session, handle, objects - kept)
        full, other = [], []
        for _ in range(given.rounds):
            full.append(collect() - statistics.median(idle))
            other.append(plain.time())
        session.close()
        plain.close()
        median, plain_median = (statistics.median(times) / kept for times in (full, other))
        least, plain_least = (min(times) / kept for times in (full, other))
        ratio = statistics.median(mine / its for mine, its in zip(full, other))
        print(
            f"{shape}: {median:.1f} ns a live object, plain mark-sweep {plain_median:.1f} ns, ratio {ratio:.2f}; "
            f"at best {least:.1f} and {plain_least:.1f} ns, ratio {least / plain_least:.2f}"
        )


if __name__ == "__main__":
    sys.setrecursionlimit(10000)
    main()
