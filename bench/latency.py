#!/usr/bin/env python3
"""How long a request of one client takes, beside what others do: the median, 99 and 99.9 in a hundred, and the longest, in microseconds.

    bench/latency.py PROGRAM [--requests N] [--cells N] [--only WORD]

The client asks `new rr` and the drop of it by turns, each after the reply to the one before, over heaps of 1,024 and 65,536 cells of which a
chain or a graph takes five eighths, and over 1,000 arrays of 4,096 elements. Beside it: nothing; a client that makes garbage, so that the
marker is at work, with three budgets; cuts of the history, with four lengths of `--trace`; a flood of `gc`; 63 other clients; eight that come and go
while they wait; one that fills the tables of handles, of names and of files until they refuse more, and empties them.
"""
import argparse
import os
import subprocess
import tempfile
import time

HERE = os.path.dirname(os.path.abspath(__file__))
HEAPS = (("chain", 1024), ("chain", 65536), ("graph", 65536), ("arrays", 65536))
BESIDE = (
    ("nothing", "none", 0, 64, 1_000_000),
    ("marker, budget 16", "garbage", 1, 16, 1_000_000),
    ("marker, budget 64", "garbage", 1, 64, 1_000_000),
    ("marker, budget 1,024", "garbage", 1, 1024, 1_000_000),
    ("cuts, --trace 64", "none", 0, 64, 64),
    ("cuts, --trace 1,000", "none", 0, 64, 1_000),
    ("cuts, --trace 10,000", "none", 0, 64, 10_000),
    ("a flood of gc", "gc", 1, 64, 1_000_000),
    ("63 clients", "same", 63, 64, 1_000_000),
    ("8 that vanish", "vanish", 8, 64, 1_000_000),
    ("full tables", "tables", 1, 64, 1_000_000),
)


def told(program, tool, shape, cells, requests, others, count, budget, trace):
    """What the client says of a server that is started for it."""
    with tempfile.TemporaryDirectory() as folder:
        path, control = os.path.join(folder, "socket"), os.path.join(folder, "control")
        words = [program, "serve", "--socket", path, "--control", control, "--total", "1000000", "--sessions", str(count + 1), "--cells", str(cells),
                 "--budget", str(budget), "--trace", str(trace)]
        server = subprocess.Popen(words, stdout=subprocess.DEVNULL)
        while not os.path.exists(control):
            time.sleep(0.01)
        said = subprocess.check_output([tool, path, shape, str(cells), str(requests), others, str(count)], text=True)
        subprocess.check_call([program, "stop", control])
        server.wait(60)
        return said.split()


def main():
    arguments = argparse.ArgumentParser(description=__doc__, formatter_class=argparse.RawDescriptionHelpFormatter)
    arguments.add_argument("program")
    arguments.add_argument("--requests", type=int, default=40_000)
    arguments.add_argument("--cells", type=int, help="heaps of this many cells alone")
    arguments.add_argument("--only", default="", help="what has this word in it alone")
    given = arguments.parse_args()
    with tempfile.TemporaryDirectory() as folder:
        tool = os.path.join(folder, "latency")
        subprocess.check_call(["rustc", "-O", "-o", tool, os.path.join(HERE, "latency.rs")])
        for shape, cells in HEAPS:
            for name, others, count, budget, trace in BESIDE:
                if given.cells not in (None, cells) or given.only not in name:
                    continue
                median, most, nearly, longest = told(given.program, tool, shape, cells, given.requests, others, count, budget, trace)
                print(f"{shape}, {cells:,} cells, beside {name}: {median}, {most}, {nearly}, {longest} us", flush=True)


if __name__ == "__main__":
    main()
