#!/usr/bin/env python3
"""How long a session takes that does nothing, beside a C program that does nothing.

    bench/start.py [--program crates/refheap/out/refheap] [--rounds 201]

The C program is compiled with `cc`. The sides take turns: a process is started, is given the line `bye`, and is waited for.
Tells the medians in milliseconds, and the pages that each touched for the first time (minor faults).
"""
import argparse
import os
import resource
import statistics
import subprocess
import tempfile
import time

HERE = os.path.dirname(os.path.abspath(__file__))


def lived(command):
    """Milliseconds from start to end."""
    before = time.perf_counter()
    process = subprocess.Popen(command, stdin=subprocess.PIPE, stdout=subprocess.DEVNULL)
    try:
        process.communicate(b"bye\n")
    except BrokenPipeError:
        process.wait()
    return 1000 * (time.perf_counter() - before)


def faults(command):
    """Minor faults of one run."""
    before = resource.getrusage(resource.RUSAGE_CHILDREN).ru_minflt
    lived(command)
    return resource.getrusage(resource.RUSAGE_CHILDREN).ru_minflt - before


def main():
    arguments = argparse.ArgumentParser(description=__doc__, formatter_class=argparse.RawDescriptionHelpFormatter)
    arguments.add_argument("--program", default=os.path.join(HERE, "..", "crates", "refheap", "out", "refheap"))
    arguments.add_argument("--rounds", type=int, default=201)
    options = arguments.parse_args()

    with tempfile.TemporaryDirectory() as folder:
        source, empty = os.path.join(folder, "empty.c"), os.path.join(folder, "empty")
        with open(source, "w") as file:
            file.write("int main(void) { return 0; }\n")
        subprocess.run(["cc", "-O2", "-o", empty, source], check=True)
        sides = {"empty C program": [empty]}
        for cells in (16, 1024, 16384, 65536):
            sides[f"{cells} cells"] = [options.program, "run", "--cells", str(cells)]
        times = {name: [] for name in sides}
        for _ in range(options.rounds):
            for name, command in sides.items():
                times[name].append(lived(command))
        least = statistics.median(times["empty C program"])
        for name, command in sides.items():
            median = statistics.median(times[name])
            print(f"{name}: {median:.2f} ms, {median - least:+.2f}, {faults(command)} pages")


if __name__ == "__main__":
    main()
