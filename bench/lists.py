#!/usr/bin/env python3
"""Times what a queue and the handler's step cost at lists of 16 to 57,000 members.

    bench/lists.py [--program crates/refheap/out/refheap] [--rounds 7]

A session reads its lines from a file and its replies are thrown away. In a queue that keeps its length a reference is made, enqueued, and
the front polled, again and again: shown is the time of such a turn of five commands, which is that of a session with the turns less that of
one without. For handing over it is the time of a `gc` that clears so many references, each of which is handed over after it, for each of
them: that of a session which ends with it less that of one without. Each time is the least of the rounds; at few members it is noise.
"""
import argparse
import os
import subprocess
import tempfile
import time

HERE = os.path.dirname(os.path.abspath(__file__))
LENGTHS = [16, 256, 4_096, 57_000]
TURNS = 20_000
TURN = ["weak 2 1", "enqueue 3", "drop 3", "poll 1", "drop 3"]


def seconds(program, rounds, lines):
    """The least time that a session of these lines takes."""
    with tempfile.NamedTemporaryFile("w", encoding="ascii") as file:
        file.write("".join(line + "\n" for line in lines + ["bye"]))
        file.flush()
        times = []
        for _ in range(rounds):
            with open(file.name, "rb") as source:
                began = time.perf_counter()
                command = [program, "run", "--cells", "65536"]
                subprocess.run(command, stdin=source, stdout=subprocess.DEVNULL, check=True)
                times.append(time.perf_counter() - began)
        return min(times)


def turn(program, rounds, length):
    """Nanoseconds of a turn at a queue of this length."""
    queued = ["queue", "new -"] + TURN[:3] * length
    return (seconds(program, rounds, queued + TURN * TURNS) - seconds(program, rounds, queued)) / TURNS * 1e9


def held(length):
    """A queue, an object, and so many references to it. A chain of objects holds them, seven each."""
    lines = ["queue", "new -", "new rrrrrrrr"]
    place = 0
    for _ in range(length):
        if place == 7:
            lines += ["new rrrrrrrr", "put 4 7 3", "drop 3", "dup 4", "drop 4"]
            place = 0
        lines += ["weak 2 1", f"put 3 {place} 4", "drop 4"]
        place += 1
    return lines


def handed_over(program, rounds, length):
    """Nanoseconds of a collection for each of so many references that it clears and that are handed over after it."""
    lines = held(length) + ["drop 2"]
    return (seconds(program, rounds, lines + ["gc"]) - seconds(program, rounds, lines)) / length * 1e9


def main():
    parser = argparse.ArgumentParser()
    parser.add_argument("--program", default=os.path.join(HERE, "..", "crates", "refheap", "out", "refheap"))
    parser.add_argument("--rounds", type=int, default=7)
    given = parser.parse_args()
    print("members   turn, ns   handed over, ns")
    for length in LENGTHS:
        times = turn(given.program, given.rounds, length), handed_over(given.program, given.rounds, length)
        print(f"{length:7}   {times[0]:8.0f}   {times[1]:15.0f}")


if __name__ == "__main__":
    main()
