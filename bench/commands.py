#!/usr/bin/env python3
"""Counts commands a second through a pipe, beside a plain session in ordinary Rust (plain_session.rs) on the very same input.

    bench/commands.py [--program crates/refheap/out/refheap] [--cells 1024] [--batches 250] [--rounds 15]

The two sides take turns, a session each: first in batches of 400 lines, where the replies to one batch are waited for before the next is
sent, then the whole input as one stream, which another thread writes, and last one command at a time. Both sides write each reply by
itself. Shown are the medians of the rounds, and of the ratios of neighbours the median and the least. If any replies differ, the script
says where, and ends with status 1.
"""
import argparse
import itertools
import os
import statistics
import subprocess
import sys
import tempfile
import threading
import time

HERE = os.path.dirname(os.path.abspath(__file__))
BATCH = 400
ONE_AT_A_TIME = 2_000
# A queue and an object that stay, with the handles 1 and 2.
BEGIN = ["queue", "new rri"]
# An object is made, written, read, referred to, and lost. Its weak reference stays in a field until the next one takes its place.
ROUND = [
    "new rri", "setint 3 2 -7", "int 3 2", "put 2 0 3", "put 3 1 2", "get 2 0", "same 3 4", "drop 4", "weak 3 1", "put 2 1 4",
    "refers 4 3", "deref 4", "dup 5", "drop 6", "drop 5", "soft 3 0", "drop 5", "put 2 0 0", "drop 4", "drop 3",
]
# What was lost is collected, and the last weak reference comes out of the queue; and some refusals.
COLLECT = [
    "stat", "gc", "stat", "poll 1", "refers 3 0", "deref 3", "same 3 2", "drop 3", "poll 1", "get 2 1",
    "refers 3 0", "drop 3", "get 2 2", "int 2 2", "get 9 0", "put 2 0 1", "get 2 0", "drop 3", "put 2 0 0", "same 0 00",
]
LINES = ROUND * (BATCH // len(ROUND) - 1) + COLLECT


def text_of(lines):
    return "".join(line + "\n" for line in lines).encode()


class Talk:
    """A session that lines are sent to through a pipe, and whose replies come through another."""

    def __init__(self, command):
        self.process = subprocess.Popen(command, stdin=subprocess.PIPE, stdout=subprocess.PIPE, bufsize=0)
        self.input = self.process.stdin.fileno()
        self.output = self.process.stdout.fileno()
        self.replies = []
        self.ask(text_of(BEGIN), len(BEGIN))

    def send(self, text):
        left = memoryview(text)
        while left:
            left = left[os.write(self.input, left) :]

    def wait(self, count):
        """Waits for so many replies."""
        while count > 0:
            piece = os.read(self.output, 65536)
            if not piece:
                raise SystemExit(f"{self.process.args[0]} ended too early")
            self.replies.append(piece)
            count -= piece.count(b"\n")

    def ask(self, text, count):
        self.send(text)
        self.wait(count)

    def close(self):
        """Ends the session, and gives all its replies."""
        self.ask(b"bye\n", 1)
        self.process.wait()
        self.process.stdin.close()
        self.process.stdout.close()
        return b"".join(self.replies)


def in_batches(talk, count):
    batch = text_of(LINES)
    for _ in range(count):
        talk.ask(batch, len(LINES))


def in_a_stream(talk, count):
    stream = text_of(LINES) * count
    writer = threading.Thread(target=talk.send, args=[stream])
    writer.start()
    talk.wait(len(LINES) * count)
    writer.join()


def one_at_a_time(talk, count):
    for line in itertools.islice(itertools.cycle(LINES), count):
        talk.ask(text_of([line]), 1)


def session(command, way, count):
    """Seconds of a session whose lines go in this way, and its replies."""
    talk = Talk(command)
    begin = time.perf_counter()
    way(talk, count)
    took = time.perf_counter() - begin
    return took, talk.close()


def stop_at_a_difference(mine, plain):
    if mine == plain:
        return
    lines = itertools.chain(BEGIN, itertools.cycle(LINES))
    for number, (line, left, right) in enumerate(zip(lines, mine.split(b"\n"), plain.split(b"\n")), 1):
        if left != right:
            print(f"the replies differ at line {number}, {line!r}: {left!r}, and of the plain session {right!r}")
            break
    sys.exit(1)


def in_turn(commands, way, count, rounds):
    """The seconds of each side, a session each in turn."""
    taken = [[], []]
    for number in range(rounds):
        replies = [None, None]
        for side in (0, 1) if number % 2 else (1, 0):
            took, replies[side] = session(commands[side], way, count)
            taken[side].append(took)
        stop_at_a_difference(*replies)
    return taken


def show(what, taken, lines):
    mine, plain = taken
    ratios = [its / own for own, its in zip(mine, plain)]
    speeds = [lines / statistics.median(times) for times in taken]
    print(
        f"{what}: {speeds[0]:,.0f} commands a second, plain session {speeds[1]:,.0f}; "
        f"of the plain session's speed {statistics.median(ratios):.2f}, at least {min(ratios):.2f}"
    )


def main():
    arguments = argparse.ArgumentParser(description=__doc__, formatter_class=argparse.RawDescriptionHelpFormatter)
    arguments.add_argument("--program", default=os.path.join(HERE, "..", "crates", "refheap", "out", "refheap"))
    arguments.add_argument("--cells", type=int, default=1024)
    arguments.add_argument("--batches", type=int, default=250)
    arguments.add_argument("--rounds", type=int, default=15)
    given = arguments.parse_args()
    with tempfile.TemporaryDirectory() as folder:
        plain = os.path.join(folder, "plain_session")
        subprocess.run(["rustc", "-O", os.path.join(HERE, "plain_session.rs"), "-o", plain], check=True)
        commands = [given.program, "run", "--cells", str(given.cells)], [plain, str(given.cells)]
        lines = given.batches * len(LINES)
        show(f"in batches of {len(LINES)}", in_turn(commands, in_batches, given.batches, given.rounds), lines)
        show("in one stream", in_turn(commands, in_a_stream, given.batches, given.rounds), lines)
        show("one at a time", in_turn(commands, one_at_a_time, ONE_AT_A_TIME, given.rounds), ONE_AT_A_TIME)


if __name__ == "__main__":
    main()
