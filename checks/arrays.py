#!/usr/bin/env python3
"""Arrays: what they take is given back, whether they are refused or collected, and a session lives on where memory for more is refused.

    checks/arrays.py PROGRAM [--arrays N]

A session makes N arrays of 4,096 elements (100,000) that are refused, since its 16 cells are full, and another as many that are given up and
collected: the memory at the end is held against that after the first tenth. A third session, which may have 512 MB, makes arrays in 65,536 cells
until one is refused because memory ran out (`! 1`): all before it are there, with what they hold, and the session goes on. A server whose
client gives up 20,000 arrays takes no more after the first 2,000, though it has 4,096 cells: the marker sweeps those that it collected.
"""
import argparse
import os
import resource
import shutil
import socket
import subprocess
import sys
import tempfile
import time

LIMIT = 512 * 1024 * 1024
BATCH = 100


def memory_of(process):
    """What of a process is in memory, in kB."""
    with open(f"/proc/{process}/status") as status:
        return next(int(line.split()[1]) for line in status if line.startswith("VmRSS:"))


class Session:
    """A session that lines are sent to, and whose replies are read."""

    def __init__(self, program, *words, limit=None):
        self.process = subprocess.Popen(
            [program, "run", *words], stdin=subprocess.PIPE, stdout=subprocess.PIPE, preexec_fn=(lambda: limited(limit)) if limit else None
        )

    def ask(self, *lines):
        self.process.stdin.write("".join(line + "\n" for line in lines).encode())
        self.process.stdin.flush()
        return [self.process.stdout.readline().decode().rstrip("\n") for _ in lines]

    def memory(self):
        return memory_of(self.process.pid)

    def close(self):
        self.ask("bye")
        self.process.stdin.close()
        return self.process.wait()


def limited(limit):
    resource.setrlimit(resource.RLIMIT_AS, (limit, limit))


def said(name, holds, *told):
    print("ok     " if holds else "FAILED ", name, *told)
    return 0 if holds else 1


def flat(name, session, arrays, lines, wanted):
    """Asks these lines again and again, and looks whether the memory stays what it was after the first tenth."""
    early, failed = 0, 0
    for turn in range(arrays // BATCH):
        replies = session.ask(*lines * BATCH)
        failed += replies != wanted * BATCH
        if turn + 1 == max(1, arrays // BATCH // 10):
            early = session.memory()
    late = session.memory()
    faults = said(f"{name} are answered as they have to be", failed == 0)
    faults += said(f"{name} leave the memory as it was", late - early < 256, f"({early} kB, {late} kB)")
    return faults + said("the session ends", session.close() == 0)


def refused(program, arrays):
    session = Session(program, "--cells", "16", "--trace", "64")
    session.ask(*["new -"] * 16)
    return flat("arrays without a cell", session, arrays, ["array 4096"], ["! 2"])


def collected(program, arrays):
    session = Session(program, "--cells", "16", "--trace", "64")
    return flat("arrays that are given up", session, arrays, ["array 4096", "drop 1"], ["= 1", "ok"])


def made(session):
    """Makes arrays, each held by an element of another, until one is refused. Says how many there are, and what the refusal was."""
    session.ask("array 4096")
    count = 1
    for place in range(4096):
        count += 1
        first = session.ask("array 4096")[0]
        if first != "= 2":
            return count - 1, first
        session.ask(f"put 1 {place} 2")
        for inner in range(15):
            told = session.ask("array 4096")[0]
            if told != "= 3":
                return count, told
            count += 1
            session.ask(f"put 2 {inner} 3", "drop 3")
        session.ask("drop 2")
    return count, "none"


def starved(program):
    session = Session(program, "--cells", "65536", "--trace", "1000000", limit=LIMIT)
    count, told = made(session)
    faults = said("an array is refused because memory ran out", told == "! 1", f"({count} arrays stand, then {told})")
    faults += said("those before it stand", session.ask("stat")[0] == f"stat {count} 0 0 0 0")
    faults += said("what they hold is there", session.ask("get 1 0")[0].startswith("= "))
    faults += said("an object is made all the same", session.ask("new -")[0].startswith("= "))
    return faults + said("the session ends", session.close() == 0)


def served(program):
    folder = tempfile.mkdtemp(prefix="refheap-arrays-")
    path = os.path.join(folder, "heap")
    process = subprocess.Popen([program, "serve", "--socket", path, "--total", "1", "--cells", "4096", "--trace", "64"])
    while not os.path.exists(path):
        time.sleep(0.01)
    stream = socket.socket(socket.AF_UNIX)
    stream.connect(path)
    lines = stream.makefile("rb")

    def ask(*asked):
        stream.sendall("".join(line + "\n" for line in asked).encode())
        return [lines.readline().decode().rstrip("\n") for _ in asked]

    early = 0
    for turn in range(200):
        ask(*["array 4096", "drop 1"] * BATCH)
        time.sleep(0.005)
        if turn == 20:
            early = memory_of(process.pid)
    late = memory_of(process.pid)
    faults = said("a server's marker gives the memory of dead arrays back", late - early < 12_000, f"({early} kB after 2,000, {late} kB after 20,000)")
    ask("bye")
    faults += said("the server ends", process.wait() == 0)
    shutil.rmtree(folder)
    return faults


def main():
    words = argparse.ArgumentParser(description="what arrays take, and give back")
    words.add_argument("program")
    words.add_argument("--arrays", type=int, default=100_000)
    words = words.parse_args()
    faults = refused(words.program, words.arrays) + collected(words.program, words.arrays) + starved(words.program)
    faults += served(words.program)
    return 1 if faults else 0


if __name__ == "__main__":
    sys.exit(main())
