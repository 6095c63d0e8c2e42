#!/usr/bin/env python3
"""Two sessions of a server have a file each open at once, and read back what they wrote themselves.

    checks/own_files.py PROGRAM [ROUNDS]

In each round both clients open a file for writing, write bytes of their own to it, and close it; then both open it for reading, read it and
close it. Between any two of these steps each waits for the other, so that both files are open whenever one of them is used.
"""
import os
import sys
import tempfile
import threading

sys.path.insert(0, os.path.join(os.path.dirname(os.path.abspath(__file__)), "..", "examples"))
from refheap import Server  # noqa: E402


class Session(threading.Thread):
    """A client that writes and reads files of its own, in step with another."""

    def __init__(self, server, folder, number, rounds, both):
        super().__init__(daemon=True)
        self.heap = server.client()
        self.folder, self.number, self.rounds, self.both = folder, number, rounds, both
        self.wrong = None

    def step(self, command, wanted=None):
        """One command, in step with the other session; what it is answered is kept where it is not as wanted."""
        self.both.wait(timeout=30)
        answer = self.heap.ahead(command)[0]
        if wanted is not None and answer != wanted and self.wrong is None:
            self.wrong = f"session {self.number}: {command}: {answer} in place of {wanted}"
        return answer

    def round(self, turn):
        """A file is written, and read back."""
        path = f"{self.folder}/file{self.number}"
        data = bytes([self.number + 1, turn % 256] * 20).hex()
        guard = self.step(f"open w {path}").removeprefix("= ")
        self.step(f"write {guard} {data}", "wrote 40")
        self.step(f"close {guard}", "ok")
        self.step(f"drop {guard}", "ok")
        guard = self.step(f"open r {path}").removeprefix("= ")
        self.step(f"read {guard} 200", f"data {data}")
        self.step(f"close {guard}", "ok")
        self.step(f"drop {guard}", "ok")

    def run(self):
        for turn in range(self.rounds):
            self.round(turn)
        self.heap.close_session()


def main():
    """Plays the rounds."""
    program = os.path.abspath(sys.argv[1])
    rounds = int(sys.argv[2]) if len(sys.argv) > 2 else 300
    with tempfile.TemporaryDirectory() as folder:
        server = Server(program, 2, "--sessions", "2")
        both = threading.Barrier(2)
        sessions = [Session(server, folder, number, rounds, both) for number in range(2)]
        for session in sessions:
            session.start()
        for session in sessions:
            session.join(timeout=120)
        status, served, _ = server.end()
    wrong = [session.wrong for session in sessions if session.wrong] + [
        f"session {session.number} hangs" for session in sessions if session.is_alive()]
    if (status, served) != (0, 2):
        wrong.append(f"the server ended with {status} after {served} clients")
    for line in wrong:
        print("WRONG", line)
    if wrong:
        sys.exit(1)
    print(f"ok    {rounds} rounds: each of two sessions reads back its own bytes")


if __name__ == "__main__":
    if len(sys.argv) < 2:
        sys.exit(__doc__)
    main()
