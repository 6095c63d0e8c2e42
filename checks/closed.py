#!/usr/bin/env python3
"""Runs sessions with each of the eight combinations of closed standard places (input, output, error), and compares the files that they
write byte by byte: no reply may go into a file of the user's.

    checks/closed.py PROGRAM
"""
import itertools
import os
import subprocess
import sys
import tempfile

INPUT = b"open w first\nwrite 1 6869\nopen w second\nwrite 2 6a6b\nclose 1\nclose 2\n"
REPLIES = b"= 1\nwrote 2\n= 2\nwrote 2\nok\nok\n"
NAMES = ("input", "output", "error")


def run(program, folder, closed):
    """The status of a session with these places closed, and what it wrote to the others."""
    redirections = "".join(f" {number}>&-" if number else " 0<&-" for number in closed)
    words = ["bash", "-c", f'exec "$0" run --cells 16{redirections}', program]
    ended = subprocess.run(words, input=INPUT, stdout=subprocess.PIPE, stderr=subprocess.PIPE, cwd=folder)
    return ended.returncode, ended.stdout, ended.stderr


def content(folder, name):
    path = os.path.join(folder, name)
    if not os.path.exists(path):
        return None
    with open(path, "rb") as file:
        return file.read()


def wanted(closed):
    """The status, the replies, the line on the standard error, and what the two files hold."""
    if 0 in closed:
        return 1, b"", b"refheap: read failed\n", None, None
    if 1 in closed:
        # The reply of the first command cannot be written: the command has been carried out, and nothing follows.
        return 1, b"", b"refheap: write failed\n", b"", None
    return 0, REPLIES, b"", b"hi", b"jk"


def main():
    program = os.path.abspath(sys.argv[1])
    failed = False
    for count in range(4):
        for closed in itertools.combinations(range(3), count):
            with tempfile.TemporaryDirectory() as folder:
                status, replies, said = run(program, folder, closed)
                got = (status, replies, said, content(folder, "first"), content(folder, "second"))
                due = wanted(closed)
                if 2 in closed:
                    due = due[:2] + (b"",) + due[3:]
                what = "closed: " + (", ".join(NAMES[number] for number in closed) or "none")
                if got == due:
                    print("ok     ", what)
                else:
                    failed = True
                    print("WRONG  ", what, "got", got, "due", due)
    sys.exit(failed)


if __name__ == "__main__":
    if len(sys.argv) < 2:
        sys.exit(__doc__)
    main()
