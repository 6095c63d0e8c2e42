#!/usr/bin/env python3
"""Sends a session bytes of every kind, cut in every way, and looks at its replies and its end.

    checks/lines.py PROGRAM

Each byte as a line; lines about the longest one; each prefix of a session; a session byte by byte; input that never ends a line; the most lines and
the most bytes that a session takes; and a system that takes one byte of each write, or none.
"""
import os
import subprocess
import sys
import tempfile
import threading

HERE = os.path.dirname(os.path.abspath(__file__))
MALFORMED, TOO_LONG = b"! 15\n", b"! 16\n"
MOST_BYTES, MOST_LINES = 67_108_864, 1_000_000
UNFINISHED = (4, b"refheap: unfinished line\n")
TOO_MANY = (4, b"refheap: too many lines\n")
READ_FAILED = (1, b"refheap: read failed\n")
WRITE_FAILED = (1, b"refheap: write failed\n")
WELL = (0, b"")

SESSION = [
    ("new ri", "= 1"), ("setint 1 1 -7", "ok"), ("int 1 1", "int -7"), ("weak 1 0", "= 2"), ("drop 1", "ok"), ("gc", "ok"), ("refers 2 0", "yes"),
    ("", "! 15"), ("new  r", "! 15"), ("open w f", "= 1"), ("write 1 6869", "wrote 2"), ("close 1", "ok"), ("stat", "stat 3 0 1 1 0"),
]


class Checks:
    def __init__(self, program):
        self.program = program
        self.failed = False

    def said(self, name, got, due):
        if got == due:
            print("ok     ", name)
        else:
            self.failed = True
            print("WRONG  ", name, "got", str(got)[:300], "due", str(due)[:300])

    def ends(self, name, text, replies, end, env=None):
        """A session over this input: its replies, its status and its line on the standard error."""
        with tempfile.TemporaryDirectory() as folder:
            ended = subprocess.run([self.program, "run", "--cells", "16"], input=text, capture_output=True, cwd=folder, env=env)
        self.said(name, (ended.stdout, ended.returncode, ended.stderr), (replies, *end))


def lines(checks):
    every = b"".join(bytes([byte, 10]) for byte in range(256))
    checks.ends("each byte as a line", every, MALFORMED * 257, WELL)
    for length in (511, 512, 513, 514, 1024, 4096, 65_536, 1_000_000):
        reply = MALFORMED if length <= 512 else TOO_LONG
        checks.ends(f"a line of {length} bytes", b"a" * length + b"\n", reply, WELL)
        checks.ends(f"an unfinished line of {length} bytes", b"a" * length, reply, UNFINISHED)
    path = "/" * 252 + "tmp"
    checks.ends("the longest path", f"open r {path}\nopen r /{path}\n".encode(), b"= 1\n" + MALFORMED, WELL)
    checks.ends("the most bytes of a write", f"write 0 {'aA' * 200}\nwrite 0 {'aA' * 201}\n".encode(), b"! 8\n" + MALFORMED, WELL)


def fronts(checks):
    """Each front of a session: the whole lines in it are answered, and what is left is not carried out."""
    text = "".join(line + "\n" for line, _ in SESSION).encode()
    wrong = 0
    for length in range(len(text) + 1):
        whole = text[:length].count(b"\n")
        replies = "".join(reply + "\n" for _, reply in SESSION[:whole]).encode()
        cut = length > 0 and text[length - 1] != 10
        with tempfile.TemporaryDirectory() as folder:
            ended = subprocess.run([checks.program, "run", "--cells", "16"], input=text[:length], capture_output=True, cwd=folder)
        due = (replies + MALFORMED, *UNFINISHED) if cut else (replies, *WELL)
        wrong += (ended.stdout, ended.returncode, ended.stderr) != due
    checks.said(f"each of {len(text) + 1} fronts of a session", wrong, 0)


def byte_by_byte(checks):
    with tempfile.TemporaryDirectory() as folder:
        process = subprocess.Popen([checks.program, "run", "--cells", "16"], stdin=subprocess.PIPE, stdout=subprocess.PIPE, cwd=folder, bufsize=0)
        replies = b""
        for line, _ in SESSION:
            for byte in line.encode() + b"\n":
                process.stdin.write(bytes([byte]))
            replies += process.stdout.readline()
        process.stdin.close()
        checks.said("a session byte by byte", (replies, process.wait()), ("".join(reply + "\n" for _, reply in SESSION).encode(), 0))


def streamed(checks, name, pieces, count, end):
    """A long input, sent while the replies are read: `count` says how many there are of which. However it ends, it is saved, and legal."""
    with tempfile.TemporaryDirectory() as folder:
        saved = os.path.join(folder, "saved")
        process = subprocess.Popen([checks.program, "run", "--cells", "16", "--save", saved],
                                   stdin=subprocess.PIPE, stdout=subprocess.PIPE, stderr=subprocess.PIPE)

        def send():
            try:
                for piece in pieces:
                    process.stdin.write(piece)
                process.stdin.close()
            except BrokenPipeError:
                pass

        sender = threading.Thread(target=send)
        sender.start()
        seen = {}
        for line in process.stdout:
            seen[line] = seen.get(line, 0) + 1
        sender.join()
        said = process.stderr.read()
        status = process.wait()
        verdict = subprocess.run([checks.program, "audit", saved], capture_output=True).stdout
        checks.said(name, (seen, status, said, verdict), (count, *end, b"legal 2 version 2\n"))


def bounds(checks):
    streamed(checks, "input that never ends a line", (b"a" * 65_536 for _ in range(1024)), {}, READ_FAILED)
    line = b"a" * 511 + b"\n"
    most = MOST_BYTES // len(line)
    streamed(checks, "exactly the most bytes", (line * 128 for _ in range(most // 128)), {MALFORMED: most}, READ_FAILED)
    streamed(checks, "one byte less", [line * (most - 1), line[:-1]], {MALFORMED: most}, UNFINISHED)
    streamed(checks, "the most lines, all empty", [b"\n" * MOST_LINES], {MALFORMED: MOST_LINES}, TOO_MANY)
    streamed(checks, "one line less", [b"\n" * (MOST_LINES - 1)], {MALFORMED: MOST_LINES - 1}, WELL)
    streamed(checks, "the most lines, the last one bye", [b"\n" * (MOST_LINES - 1) + b"bye\n"], {MALFORMED: MOST_LINES - 1, b"ok\n": 1}, WELL)


def short_writes(checks):
    """A library that is loaded before the C library takes so many bytes of each write to the standard output."""
    with tempfile.TemporaryDirectory() as folder:
        library = os.path.join(folder, "short.so")
        subprocess.run(["cc", "-O2", "-shared", "-fPIC", "-o", library, os.path.join(HERE, "short.c"), "-ldl"], check=True)
        text = "".join(line + "\n" for line, _ in SESSION).encode()
        replies = "".join(reply + "\n" for _, reply in SESSION).encode()
        for most, out, end in ((1, replies, WELL), (3, replies, WELL), (0, b"", WRITE_FAILED)):
            env = {**os.environ, "LD_PRELOAD": library, "MOST_TAKEN": str(most)}
            checks.ends(f"at most {most} bytes of each write are taken", text, out, end, env)


def main():
    checks = Checks(os.path.abspath(sys.argv[1]))
    lines(checks)
    fronts(checks)
    byte_by_byte(checks)
    short_writes(checks)
    bounds(checks)
    return 1 if checks.failed else 0


if __name__ == "__main__":
    if len(sys.argv) < 2:
        sys.exit(__doc__)
    sys.exit(main())
