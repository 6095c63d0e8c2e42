#!/usr/bin/env python3
"""A long life of one server: millions of random lines through four clients at once.

    checks/long.py PROGRAM [--lines N] [--seed N]

N lines (200,000; 10,000,000 are meant to be possible) of random commands that are commands in every state, refused or not: objects,
arrays, references, queues, cleaners with notes, files in a folder of its own, names, a collection now and then. They are sent in
batches, many lines before a reply is read. The trace is small, so the history is cut again and again, and the marker works beside the
clients. Each client begins a new session before its 1,000,000th line, and before its 67,108,864th byte.

Each line has one reply, of a form that the protocol has for some command. At the end the server is asked to end: all ends with status
0, the saved history is legal, the entries that the server tells are at least the lines that are asks, and the server's resident memory
is at most 1.2 times what it was after a tenth of the lines, and 500 KB. A line every ten seconds says how it goes on.
"""
import argparse
import os
import random
import re
import select
import socket
import subprocess
import sys
import tempfile
import threading
import time

sys.dont_write_bytecode = True

CLIENTS = 4
TIMEOUT = 60
OF_A_BATCH = 500
BATCHES = 400
# What a session may have at most: the protocol's limits, less a batch.
LINES = 1_000_000 - OF_A_BATCH - 1
BYTES = 67_108_864 - 512 * OF_A_BATCH
# At most so many times the memory after a tenth, and some KB, by which a small process grows as it settles.
MOST_GROWTH, SLACK = 1.2, 500
# Where a `close` waits for no disk.
FAST = "/dev/shm" if os.path.isdir("/dev/shm") else None
OPTIONS = ["--cells", "512", "--resources", "24", "--trace", "500", "--soft-age", "2", "--budget", "16"]
REPLIES = re.compile(
    rb"(?:(?:ok|yes|no|end|= \d{1,3}|int -?\d{1,19}|data (?:[0-9a-f]{2}){1,200}|wrote \d{1,3}|list(?: [0-9a-z_:]+)*"
    rb"|fault (?:notfound|denied|other)|stat \d+ \d+ \d+ \d+ \d+|! (?:[2-9]|1[0-2]|1[89]))\n)*")


class Wrong(Exception):
    pass


# ---- Lines

def kinds_of(choices):
    """What makes each kind of command, with how often it comes. Each is an ask at least, but for one with spaces at its end."""
    handle = lambda: choices.randint(0, 14) if choices.random() < 0.98 else choices.randint(0, 255)  # noqa: E731
    name = lambda: f"n{choices.randrange(24)}"  # noqa: E731
    file = lambda: f"f{choices.randrange(16)}"  # noqa: E731
    return (
        (14, lambda: f"new {choices.choice(['-', 'r', 'rr', 'ri', 'i', 'rrrrrrrr'])}"),
        (3, lambda: f"array {choices.choice([1, 2, 7, 60])}"),
        (9, lambda: f"put {handle()} {choices.randrange(3)} {handle()}"),
        (5, lambda: f"get {handle()} {choices.randrange(3)}"),
        (2, lambda: f"setint {handle()} {choices.randrange(2)} {choices.randrange(-2**63, 2**63)}"),
        (2, lambda: f"int {handle()} {choices.randrange(2)}"),
        (2, lambda: f"dup {handle()}"),
        (40, lambda: f"drop {handle()}"),
        (1, lambda: f"same {handle()} {handle()}"),
        (9, lambda: f"{choices.choice(['soft', 'weak', 'phantom'])} {handle()} {handle() if choices.random() < 0.6 else 0}"),
        (4, lambda: f"deref {handle()}"),
        (1, lambda: f"refers {handle()} {handle()}"),
        (1, lambda: f"clear {handle()}"),
        (2, lambda: f"enqueue {handle()}"),
        (1, lambda: f"enqueued {handle()}"),
        (3, lambda: "queue"),
        (5, lambda: f"poll {handle()}"),
        (2, lambda: "cleaner"),
        (4, lambda: f"register {handle()} {handle()} {choices.randrange(2**32)}"),
        (2, lambda: f"clean {handle()}"),
        (2, lambda: f"open w {file()}"),
        (2, lambda: f"open r {file()}"),
        (4, lambda: f"read {handle()} {choices.randint(1, 200)}"),
        (4, lambda: f"write {handle()} {choices.randbytes(choices.choice([1, 3, 40])).hex()}"),
        (3, lambda: f"close {handle()}"),
        (3, lambda: f"bind {name()} {handle()}"),
        (3, lambda: f"find {name()}"),
        (2, lambda: f"unbind {name()}"),
        (0.3, lambda: "names"),
        (0.3, lambda: "gc"),
        (0.1, lambda: "gc soft"),
        (1, lambda: "stat"),
        (0.2, lambda: "notes"),
        (0.2, lambda: "faults"),
        (0.5, lambda: "stat" + " " * choices.randint(1, 3)),
    )


def is_ask(line):
    """Whether a line is a command: one with a space at its end is none."""
    return not line.endswith(" ")


class Batch:
    """Lines that are sent together, and how many of them are asks."""

    def __init__(self, choices, kinds):
        weights, makers = zip(*kinds)
        lines = [make() for make in choices.choices(makers, weights, k=OF_A_BATCH)]
        self.data = "".join(line + "\n" for line in lines).encode()
        self.lines = len(lines)
        self.asks = sum(map(is_ask, lines))


# ---- Clients

class Client(threading.Thread):
    """Sends batches until its part is done, in as many sessions as that takes."""

    def __init__(self, path, part, seed, batches):
        super().__init__(daemon=True)
        self.path, self.part, self.batches = path, part, batches
        self.choices = random.Random(seed)
        self.lines = self.asks = self.sessions = 0
        self.wrong = None
        self.stream = None
        self.malformed = 0

    def run(self):
        try:
            while self.lines < self.part:
                self.session()
        except (OSError, Wrong) as wrong:
            self.wrong = f"{type(wrong).__name__} {wrong}, after {self.lines} lines"

    def session(self):
        """One session, up to a part of a million lines, and bye."""
        most = self.choices.choice([LINES, LINES, 5_000, 100])
        self.stream = socket.socket(socket.AF_UNIX)
        self.stream.connect(self.path)
        self.unread = b""
        lines = sent = 0
        while lines + OF_A_BATCH <= max(most, OF_A_BATCH) and sent < BYTES and self.lines < self.part:
            batch = self.choices.choice(self.batches)
            self.exchange(batch.data, batch.lines)
            self.asks += batch.asks
            lines += batch.lines
            sent += len(batch.data)
            self.lines += batch.lines
        self.exchange(b"bye\n", 1)
        self.stream.settimeout(TIMEOUT)
        if self.unread or self.stream.recv(1):
            raise Wrong("something follows the reply to bye")
        self.stream.close()
        self.sessions += 1

    def exchange(self, data, lines):
        """Sends lines, and reads while it sends, until each has its reply."""
        view, at, left = memoryview(data), 0, lines
        poll = select.poll()
        poll.register(self.stream, select.POLLIN | select.POLLOUT)
        while left:
            if at == len(data):
                poll.modify(self.stream, select.POLLIN)
            ready = poll.poll(TIMEOUT * 1000)
            if not ready:
                raise Wrong(f"no reply for {TIMEOUT} s, {left} are due")
            if ready[0][1] & ~select.POLLOUT:
                left -= self.receive()
            if ready[0][1] & select.POLLOUT and at < len(data):
                at += self.stream.send(view[at:], socket.MSG_DONTWAIT)
        if left or self.unread:
            raise Wrong("more replies than lines")

    def receive(self):
        """How many whole replies came, each of a form that there is."""
        data = self.stream.recv(262_144)
        if not data:
            raise Wrong("the server ended the session")
        whole, end, self.unread = (self.unread + data).rpartition(b"\n")
        whole += end
        if not REPLIES.fullmatch(whole.replace(b"! 15\n", b"")):
            odd = next(line for line in whole.splitlines(True) if not REPLIES.fullmatch(line) and line != b"! 15\n")
            raise Wrong(f"no reply of a command: {odd!r}")
        self.malformed += whole.count(b"! 15\n")
        return whole.count(b"\n")


# ---- The server

class Server:
    def __init__(self, program, folder):
        self.program, self.folder = program, folder
        self.path, self.control, self.history = (os.path.join(folder, name) for name in ("heap", "control", "history"))
        words = ["--socket", self.path, "--control", self.control, "--total", "1000000", "--sessions", str(CLIENTS), "--save", self.history]
        self.process = subprocess.Popen([program, "serve", *words, *OPTIONS], cwd=folder, stdout=subprocess.PIPE, stderr=subprocess.PIPE)
        end = time.monotonic() + TIMEOUT
        while not os.path.exists(self.control):
            if self.process.poll() is not None or time.monotonic() > end:
                raise Wrong("the server does not start")
            time.sleep(0.01)

    def memory(self):
        """Its resident memory in KB."""
        with open(f"/proc/{self.process.pid}/status", encoding="ascii") as status:
            return next(int(line.split()[1]) for line in status if line.startswith("VmRSS"))

    def end(self):
        """Asks it to end. What `stop` and the server said, with their statuses."""
        stopped = subprocess.run([self.program, "stop", self.control], capture_output=True, timeout=TIMEOUT, check=False)
        out, errors = self.process.communicate(timeout=TIMEOUT)
        return stopped.returncode, self.process.returncode, out.decode().split(), (stopped.stderr + errors).decode()

    def verdict(self):
        done = subprocess.run([self.program, "audit", self.history], capture_output=True, timeout=600, check=False)
        return done.stdout.decode().strip()


def say(what, holds):
    print(f"{'ok     ' if holds else 'WRONG  '} {what}", flush=True)
    return holds


def watch(server, clients, lines):
    """Waits for the clients. The server's memory once a tenth of the lines was answered, and at the end."""
    start = told = time.monotonic()
    first = None
    while any(client.is_alive() for client in clients):
        time.sleep(0.02)
        done = sum(client.lines for client in clients)
        if first is None and done >= lines // 10:
            first = server.memory()
        if server.process.poll() is not None:
            return first, None
        if time.monotonic() - told >= 10:
            told = time.monotonic()
            print(f"{done:9} lines  {int(done / (told - start)):8} a second  {server.memory():7} kB", flush=True)
    return first, server.memory()


def long_life(program, lines, seed):
    with tempfile.TemporaryDirectory(prefix="refheap-long-", dir=FAST) as folder:
        choices = random.Random(seed)
        kinds = kinds_of(choices)
        batches = [Batch(choices, kinds) for _ in range(BATCHES)]
        server = Server(program, folder)
        try:
            clients = [Client(server.path, lines // CLIENTS, f"{seed} {number}", batches) for number in range(CLIENTS)]
            for client in clients:
                client.start()
            first, last = watch(server, clients, lines)
            stopped, status, said, errors = server.end()
            verdict = server.verdict()
        finally:
            server.process.kill()
        left = [name for name in os.listdir(folder) if not re.fullmatch(r"f\d+|history", name)]
    return told(clients, first, last, (stopped, status, said, errors), verdict, left)


def is_flat(first, last):
    return bool(first and last) and last <= MOST_GROWTH * first + SLACK


def told(clients, first, last, ended, verdict, left):
    """Says of each promise whether it holds."""
    stopped, status, said, errors = ended
    done, asks, sessions = (sum(getattr(client, what) for client in clients) for what in ("lines", "asks", "sessions"))
    wrong = [client.wrong for client in clients if client.wrong]
    served, entries = (int(said[1]), int(said[3])) if len(said) == 4 else (0, 0)
    malformed = sum(client.malformed for client in clients)
    asks += 2 * sessions
    return all([
        say(f"{done} lines in {sessions} sessions, each with a reply of its own {wrong or ''}", not wrong),
        say(f"{malformed} lines are no commands", malformed == done - asks + 2 * sessions),
        say(f"the server ended in order, and `stop` was told so: {stopped}, {status}, '{errors}'", (stopped, status, errors) == (0, 0, "")),
        say(f"it served {served}", served == sessions),
        # Those before the last cut are gone.
        say(f"the history is saved: {verdict}", re.fullmatch(r"legal \d+ version 2", verdict) is not None),
        say(f"{entries} entries, and {asks} asks of clients at least", entries >= asks),
        say(f"resident memory {first} kB after a tenth, {last} kB at the end", is_flat(first, last)),
        say(f"nothing else is left {left or ''}", not left),
    ])


def main():
    parser = argparse.ArgumentParser(description=__doc__.splitlines()[0])
    parser.add_argument("program")
    parser.add_argument("--lines", type=int, default=200_000)
    parser.add_argument("--seed", default="1")
    asked = parser.parse_args()
    try:
        return 0 if long_life(os.path.abspath(asked.program), asked.lines, asked.seed) else 1
    except (Wrong, subprocess.TimeoutExpired) as wrong:
        print(f"WRONG   {wrong}")
        return 1


if __name__ == "__main__":
    sys.exit(main())
