#!/usr/bin/env python3
"""Clients of a server that go while a call of theirs waits, and calls that do not wait.

    checks/blocking.py PROGRAM [ROUNDS]

A read of a peer or a FIFO that says nothing, and a write to one that is full, end with their client, and its seat is free within a second; descriptors and threads
stay as many. A client that only sends no more has its answer. A FIFO without another end is opened at once, and a socket where too many wait is not joined.
A sync that takes three seconds (a library that is loaded before the C library, `synced.c`, makes it so), of the cleaner or of a `close`, holds no other client up.
"""
import fcntl
import os
import random
import shutil
import socket
import subprocess
import sys
import tempfile
import threading
import time

import peers
from peers import connected, is_served, say

HERE = os.path.dirname(os.path.abspath(__file__))
SEATS = 2
SLOWEST = 1.0
# For how many seconds a sync lasts that is slow.
SYNC = 3.0
BYTES = "00" * 200


class Place:
    """A folder with a socket whose peers say and read nothing, one where too many wait, and FIFOs, two of them with another end that does nothing."""

    def __init__(self):
        self.folder = tempfile.mkdtemp()
        self.listener = self.listens("silent", 128)
        self.met = None
        threading.Thread(target=self.accept, daemon=True).start()
        self.crowded = self.listens("crowded", 0)
        self.waiting = list(self.crowd())
        for name in ("alone", "silent_fifo", "full_fifo"):
            os.mkfifo(self.path(name))
        self.ends = [os.open(self.path(name), os.O_RDWR) for name in ("silent_fifo", "full_fifo")]
        fcntl.fcntl(self.ends[1], fcntl.F_SETPIPE_SZ, 4096)

    def path(self, name):
        return os.path.join(self.folder, name)

    def listens(self, name, most):
        listener = socket.socket(socket.AF_UNIX)
        listener.bind(self.path(name))
        listener.listen(most)
        return listener

    def accept(self):
        """Keeps the peer that came last."""
        while True:
            peer, _ = self.listener.accept()
            self.met = peer

    def crowd(self):
        """Joins the crowded socket until no more may wait there."""
        while True:
            stream = socket.socket(socket.AF_UNIX)
            stream.setblocking(False)
            try:
                stream.connect(self.path("crowded"))
            except BlockingIOError:
                return
            yield stream


class Lines:
    """A connection to the server, line by line."""

    def __init__(self, server):
        self.stream = connected(server)
        self.replies = self.stream.makefile("rb")

    def send(self, line):
        self.stream.sendall(line.encode() + b"\n")

    def reply(self):
        return self.replies.readline().decode().strip()

    def ask(self, line):
        self.send(line)
        return self.reply()

    def close(self):
        self.replies.close()
        self.stream.close()


def until_one_waits(lines):
    """Sends writes, a few at a time, until their replies stay away."""
    lines.stream.settimeout(0.3)
    for _ in range(1000):
        lines.stream.sendall(f"write 1 {BYTES}\n".encode() * 16)
        for _ in range(16):
            try:
                lines.stream.recv(len("wrote 200\n"), socket.MSG_WAITALL)
            except TimeoutError:
                return
    raise AssertionError("no write waits")


def until_it_reads(lines):
    """Sends a read of what is silent."""
    lines.send("read 1 9")


def waiting(server, opening, until):
    """A session that has opened a resource, and waits in a call on it."""
    lines = Lines(server)
    assert lines.ask(opening) == "= 1"
    until(lines)
    return lines


def reading_a_silent_peer(server, place):
    return waiting(server, f"connect {place.path('silent')}", until_it_reads)


def writing_to_a_full_peer(server, place):
    return waiting(server, f"connect {place.path('silent')}", until_one_waits)


def reading_a_silent_fifo(server, place):
    return waiting(server, f"open r {place.path('silent_fifo')}", until_it_reads)


def writing_to_a_full_fifo(server, place):
    return waiting(server, f"open w {place.path('full_fifo')}", until_one_waits)


CALLS = (reading_a_silent_peer, writing_to_a_full_peer, reading_a_silent_fifo, writing_to_a_full_fifo)


def counts(server):
    """How many descriptors and threads the server has."""
    return [len(os.listdir(f"/proc/{server.process.pid}/{kind}")) for kind in ("fd", "task")]


def gone(server, place, witness, call, rounds):
    """Whether so many clients that go in a call leave their seat at once, and nothing open behind them."""
    before = counts(server)
    right = True
    for _ in range(rounds):
        lines = call(server, place)
        time.sleep(random.random() / 200)
        lines.close()
        right = is_served(server) and right
        witness.gc()
    for _ in range(100):
        witness.gc()
        if counts(server) == before:
            return right
        time.sleep(0.02)
    return False


def half_closed(server, place):
    lines = Lines(server)
    assert lines.ask(f"connect {place.path('silent')}") == "= 1"
    lines.send("read 1 9")
    lines.stream.shutdown(socket.SHUT_WR)
    time.sleep(0.3)
    place.met.sendall(b"abc")
    right = lines.reply() == "data 616263" and lines.reply() == ""
    lines.close()
    return right


def at_once(server, place):
    """Calls that do not wait, and their replies."""
    lines = Lines(server)
    start = time.time()
    replies = [lines.ask(line) for line in (
        f"open r {place.path('alone')}", "read 1 9", f"open w {place.path('alone')}", "write 2 00", "drop 1", "drop 2", f"connect {place.path('crowded')}")]
    lines.close()
    # both ends of the FIFO are open at the write
    return replies == ["= 1", "end", "= 2", "wrote 1", "ok", "ok", "fault other"] and time.time() - start < SLOWEST


def slow_server(program, folder):
    """A server whose syncs are slow."""
    library = os.path.join(folder, "synced.so")
    subprocess.run([os.environ.get("CC", "cc"), "-O2", "-shared", "-fPIC", "-o", library, os.path.join(HERE, "synced.c")], check=True)
    more = {"LD_PRELOAD": library, "SYNC_DELAY": str(int(SYNC * 1000))}
    os.environ.update(more)
    try:
        return peers.Server(program, SEATS, "--sessions", str(SEATS))
    finally:
        for name in more:
            del os.environ[name]


def jobs(lines):
    """How many actions were taken up, and how many of them have ended, as `stat` counts them."""
    taken, well, failed = map(int, lines.ask("stat").split()[3:])
    return taken, well + failed


def is_answered(lines, goes_on):
    """Whether a client is answered at once, again and again, for most of a sync: as long as this holds."""
    begun, slowest, asked = time.monotonic(), 0.0, 0
    while goes_on() and time.monotonic() - begun < 10 * SYNC:
        start = time.monotonic()
        answered = lines.ask("same 0 0") == "yes"
        slowest, asked = max(slowest, time.monotonic() - start), asked + 1
        if not answered:
            return False
        time.sleep(0.01)
    took = time.monotonic() - begun
    if not (slowest < SLOWEST and asked > 20 and took > SYNC / 2):
        print(f"        it was answered {asked} times in {took:.1f} s, once after {slowest:.1f} s")
        return False
    return True


def slow_sync(program, folder):
    """Whether a client is answered while the cleaner closes the file of another one, which nobody reaches any more, and while that one closes a file itself."""
    server = slow_server(program, folder)
    try:
        one, other = Lines(server), Lines(server)
        path = os.path.join(folder, "lost")
        assert other.ask("same 0 0") == "yes"
        assert [one.ask(line) for line in (f"open w {path}", "drop 1", "gc")] == ["= 1", "ok", "ok"]
        until = time.monotonic() + SLOWEST
        while jobs(other) != (1, 0) and time.monotonic() < until:
            time.sleep(0.01)
        right = say("a sync of the cleaner holds no other client up", is_answered(other, lambda: jobs(other) == (1, 0)) and jobs(other) == (1, 1))
        assert one.ask(f"open w {path}") == "= 1"
        one.send("close 1")
        one.stream.setblocking(False)
        right = say("nor does the sync of a close", is_answered(other, lambda: not has_come(one))) and right
        one.stream.settimeout(10)
        right = say("which is answered in the end", one.reply() == "ok" and jobs(other) == (2, 2)) and right
        one.close()
        other.close()
        status, served, _ = server.end()
        return say("their server ended by itself", (status, served) == (0, SEATS)) and right
    finally:
        server.process.kill()


def has_come(lines):
    """Whether a reply is there to be read."""
    try:
        return bool(lines.stream.recv(1, socket.MSG_PEEK))
    except BlockingIOError:
        return False


def main(program, rounds):
    place = Place()
    total = 1 + 2 * rounds * len(CALLS) + 2
    server = peers.Server(program, total, "--sessions", str(SEATS), "--resources", "64")
    try:
        witness = server.client()
        witness.gc()  # once it is answered it has its seat, and all threads are there
        right = True
        for call in CALLS:
            name = call.__name__.replace("_", " ")
            right = say(f"{rounds} clients that go while {name} leave their seats", gone(server, place, witness, call, rounds)) and right
        right = say("a client that only sends no more has its answer", half_closed(server, place)) and right
        right = say("a FIFO without another end and a crowded socket do not wait", at_once(server, place)) and right
        witness.close_session()
        status, served, _ = server.end()
        right = say("the server ended by itself, after all clients", status == 0 and served == total) and right
        return slow_sync(program, place.folder) and right
    finally:
        server.process.kill()
        shutil.rmtree(place.folder)


if __name__ == "__main__":
    if len(sys.argv) < 2:
        sys.exit(__doc__)
    sys.exit(0 if main(os.path.abspath(sys.argv[1]), int(sys.argv[2]) if len(sys.argv) > 2 else 50) else 1)
