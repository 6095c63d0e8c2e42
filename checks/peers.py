#!/usr/bin/env python3
"""Clients of a server that go at any moment, and clients that do not read: each ends or holds up its own session alone.

    checks/peers.py PROGRAM

A witness asks all the while, and each of its requests is answered within a second. After each client that went another one is served in its place.
"""
import os
import shutil
import socket
import sys
import tempfile
import threading
import time

sys.path.insert(0, os.path.join(os.path.dirname(os.path.abspath(__file__)), "..", "examples"))
from refheap import Client, Server  # noqa: E402

SEATS = 3
NAMES = 250
SLOWEST = 1.0


class Witness:
    """A client that asks all the while, and keeps the longest time that it waited for a reply."""

    def __init__(self, server):
        self.heap = server.client()
        self.slowest = self.asked = 0
        self.ends = threading.Event()
        self.thread = threading.Thread(target=self.ask, daemon=True)
        self.thread.start()

    def ask(self):
        while not self.ends.is_set():
            start = time.time()
            self.heap.same(0, 0)
            self.slowest = max(self.slowest, time.time() - start)
            self.asked += 1
            time.sleep(0.0005)

    def end(self):
        self.ends.set()
        self.thread.join()
        self.heap.close_session()


def connected(server):
    stream = socket.socket(socket.AF_UNIX)
    stream.connect(server.path)
    stream.settimeout(10)
    return stream


def fill(stream, line, most):
    """Sends a line again and again, up to so many bytes, until nothing more is taken for a while: then the server waits for its replies to be read."""
    stream.settimeout(0.3)
    data = line * (65_536 // len(line))
    sent = 0
    try:
        while sent < most:
            sent += stream.send(data)
    except TimeoutError:
        pass
    return sent


def before_a_line(server, folder):
    connected(server).close()


def in_the_middle_of_a_line(server, folder):
    stream = connected(server)
    stream.sendall(b"new -\nne")
    stream.close()


def half_closed_in_the_middle_of_a_line(server, folder):
    stream = connected(server)
    stream.sendall(b"same 0 0\nne")
    stream.shutdown(socket.SHUT_WR)
    assert stream.makefile("rb").read() == b"yes\n! 15\n"
    stream.close()


def in_the_middle_of_a_reply(server, folder):
    stream = connected(server)
    stream.sendall(b"names\n")
    assert stream.makefile("rb", buffering=0).read(4) == b"list"
    stream.close()


def with_replies_unread(server, folder):
    """A megabyte of replies is due, of which the client reads nothing."""
    stream = connected(server)
    stream.sendall(b"names\n" * (1_100_000 // (9 * NAMES)))
    time.sleep(0.1)
    stream.close()


def with_lines_unread(server, folder):
    """The client sends up to a megabyte and reads nothing, until the server takes no more lines."""
    stream = connected(server)
    assert fill(stream, b"same 0 0\n", 1_000_000) > 0
    stream.close()


def with_a_file_open(server, folder):
    stream = connected(server)
    stream.sendall(f"open w {folder}/left\nwrite 1 0102\nbind left 1\nunbind left\n".encode())
    assert stream.makefile("rb").readline().startswith(b"= ")
    stream.close()


GOINGS = (before_a_line, in_the_middle_of_a_line, half_closed_in_the_middle_of_a_line, in_the_middle_of_a_reply, with_replies_unread, with_lines_unread,
          with_a_file_open)


def is_served(server):
    """Whether a client that comes now is answered at once."""
    start = time.time()
    with Client(server.path) as heap:
        heap.socket.settimeout(10)
        answered = heap.same(0, 0)
    return answered and time.time() - start < SLOWEST


def say(what, holds):
    print(f"{'ok     ' if holds else 'WRONG  '} {what}", flush=True)
    return holds


def nothing_open(server):
    """Whether what clients left behind is closed after a collection or a few."""
    with server.client() as heap:
        for _ in range(1000):
            heap.gc()
            _, open_now, taken, well, failed = map(int, heap.stat())
            if open_now == 0 and taken == well + failed:
                return True
            time.sleep(0.001)
    return False


def stalled(server, witness):
    """A client that sends and reads nothing, on each seat but the witness's and one: others are served all the while, and it is once it reads."""
    streams = [connected(server) for _ in range(SEATS - 2)]
    sent = [fill(stream, b"same 0 0\n", 4_000_000) for stream in streams]
    witness.slowest = 0
    beside = all(is_served(server) for _ in range(50))
    right = beside and witness.slowest < SLOWEST
    for stream, count in zip(streams, sent):
        stream.settimeout(10)
        stream.shutdown(socket.SHUT_WR)
        replies = stream.makefile("rb").read()
        stream.close()
        right = right and replies.count(b"yes\n") == count // 9
    return right


def main(program):
    folder = tempfile.mkdtemp()
    total = 1 + 1 + 2 * SEATS * len(GOINGS) + (SEATS - 2) + 50 + 1
    server = Server(program, total, "--sessions", str(SEATS), "--resources", "64")
    try:
        return play(server, folder, total)
    finally:
        server.process.kill()
        shutil.rmtree(folder)


def play(server, folder, total):
    """All that clients do. Whether it went as it should."""
    with server.client() as heap:
        held = heap.new()
        for number in range(NAMES):
            heap.bind(f"name{number}", held)
    witness = Witness(server)
    right = True
    for going in GOINGS:
        witness.slowest = 0
        served = True
        for _ in range(SEATS):
            going(server, folder)
            served = is_served(server) and served
        right = say(f"a client that goes {going.__name__.replace('_', ' ')} ends its own session alone", served and witness.slowest < SLOWEST) and right
    right = say("a client that reads nothing holds up its own session alone, and has all its replies in the end", stalled(server, witness)) and right
    right = say("what those who went had open is closed", nothing_open(server)) and right
    print(f"the witness asked {witness.asked} times")
    witness.end()
    status, served, _ = server.end()
    return say("the server ended by itself, after all clients", status == 0 and served == total) and right


if __name__ == "__main__":
    if len(sys.argv) < 2:
        sys.exit(__doc__)
    sys.exit(0 if main(os.path.abspath(sys.argv[1])) else 1)
