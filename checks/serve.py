#!/usr/bin/env python3
"""Loads a server: many clients of random commands with files and sockets, clients that go at any moment, collections beside them; then many sessions one
after the other. The server ends by itself with status 0, no descriptor stays open, its memory stays flat, and its history has at least the asks that clients
counted. Before, each seat notes a whole trace, so that what follows finds all the room that it needs. Then clients whose entries can be told from outside:
the history has as many, and those of cycles that are due once a session has left with resources open. Then a server under `strace`: no descriptor is closed twice.

    checks/serve.py PROGRAM [--clients N] [--seconds N] [--sessions N]

A line a second says how it goes on: sessions so far, commands a second, the server's resident memory and open descriptors.
"""
import argparse
import os
import random
import shutil
import socket
import sys
import tempfile
import threading
import time

sys.path.insert(0, os.path.join(os.path.dirname(os.path.abspath(__file__)), "..", "examples"))
from refheap import Client, Fault, Refused, Server  # noqa: E402

SESSIONS_A_SECOND = 500
TRACE = 1000
# Descriptors of a client: what it sends, where its replies go, and the connection that is watched.
OF_A_CLIENT = 3
# Entries of a cycle that is due since a session left with resources open: its beginning and its collection.
OF_A_CYCLE = 2


class Tally:
    """What all clients did so far."""

    def __init__(self):
        self.lock = threading.Lock()
        self.sessions = self.commands = self.asks = self.wrong = 0

    def add(self, sessions, commands, asks, wrong=0):
        with self.lock:
            self.sessions += sessions
            self.commands += commands
            self.asks += asks
            self.wrong += wrong


def peer(path, ends):
    """A Unix socket that sends what it gets back, for the sessions to connect to."""
    listener = socket.socket(socket.AF_UNIX)
    listener.bind(path)
    listener.listen(64)
    listener.settimeout(0.2)

    def echo(stream):
        try:
            while data := stream.recv(4096):
                stream.sendall(data)
        except OSError:
            pass
        stream.close()

    while not ends.is_set():
        try:
            stream, _ = listener.accept()
        except TimeoutError:
            continue
        threading.Thread(target=echo, args=(stream,), daemon=True).start()
    listener.close()


def random_line(choices, folder):
    handle = lambda: choices.randint(0, 12)  # noqa: E731
    name = f"n{choices.randrange(30)}"
    return choices.choice([
        lambda: f"new {choices.choice(['-', 'r', 'rr', 'ri'])}", lambda: f"put {handle()} 0 {handle()}", lambda: f"get {handle()} 0",
        lambda: f"drop {handle()}", lambda: f"drop {handle()}", lambda: f"soft {handle()} {handle()}", lambda: f"weak {handle()} {handle()}",
        lambda: f"phantom {handle()} {handle()}", lambda: f"deref {handle()}", lambda: f"clear {handle()}", lambda: f"enqueue {handle()}",
        lambda: "queue", lambda: f"poll {handle()}", lambda: "cleaner", lambda: f"register {handle()} {handle()} {choices.randrange(999)}",
        lambda: f"clean {handle()}", lambda: f"open w {folder}/f{choices.randrange(40)}", lambda: f"open r {folder}/f{choices.randrange(40)}",
        lambda: f"connect {folder}/peer", lambda: f"write {handle()} 0102", lambda: f"close {handle()}", lambda: f"bind {name} {handle()}",
        lambda: f"find {name}", lambda: f"unbind {name}", lambda: "names", lambda: "stat", lambda: "notes", lambda: "faults",
        lambda: "gc" if choices.random() < 0.2 else "stat", lambda: "nonsense",
    ])()


def at_least(line, reply):
    """How many asks a command made for certain. What a `close` or a `clean` made cannot be told by its reply."""
    word = line.split()[0]
    if word in ("nonsense", "bye"):
        return 0
    return 2 if word in ("open", "connect", "read", "write") and not reply.startswith("!") else 1


def session(path, seed, folder, tally, most):
    """One session: some lines, sent ahead in bursts, and then bye, or it goes in the middle of something."""
    choices = random.Random(seed)
    stream = socket.socket(socket.AF_UNIX)
    stream.connect(path)
    replies = stream.makefile("rb")
    commands = asks = wrong = 0
    for _ in range(choices.randint(1, most)):
        lines = [random_line(choices, folder) for _ in range(choices.choice([1, 1, 1, 20]))]
        stream.sendall("".join(line + "\n" for line in lines).encode())
        for line in lines:
            reply = replies.readline().decode()
            wrong += not reply.endswith("\n")
            commands += 1
            asks += at_least(line, reply)
    ending = choices.random()
    if ending < 0.6:
        stream.sendall(b"bye\n")
        wrong += replies.readline() != b"ok\n" or replies.read() != b""
    elif ending < 0.7:
        stream.sendall(b"ne")
    elif ending < 0.8:
        stream.sendall(b"stat\n" * 50)
    elif ending < 0.85:
        stream.sendall(b"names\n" * 2000)
    replies.close()
    stream.close()
    tally.add(1, commands, asks + 2, wrong)


def memory(process):
    with open(f"/proc/{process.pid}/status") as status:
        return next(int(line.split()[1]) for line in status if line.startswith("VmRSS"))


def descriptors(process):
    return len(os.listdir(f"/proc/{process.pid}/fd"))


def watch(server, tally, ends, seen):
    """A line a second."""
    before = 0
    while not ends.wait(1):
        commands = tally.commands
        seen.append(memory(server.process))
        print(f"{tally.sessions:7} sessions  {commands - before:8} commands  {seen[-1]:8} kB  {descriptors(server.process):4} descriptors", flush=True)
        before = commands


def counts(heap, calm=1):
    """What `stat` tells: objects, open files and sockets, actions taken up, ended well, failed. And how often it was asked until all that was lost is closed, and has been so often in turn."""
    since, before = 0, None
    for asked in range(1, 2001):
        objects, open_now, taken, well, failed = map(int, heap.stat())
        is_closed = open_now == 0 and taken == well + failed
        since = since + 1 if is_closed and taken == before else int(is_closed)
        if since >= calm:
            break
        before = taken
        heap.gc()
        time.sleep(0.001)
    return open_now, taken, well, failed, 2 * asked - 1


def warm_up(path, clients, tally):
    """Each seat in turn notes more than a trace holds, so that what it keeps is as large as it ever gets."""
    heaps = [Client(path) for _ in range(clients)]
    for heap in heaps:
        tally.add(0, 0, 0, heap.ahead(*["same 0 0"] * (2 * TRACE)).count("yes") != 2 * TRACE)
    for heap in heaps:
        heap.close_session()
    tally.add(clients, 2 * TRACE * clients, (2 * TRACE + 2) * clients)


def load(program, clients, seconds, sessions):
    """Clients beside each other, then one after the other. Whether all is as it was at the start."""
    folder = tempfile.mkdtemp()
    ends = threading.Event()
    tally = Tally()
    threading.Thread(target=peer, args=(f"{folder}/peer", ends), daemon=True).start()
    most = seconds * SESSIONS_A_SECOND
    total = clients + most + sessions + 1
    server = Server(program, total, "--sessions", str(clients), "--cells", "4096", "--resources", "128", "--trace", str(TRACE))
    at_start = descriptors(server.process)
    seen = []
    watcher = threading.Thread(target=watch, args=(server, tally, ends, seen))
    watcher.start()
    stop = time.time() + seconds
    warm_up(server.path, clients, tally)

    def work(number):
        turn = 0
        while time.time() < stop and turn < most // clients:
            session(server.path, number * 1_000_003 + turn, folder, tally, 30)
            turn += 1

    workers = [threading.Thread(target=work, args=(number,)) for number in range(clients)]
    for worker in workers:
        worker.start()
    for worker in workers:
        worker.join()
    beside = tally.sessions
    number = 0
    while tally.sessions < total - 1:
        session(server.path, -number, folder, tally, 3)
        number += 1

    last = server.client()
    for name in last.names():
        last.unbind(name)
    open_now, taken, well, failed, _ = counts(last)
    time.sleep(0.1)
    at_end, last_memory = descriptors(server.process), memory(server.process)
    ends.set()
    watcher.join()
    last.close_session()
    status, served, entries = server.end()
    shutil.rmtree(folder)

    early = seen[min(9, len(seen) - 1)]
    print(f"{beside} sessions beside each other and {number} one after the other, {tally.commands} commands; taken up {taken}, well {well}, failed {failed}")
    print(f"memory {early} kB early, {last_memory} kB at the end; descriptors {at_start} at the start, {at_end} at the end; open {open_now}")
    print(f"status {status}, served {served}, entries {entries}, at least {tally.asks} by clients; wrong replies {tally.wrong}")
    return all([
        say("each command of each session was answered", tally.wrong == 0),
        say("all that was lost was closed, and no descriptor is left", open_now == 0 and taken == well + failed and at_end == at_start + OF_A_CLIENT),
        say("the memory is flat", last_memory <= early * 1.1),
        say("the server ended by itself, after all sessions", status == 0 and served == total),
        say("the history has no fewer entries than clients asked for", entries >= tally.asks),
    ])


def say(what, holds):
    print(f"{'ok     ' if holds else 'WRONG  '} {what}", flush=True)
    return holds


class Counted:
    """A session that knows how many entries it makes, and how many the loops make for it."""

    def __init__(self, server, seed, folder):
        self.heap = server.client()
        self.choices = random.Random(seed)
        self.seed = seed
        self.folder = folder
        self.entries = 2
        self.cleaned = 0

    def ask(self, line, entries=1):
        self.entries += entries
        return self.heap.ask(line)

    def refused(self, line, entries=1):
        try:
            self.ask(line, entries)
        except Refused:
            return
        raise AssertionError(line)

    def graph(self):
        top, leaf = self.ask("new rr"), self.ask("new i")
        self.ask(f"put {top} 0 {leaf}")
        self.ask(f"setint {leaf} 0 5")
        self.ask(f"drop {leaf}")
        self.ask(f"drop {self.ask(f'get {top} 0')}")
        self.ask(f"drop {top}")

    def file(self):
        """A file that is closed, or one that is lost, which the cleaner closes."""
        guard = self.ask(f"open w {self.folder}/c{self.seed}", 2)
        for _ in range(self.choices.randrange(4)):
            self.ask(f"write {guard} 0102", 2)
        if self.choices.random() < 0.5:
            self.ask(f"close {guard}", 2)
            self.ask(f"close {guard}")
            self.refused(f"write {guard} 01")
        else:
            self.lose()
        self.ask(f"drop {guard}")

    def no_file(self):
        self.entries += 2
        try:
            self.heap.ask(f"open r {self.folder}/none")
        except Fault:
            return
        raise AssertionError("a file that is not there")

    def lose(self):
        """One thing more that is handed over, taken up and finished by the loops."""
        self.cleaned += 1
        self.entries += 3

    def death(self):
        """A reference that the handler puts on its queue, and a `remove` that waits for it."""
        queue, held = self.ask("queue"), self.ask("new -")
        weak = self.ask(f"weak {held} {queue}")
        self.ask(f"drop {held}")
        self.ask("gc")
        self.entries += 1
        found = self.ask(f"remove {queue}")
        for handle in (queue, weak, found):
            self.ask(f"drop {handle}")

    def action(self):
        cleaner, held = self.ask("cleaner"), self.ask("new -")
        cleanable = self.ask(f"register {cleaner} {held} 7")
        if self.choices.random() < 0.5:
            self.ask(f"clean {cleanable}", 2)
            self.ask(f"clean {cleanable}")
        else:
            self.lose()
        for handle in (held, cleaner, cleanable):
            self.ask(f"drop {handle}")

    def name(self):
        held = self.ask("new -")
        self.ask(f"bind name{self.seed} {held}")
        self.ask(f"drop {self.ask(f'find name{self.seed}')}")
        self.ask(f"unbind name{self.seed}")
        self.refused(f"find name{self.seed}")
        self.ask(f"drop {held}")

    def nonsense(self):
        self.refused("nonsense", 0)
        self.refused("new " + "r" * 600, 0)
        self.refused("get 200 0")

    def play(self, rounds):
        for _ in range(rounds):
            self.choices.choice([self.graph, self.graph, self.file, self.no_file, self.death, self.action, self.name, self.nonsense])()
        self.heap.close_session()


def counted(program, clients, rounds):
    """Whether a history has exactly the entries that clients and loops made."""
    folder = tempfile.mkdtemp()
    server = Server(program, clients + 1, "--sessions", str(clients + 1), "--cells", "65536", "--resources", "256", "--trace", str(TRACE))
    sessions = [Counted(server, seed, folder) for seed in range(clients)]
    threads = [threading.Thread(target=one.play, args=(rounds,)) for one in sessions]
    for thread in threads:
        thread.start()
    for thread in threads:
        thread.join()
    last = server.client()
    # An action that only notes leaves nothing open, so it is waited until nothing more is taken up.
    _, taken, well, _, asked = counts(last, 200)
    last.close_session()
    status, _, entries = server.end()
    shutil.rmtree(folder)
    wanted = sum(one.entries for one in sessions) + 2 + asked
    print(f"entries {entries}, clients and loops made {wanted}; {sum(one.cleaned for one in sessions)} things were lost, {taken} actions taken up")
    cycles = entries - wanted
    exact = 0 <= cycles <= OF_A_CYCLE * (clients + 1)
    return say("the history has the entries that were made, and those of cycles that leaves brought", status == 0 and exact and taken == well)


def closed_once(program):
    """Whether no descriptor is closed twice: `strace` sees no close that fails."""
    with tempfile.TemporaryDirectory() as folder:
        script, log = os.path.join(folder, "traced"), os.path.join(folder, "log")
        with open(script, "w") as file:
            file.write(f'#!/bin/sh\nexec strace -f -qq -e trace=close -o {log} "{program}" "$@"\n')
        os.chmod(script, 0o755)
        server = Server(script, 40, "--sessions", "8")
        tally = Tally()
        threads = [threading.Thread(target=lambda n=n: [session(server.path, n * 100 + k, folder, tally, 30) for k in range(5)]) for n in range(8)]
        for thread in threads:
            thread.start()
        for thread in threads:
            thread.join()
        status, _, _ = server.end()
        with open(log) as file:
            closes = [line for line in file if "close(" in line or "close resumed" in line]
        failed = [line for line in closes if "= -1" in line]
        print(f"{len(closes)} closes, {len(failed)} failed")
        return say("no descriptor is closed twice", status == 0 and len(closes) > 40 and not failed)


def main():
    parser = argparse.ArgumentParser()
    parser.add_argument("program")
    parser.add_argument("--clients", type=int, default=64)
    parser.add_argument("--seconds", type=int, default=20)
    parser.add_argument("--sessions", type=int, default=2000)
    asked = parser.parse_args()
    program = os.path.abspath(asked.program)
    right = load(program, asked.clients, asked.seconds, asked.sessions)
    right = counted(program, min(asked.clients, 63), 40) and right
    if shutil.which("strace"):
        right = closed_once(program) and right
    return 0 if right else 1


if __name__ == "__main__":
    sys.exit(main())
