#!/usr/bin/env python3
"""Random commands with files and sockets: what is opened is closed once, and not while it is used, and memory stays flat.

    checks/leaks.py PROGRAM [--commands N] [--clients N]

Under `strace` the calls of one session of N commands (100,000) and of a server with N clients (64) are looked at one by one: each descriptor that
the system gave is closed exactly once before it is given again, none is closed while another thread reads or writes it, and none is left. Then a
session answers a million commands, and its memory at the end is held against that after the first tenth.
"""
import argparse
import os
import random
import re
import shutil
import subprocess
import sys
import tempfile
import threading

sys.path.insert(0, os.path.join(os.path.dirname(os.path.abspath(__file__)), "..", "examples"))
from refheap import Server  # noqa: E402

CALLS = "open,openat,socket,accept,accept4,dup,fcntl,epoll_create1,eventfd2,close,read,write,recvfrom,sendto,fsync,shutdown,connect"
GIVES = {"open", "openat", "socket", "accept", "accept4", "dup", "copy", "epoll_create1", "eventfd2"}
LINE = re.compile(r"^(\d+) +(?:<\.\.\. )?([a-z0-9_]+)(?:\((\d+)?| resumed>)(.*)$")
RESULT = re.compile(r"= (-?\d+)(?: E[A-Z]+ .*)?$")


class Descriptors:
    """What is open, who uses it, and what went wrong."""

    def __init__(self):
        self.open, self.used, self.faults, self.given = set(), {}, [], 0

    def begin(self, thread, call, number):
        if call == "close":
            users = [other for other, place in self.used.items() if place == number and other != thread]
            if users:
                self.faults.append(f"{number} is closed while it is used")
            if number not in self.open:
                self.faults.append(f"{number} is closed and not open")
            self.open.discard(number)
        elif call not in GIVES:
            self.used[thread] = number

    def end(self, thread, call, result):
        self.used.pop(thread, None)
        if call in GIVES and result >= 0:
            if result in self.open:
                self.faults.append(f"{result} is given twice")
            self.open.add(result)
            self.given += 1
        if call == "close" and result < 0:
            self.faults.append("a close that fails")

    def read(self, log):
        under_way = {}
        with open(log, errors="replace") as file:
            for line in file:
                found = LINE.match(line)
                if not found:
                    continue
                thread, call, number, rest = found.groups()
                if "resumed>" in line:
                    call = under_way.pop(thread)
                else:
                    call = "copy" if "F_DUPFD" in rest else call
                    self.begin(thread, call, int(number) if number else None)
                result = RESULT.search(rest.strip())
                if result:
                    self.end(thread, call, int(result.group(1)))
                else:
                    under_way[thread] = call


def traced(program, folder):
    """A program that runs the other one under `strace`, and the file in which its calls stand."""
    script, log = os.path.join(folder, "traced"), os.path.join(folder, "log")
    with open(script, "w") as file:
        file.write(f'#!/bin/sh\nexec strace -f -qq -s 0 -e trace={CALLS} -e signal=none -o {log} "{program}" "$@"\n')
    os.chmod(script, 0o755)
    return script, log


def commands(seed, count):
    """Random lines; many are refused."""
    choices = random.Random(seed)
    for _ in range(count):
        handle, other = choices.randrange(1, 12), choices.randrange(12)
        if choices.random() < 0.4:
            # Without many drops all handles would soon be taken, and nothing be opened any more.
            yield f"drop {choices.randrange(1, 40)}"
            continue
        yield choices.choice([
            "new rri", f"put {handle} 0 {other}", f"get {handle} 1", f"drop {handle}", f"drop {handle}", f"weak {handle} {other}", f"soft {handle} 0",
            "queue", f"poll {handle}", f"deref {handle}", "gc", "gc soft", f"open w f{other}", f"open w f{other}", f"open r f{other}", f"open r none{other}",
            f"read {handle} 20", f"write {handle} 6162", f"close {handle}", f"clean {handle}", "connect none", "cleaner", f"register {handle} {other} 7", "stat",
        ])


def one_session(program, count):
    with tempfile.TemporaryDirectory() as folder:
        script, log = traced(program, folder)
        text = "".join(line + "\n" for line in commands(1, count)) + "gc\nbye\n"
        ended = subprocess.run([script, "run", "--cells", "256"], input=text.encode(), stdout=subprocess.DEVNULL, cwd=folder)
        seen = Descriptors()
        seen.read(log)
        return ended.returncode, seen


def client(server, seed, count):
    heap = server.client()
    heap.ahead(*commands(seed, count))
    heap.close_session()


def many_clients(program, clients, count):
    with tempfile.TemporaryDirectory() as folder:
        script, log = traced(program, folder)
        os.chdir(folder)
        server = Server(script, clients, "--sessions", str(clients), "--cells", "4096", "--resources", "256")
        threads = [threading.Thread(target=client, args=(server, seed, count)) for seed in range(clients)]
        for thread in threads:
            thread.start()
        for thread in threads:
            thread.join()
        status = server.end()[0]
        os.chdir("/")
        seen = Descriptors()
        seen.read(log)
        return status, seen


def memory_of(process):
    with open(f"/proc/{process.pid}/status") as file:
        return next(int(line.split()[1]) for line in file if line.startswith("VmRSS"))


def flat(program):
    """The memory of a session after a tenth of a million commands, and at the end, in KB."""
    with tempfile.TemporaryDirectory() as folder:
        process = subprocess.Popen([program, "run", "--cells", "1024", "--trace", "1000"], stdin=subprocess.PIPE, stdout=subprocess.PIPE, cwd=folder)
        seen = []
        for turn in range(10):
            text = "".join(line + "\n" for line in commands(turn, 99_999)).encode()
            sender = threading.Thread(target=lambda: (process.stdin.write(text), process.stdin.flush()))
            sender.start()
            for _ in range(99_999):
                process.stdout.readline()
            sender.join()
            seen.append(memory_of(process))
        process.stdin.close()
        process.stdout.read()
        return process.wait(), seen[0], seen[-1]


def main():
    parser = argparse.ArgumentParser()
    parser.add_argument("program")
    parser.add_argument("--commands", type=int, default=100_000)
    parser.add_argument("--clients", type=int, default=64)
    asked = parser.parse_args()
    program = os.path.abspath(asked.program)
    right = True
    if not shutil.which("strace"):
        print("left    descriptors: strace is missing here")
        return 0
    for name, (status, seen) in (
        (f"a session of {asked.commands} commands", one_session(program, asked.commands)),
        (f"a server with {asked.clients} clients", many_clients(program, asked.clients, 500)),
    ):
        well = status == 0 and not seen.faults and not seen.open and seen.given > 100
        print("ok     " if well else "WRONG  ", f"{name}: {seen.given} descriptors, left {sorted(seen.open)}, {seen.faults[:3]}, status {status}")
        right = right and well
    status, first, last = flat(program)
    well = status == 0 and last <= 1.1 * first + 500
    print("ok     " if well else "WRONG  ", f"a million commands: {first} KB after a tenth, {last} KB at the end, status {status}")
    return 0 if right and well else 1


if __name__ == "__main__":
    sys.exit(main())
