#!/usr/bin/env python3
"""What a client of the built program may do on the system, and who may connect: `--files`, `--no-files`, `--mode`, and a server's own sockets.

    checks/trust.py PROGRAM

With `--files DIR` each path is one below DIR: one that is absolute, has a part `..`, or leads over a link is denied; with `--no-files` each is,
and nothing is made. A server's own sockets are joined by nobody, under no name. The rights of a socket's file are those that were asked for.
The same for `run`, where there is a server or not.
"""
import os
import re
import socket
import stat
import subprocess
import sys
import tempfile
import time

TIMEOUT = 30
DENIED = "fault denied"


class Wrong(Exception):
    pass


def wants(what, found, wanted):
    if found != wanted:
        raise Wrong(f"{what}: {found!r}, and not {wanted!r}")
    print(f"ok      {what}")


def told(answers):
    """Handles are told apart from faults alone."""
    return ["=" if answer.startswith("= ") else answer for answer in answers]


def session(program, folder, options, lines):
    """The answers of a session of its own."""
    done = subprocess.run([program, "run", *options], input="".join(line + "\n" for line in lines), capture_output=True, text=True,
                          timeout=TIMEOUT, cwd=folder)
    return told(done.stdout.splitlines())


class Server:
    """A server in a folder, ended by its socket of control."""

    def __init__(self, program, folder, *options):
        self.program, self.folder = program, folder
        self.process = subprocess.Popen([program, "serve", "--socket", "heap", "--control", "control", "--total", "100", *options],
                                        stdout=subprocess.DEVNULL, stderr=subprocess.DEVNULL, cwd=folder)
        end = time.monotonic() + TIMEOUT
        while not os.path.exists(os.path.join(folder, "control")):
            if time.monotonic() > end:
                raise Wrong("the server does not start")
            time.sleep(0.01)

    def answers(self, lines):
        with socket.socket(socket.AF_UNIX) as stream:
            stream.settimeout(TIMEOUT)
            stream.connect(os.path.join(self.folder, "heap"))
            stream.sendall("".join(line + "\n" for line in lines).encode())
            with stream.makefile("r") as replies:
                return told([replies.readline().rstrip("\n") for _ in lines])

    def mode(self, name):
        return stat.S_IMODE(os.stat(os.path.join(self.folder, name)).st_mode)

    def stop(self):
        subprocess.run([self.program, "stop", "control"], cwd=self.folder, timeout=TIMEOUT, check=True)
        self.process.wait(TIMEOUT)


def lay_out(folder):
    """A folder with files, a peer that listens, links that lead out of it and back into it, and something beside it."""
    inside, beside = os.path.join(folder, "inside"), os.path.join(folder, "beside")
    os.makedirs(os.path.join(inside, "deeper"))
    os.makedirs(beside)
    for path in (os.path.join(inside, "file"), os.path.join(inside, "deeper", "file"), os.path.join(beside, "file")):
        with open(path, "w", encoding="ascii") as file:
            file.write("something")
    os.symlink(beside, os.path.join(inside, "out"))
    os.symlink("file", os.path.join(inside, "link"))
    listeners = []
    for path in (os.path.join(inside, "peer"), os.path.join(beside, "peer")):
        listener = socket.socket(socket.AF_UNIX)
        listener.bind(path)
        listener.listen(64)
        listeners.append(listener)
    os.symlink(os.path.join(beside, "peer"), os.path.join(inside, "peer_out"))
    return listeners


def rows(folder):
    """Lines, and what each is answered with --files inside."""
    return [
        ("open r file", "="), ("open r deeper/file", "="), ("open r deeper//file", "="), ("open r ./file", "="), ("open w made", "="), ("connect peer", "="),
        ("open r none", "fault notfound"), ("connect none", "fault notfound"),
        (f"open r {folder}/inside/file", DENIED), ("open r /etc/passwd", DENIED), ("open w /tmp/refheap-made", DENIED), (f"connect {folder}/inside/peer", DENIED),
        ("open r ../beside/file", DENIED), ("open r deeper/../file", DENIED), ("open r ..", DENIED), ("connect ../beside/peer", DENIED),
        ("open r out/file", DENIED), ("open w out/made", DENIED), ("open r link", DENIED), ("connect out/peer", DENIED), ("connect peer_out", DENIED),
    ]


def fenced(program):
    with tempfile.TemporaryDirectory(prefix="refheap-trust-") as folder:
        listeners = lay_out(folder)
        lines, wanted = zip(*rows(folder))
        wants("run --files: paths below the folder alone", session(program, folder, ["--files", "inside"], lines), list(wanted))
        wants("what was allowed was made there", os.path.exists(os.path.join(folder, "inside", "made")), True)
        wants("nothing was made beside it", [os.path.exists(path) for path in (os.path.join(folder, "beside", "made"), "/tmp/refheap-made")], [False, False])
        server = Server(program, folder, "--files", "inside", "--resources", "32")
        wants("serve --files: paths below the folder alone", server.answers(lines), list(wanted))
        server.stop()
        closed = ["open r inside/file", "open w made", "connect inside/peer", "open r /etc/passwd"]
        wants("run --no-files: nothing", session(program, folder, ["--no-files"], closed), [DENIED] * 4)
        server = Server(program, folder, "--no-files")
        wants("serve --no-files: nothing", server.answers(closed), [DENIED] * 4)
        server.stop()
        wants("nothing was made", os.path.exists(os.path.join(folder, "made")), False)
        for listener in listeners:
            listener.close()


def own_sockets(program):
    with tempfile.TemporaryDirectory(prefix="refheap-trust-") as folder:
        server = Server(program, folder)
        os.symlink("heap", os.path.join(folder, "link"))
        os.link(os.path.join(folder, "heap"), os.path.join(folder, "other_name"))
        lines = ["connect heap", "connect control", "connect ./heap", f"connect {folder}/heap", "connect link", "connect other_name"]
        wants("a server's own sockets are joined by nobody", server.answers(lines), [DENIED] * 6)
        wants("it goes on", server.answers(["new -", "stat"])[0], "=")
        server.stop()


def rights(program):
    for mode in ("600", "660", "666"):
        with tempfile.TemporaryDirectory(prefix="refheap-trust-") as folder:
            server = Server(program, folder, "--mode", mode)
            wants(f"--mode {mode}", (oct(server.mode("heap")), oct(server.mode("control"))), (oct(int(mode, 8)), oct(0o600)))
            server.stop()
    with tempfile.TemporaryDirectory(prefix="refheap-trust-") as folder:
        server = Server(program, folder, "--control-mode", "660")
        wants("--control-mode 660", oct(server.mode("control")), oct(0o660))
        server.stop()


def rights_come_first(program):
    """By `strace`: a socket's file is made under a name of its own, and has its rights before it has the name that clients know."""
    with tempfile.TemporaryDirectory(prefix="refheap-trust-") as folder:
        log, traced = os.path.join(folder, "log"), os.path.join(folder, "traced")
        with open(traced, "w", encoding="ascii") as file:
            file.write(f'#!/bin/sh\nexec strace -f -qq -e trace=bind,chmod,fchmodat,link,linkat -o {log} "{program}" "$@"\n')
        os.chmod(traced, 0o755)
        server = Server(traced, folder, "--mode", "660")
        server.program = program
        server.stop()
        with open(log, encoding="utf-8", errors="replace") as file:
            calls = file.read()
    for name in ("heap", "control"):
        order = re.findall(rf'^\d+ +f?(bind|chmod|link)(?:at)?\(.*"{name}\.new"', calls, re.MULTILINE)
        wants(f"the file {name} has its rights before its name", order, ["bind", "chmod", "link"])


def main(program):
    program = os.path.abspath(program)
    try:
        fenced(program)
        own_sockets(program)
        rights(program)
        rights_come_first(program)
    except Wrong as wrong:
        print(f"WRONG   {wrong}")
        return 1
    return 0


if __name__ == "__main__":
    if len(sys.argv) < 2:
        sys.exit(__doc__)
    sys.exit(main(sys.argv[1]))
