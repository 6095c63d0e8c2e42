#!/usr/bin/env python3
"""Runs the program in surroundings that want something: files, memory, rights, a reader. Each with what docs/protocol.md says of it.

    checks/environment.py PROGRAM

As root it drops its rights to those of nobody where rights matter, and mounts a small file system for a full disk; without root those cases are left out.
What does not end within two minutes is wrong.
"""
import os
import resource
import shutil
import signal
import socket
import subprocess
import sys
import tempfile
import time

import lines

NOBODY = 65_534
NO_MEMORY = (5, b"refheap: no memory\n")


# The second lines of faults, with reasons.
DENIED = b"refheap: permission is denied: check the rights of the file and of its folder\n"
NO_ROOM = b"refheap: no room is left: make room, or name another place\n"
IN_USE = b"refheap: it is in use: remove it if no server runs there, or name another path\n"
TOO_LONG = b"refheap: the name is empty or too long: a name has at most 255 bytes, a socket's path 107, and 103 with a mode\n"
FOLDER = b"refheap: it is a folder: name a file\n"
MISSING = b"refheap: there is no such file or folder: check the path\n"


class Checks(lines.Checks):
    def __init__(self, program):
        super().__init__(program)
        self.folder = tempfile.mkdtemp()
        os.chmod(self.folder, 0o777)

    def run(self, words, text="", before=None):
        try:
            ended = subprocess.run([self.program, *words], input=text.encode(), capture_output=True, cwd=self.folder, preexec_fn=before, timeout=120)
        except subprocess.TimeoutExpired as late:
            return "it does not end", late.stdout or b"", late.stderr or b""
        return ended.returncode, ended.stdout, ended.stderr

    def session(self, name, lines, before=None):
        """A session of these lines, each with its reply."""
        status, replies, said = self.run(["run", "--cells", "64", "--resources", "64"], "".join(line + "\n" for line, _ in lines), before)
        self.said(name, (status, said, replies.decode().splitlines()), (0, b"", [reply for _, reply in lines]))

    def path(self, name):
        return os.path.join(self.folder, name)


def as_nobody():
    os.setgid(NOBODY)
    os.setuid(NOBODY)


def is_same(before, after):
    return (before.st_dev, before.st_ino, before.st_mode, before.st_uid) == (after.st_dev, after.st_ino, after.st_mode, after.st_uid)


def limited(kind, most):
    return lambda: resource.setrlimit(kind, (most, most))


def files(checks):
    with open(checks.path("there"), "w") as file:
        file.write("hi")
    os.mkdir(checks.path("inner"))
    os.symlink("nowhere", checks.path("link"))
    os.symlink("round", checks.path("round"))
    checks.session("a directory is read and written", [
        ("open r inner", "= 1"), ("read 1 5", "fault other"), ("close 1", "ok"), ("drop 1", "ok"), ("open w inner", "fault other")])
    checks.session("what is not there, a folder that is not, and a file as a folder", [
        ("open r none", "fault notfound"), ("open w none/file", "fault notfound"), ("open r there/file", "fault other")])
    checks.session("a link to nowhere is read, and written, which makes what it leads to", [
        ("open r link", "fault notfound"), ("open w link", "= 1"), ("write 1 61", "wrote 1"), ("close 1", "ok"), ("open r nowhere", "= 2"),
        ("read 2 9", "data 61")])
    checks.session("a link to itself", [("open r round", "fault other")])
    checks.session("device files", [
        ("open w /dev/null", "= 1"), ("write 1 6162", "wrote 2"), ("close 1", "fault other"), ("close 1", "ok"), ("open r /dev/zero", "= 2"),
        ("read 2 3", "data 000000"), ("open w /dev/full", "= 3"), ("write 3 61", "fault other"), ("faults", "list 1:other")])
    checks.session("a socket that nobody listens on, and a file as a socket", [
        ("connect none", "fault notfound"), ("connect there", "fault other")])


def pipes(checks):
    os.mkfifo(checks.path("fifo"))
    checks.session("a FIFO whose other end nobody has, one end after the other", [
        ("open r fifo", "= 1"), ("read 1 3", "end"), ("open w fifo", "= 2"), ("write 2 61", "wrote 1"), ("read 1 3", "data 61"), ("close 1", "fault other"),
        ("write 2 61", "fault other")])
    os.symlink("fifo", checks.path("to_fifo"))
    checks.session("a link to a FIFO whose other end nobody has", [("open r to_fifo", "= 1"), ("read 1 3", "end")])
    writer = subprocess.Popen(["sh", "-c", f"printf abc > {checks.path('fifo')}"])
    time.sleep(0.3)  # by then it waits for a reader: an open that finds no writer does not wait for one
    checks.session("a FIFO whose writer goes", [
        ("open r fifo", "= 1"), ("read 1 3", "data 616263"), ("read 1 3", "end"), ("close 1", "fault other")])
    writer.wait()
    listener = socket.socket(socket.AF_UNIX)
    listener.bind(checks.path("peer"))
    listener.listen(1)
    process = subprocess.Popen([checks.program, "run", "--cells", "64"], stdin=subprocess.PIPE, stdout=subprocess.PIPE, cwd=checks.folder, bufsize=0)

    def ask(line):
        process.stdin.write(line.encode() + b"\n")
        return process.stdout.readline().decode().strip()

    replies = [ask("connect peer")]
    peer, _ = listener.accept()
    process.stdin.write(b"read 1 5\n")
    time.sleep(0.3)  # by then it waits in the read
    peer.sendall(b"abc")
    checks.said("a socket whose peer says something after a while", (replies, process.stdout.readline()), (["= 1"], b"data 616263\n"))
    peer.close()
    replies += [ask("read 1 5"), ask("write 1 6162"), ask("close 1"), ask("bye")]
    checks.said("a socket whose peer goes", (replies, process.wait()), (["= 1", "end", "fault other", "ok", "ok"], 0))


def limits(checks):
    lines = [(f"open w file{k}", f"= {k + 1}") for k in range(5)]
    lines += [("open w more", "fault other"), ("close 1", "ok"), ("open w more", "= 6"), ("open w again", "fault other"), ("stat", "stat 16 5 1 1 0")]
    checks.session("at most 8 open files", lines, limited(resource.RLIMIT_NOFILE, 8))
    checks.said("a heap of 65,536 cells where 9 MB of address space are all",
                checks.run(["run", "--cells", "65536"], "bye\n", limited(resource.RLIMIT_AS, 9_000_000))[::2], NO_MEMORY)
    checks.session("no processor time to lose: a session under a low priority", [("new -", "= 1"), ("gc", "ok")], lambda: os.nice(19))


def rights(checks):
    with open(checks.path("closed"), "w") as file:
        file.write("hi")
    os.chmod(checks.path("closed"), 0)
    os.mkdir(checks.path("locked"), 0)
    checks.session("a file and a folder without rights", [
        ("open r closed", "fault denied"), ("open w closed", "fault denied"), ("open w locked/file", "fault denied"), ("connect locked/peer", "fault denied")],
        as_nobody)
    os.mkfifo(checks.path("half"))
    os.chmod(checks.path("half"), 0o444)
    checks.session("a FIFO that may only be read", [("open r half", "fault denied")], as_nobody)
    wanted = (1, b"", f"refheap: cannot listen on {checks.path('locked')}/s\n".encode() + DENIED)
    checks.said("a server in a folder without rights", checks.run(["serve", "--socket", checks.path("locked") + "/s", "--total", "1"], "", as_nobody), wanted)
    wanted = (1, b"", b"refheap: cannot read closed\n" + DENIED)
    checks.said("the audit of a file without rights", checks.run(["audit", "closed"], "", as_nobody), wanted)


def strangers(checks):
    """A server of nobody's at the path of one of root's, in a folder that all may write to, which is none that nobody may join."""
    path = checks.path("roots")
    server = subprocess.Popen([checks.program, "serve", "--socket", path, "--total", "1", "--mode", "600"], stdout=subprocess.PIPE, stderr=subprocess.PIPE)
    try:
        for _ in range(1000):
            if os.path.exists(path):
                break
            time.sleep(0.01)
        before = os.lstat(path)
        for words in [], ["--mode", "600"]:
            status, out, said = checks.run(["serve", "--socket", path, "--total", "1", *words], "", as_nobody)
            begins = said.startswith(f"refheap: cannot listen on {path}\nrefheap: ".encode())
            checks.said(" ".join(["a server of nobody's", *words, "where root's listens"]), (status, out, begins), (1, b"", True))
            checks.said("root's socket is left", is_same(before, os.lstat(path)), True)
        replies, said = served(path), server.communicate(timeout=120)
        checks.said("and root's server goes on", (replies, server.returncode, said), (b"ok\n", 0, (b"served 1\nentries 2\n", b"")))
    finally:
        server.kill()


def full_disk(checks):
    os.mkdir(checks.path("small"))
    if subprocess.run(["mount", "-t", "tmpfs", "-o", "size=16k", "none", checks.path("small")], stderr=subprocess.DEVNULL).returncode:
        print("left    a full disk: no file system can be mounted here")
        return
    try:
        block = "61" * 200
        writes = [f"write 1 {block}"] * 100
        status, replies, said = checks.run(["run"], "open w small/file\n" + "\n".join(writes) + "\nclose 1\nstat\n")
        replies = replies.decode().splitlines()
        took = sum(int(reply.split()[1]) for reply in replies if reply.startswith("wrote"))
        size = os.path.getsize(checks.path("small/file"))
        checks.said("a full disk: what was told as written is there, and the rest is a fault",
                    (status, said, took == size, replies[1], "fault other" in replies), (0, b"", True, "wrote 200", True))
        saved = checks.run(["run", "--save", "small/history"], "new -\n" * 400)
        checks.said("a history that finds no place", (saved[0], saved[2], os.listdir(checks.path("small"))),
                    (1, b"refheap: cannot save small/history\n" + NO_ROOM, ["file"]))
    finally:
        subprocess.run(["umount", checks.path("small")], check=True)


def servers(checks):
    with socket.socket(socket.AF_UNIX) as stream:
        stream.bind(checks.path("dead"))
    for name, make in (
        ("a file", lambda path: open(path, "w").close()), ("a directory", os.mkdir), ("a link to nowhere", lambda path: os.symlink("none", path)),
        ("a link to a dead socket", lambda path: os.symlink("dead", path)),
    ):
        path = checks.path("socket")
        for words in [], ["--mode", "600"]:
            make(path)
            before = os.lstat(path)
            got = checks.run(["serve", "--socket", path, "--total", "1", *words])
            left = os.path.lexists(path) and is_same(before, os.lstat(path))
            checks.said(" ".join(["a server", *words, "at a path that is", name]) + ", which is left", (got, left),
                        ((1, b"", f"refheap: cannot listen on {path}\n".encode() + IN_USE), True))
            os.rmdir(path) if os.path.isdir(path) else os.unlink(path)
    checks.said("the dead socket to which a link led is left", os.path.exists(checks.path("dead")), True)
    far = checks.path("n" * 120)
    checks.said("a server at a path that is too long", checks.run(["serve", "--socket", far, "--total", "1"])[::2],
                (1, f"refheap: cannot listen on {far}\n".encode() + TOO_LONG))


def few_files(checks):
    """A server says at its start how many files may have to be open at once, where fewer may be: ten of its own, three for each client, and the resources."""
    for most, words, needed in (
        (20, [], 38), (37, [], 38), (38, [], None), (1024, [], None),
        (20, ["--sessions", "2", "--resources", "8"], 24), (24, ["--sessions", "2", "--resources", "8"], None),
    ):
        path = checks.path("heap")
        server = subprocess.Popen([checks.program, "serve", "--socket", path, "--total", "1", *words], stdout=subprocess.PIPE, stderr=subprocess.PIPE,
                                  preexec_fn=limited(resource.RLIMIT_NOFILE, most))
        try:
            replies, said = served(path), server.communicate(timeout=120)[1]
        finally:
            server.kill()
        due = f"refheap: {needed} files may have to be open at once, and {most} may be: see ulimit -n\n".encode() if needed else b""
        name = " ".join(["a server that may have", str(most), "files open", *words]) + ", which " + ("says so" if needed else "says nothing of it")
        checks.said(name, (replies, server.returncode, said), (b"ok\n", 0, due))


def served(path):
    """What a client is told that says bye, once somebody listens there."""
    for _ in range(1000):
        with socket.socket(socket.AF_UNIX) as stream:
            stream.settimeout(60)
            try:
                stream.connect(path)
            except (FileNotFoundError, ConnectionRefusedError):
                time.sleep(0.01)
                continue
            stream.sendall(b"bye\n")
            return stream.makefile("rb").read()
    return b""


def front(entries):
    """The front of a history of so many entries, in version 2, from an empty heap of 16 cells."""
    return bytes.fromhex("4a4c5254 02 00000010 01 0010 0000000000000000 00000000 00" + "00000000" * 7 + "0000000000000001" + "00" * 24) + entries.to_bytes(8, "big")


# One entry that tells 67,108,864 notes.
LARGE_ENTRY = front(1) + bytes.fromhex("00 2200 08 04000000")
# An entry that is legal there, of 208 bytes: the end of a read by a mutator that has not joined, refused 13.
REFUSED_ENTRY = bytes.fromhex("00 1900 00 c8" + "00" * 200 + "100d 00")
LONG = 500_000


def audits(checks):
    checks.said("the audit of a directory", checks.run(["audit", "inner"]), (1, b"", b"refheap: cannot read inner\n" + FOLDER))
    checks.said("the audit of what is not there", checks.run(["audit", "none"]), (1, b"", b"refheap: cannot read none\n" + MISSING))
    checks.said("the audit of an empty device", checks.run(["audit", "/dev/null"]), (4, b"", b"refheap: trace truncated\n"))
    checks.run(["run", "--cells", "16", "--save", "history"], "new -\n")
    writer = subprocess.Popen(["sh", "-c", f"cat {checks.path('history')} > {checks.path('fifo')}"])
    checks.said("the audit of a FIFO", checks.run(["audit", "fifo"]), (0, b"legal 3 version 2\n", b""))
    writer.wait()
    history = open(checks.path("history"), "rb").read()
    for name, beginning, due in (
        ("the audit of a large file in little memory", history[:8], (4, b"", b"refheap: bad entry 0\n")),
        ("the audit of an entry that memory does not hold", LARGE_ENTRY, (5, b"", NO_MEMORY[1])),
    ):
        with open(checks.path("large"), "wb") as file:
            file.write(beginning)
            file.truncate(300_000_000)
        checks.said(name, checks.run(["audit", "large"], "", limited(resource.RLIMIT_AS, 60_000_000)), due)
    with open(checks.path("large"), "wb") as file:
        file.write(front(LONG))
        for _ in range(LONG // 1000):
            file.write(REFUSED_ENTRY * 1000)
    checks.said(f"the audit of {LONG} entries, 104 MB, in little memory", checks.run(["audit", "large"], "", limited(resource.RLIMIT_AS, 60_000_000)),
                (0, f"legal {LONG} version 2\n".encode(), b""))
    os.remove(checks.path("large"))


def signals(checks):
    for number in (signal.SIGTERM, signal.SIGINT, signal.SIGHUP):
        process = subprocess.Popen([checks.program, "run", "--cells", "16"], stdin=subprocess.PIPE, stdout=subprocess.PIPE, stderr=subprocess.PIPE, bufsize=0)
        process.stdin.write(b"new -\n")
        first = process.stdout.readline()
        process.send_signal(number)
        checks.said(f"{number.name} ends a session as the system does", (first, process.stdout.read(), process.wait()), (b"= 1\n", b"", -number))
    process = subprocess.Popen([checks.program, "run", "--cells", "16"], stdin=subprocess.PIPE, stdout=subprocess.PIPE, stderr=subprocess.PIPE, bufsize=0)
    process.stdin.write(b"new -\n")
    process.stdout.readline()
    process.stdout.close()
    process.stdin.write(b"new -\n" * 10)
    checks.said("a reader that goes", (process.wait(), process.stderr.read()), (1, b"refheap: write failed\n"))


def main():
    checks = Checks(os.path.abspath(sys.argv[1]))
    try:
        for part in (files, pipes, limits, servers, few_files, audits, signals):
            part(checks)
        if os.geteuid() == 0:
            rights(checks)
            strangers(checks)
            full_disk(checks)
        else:
            print("left    rights, a server of another user's, and a full disk: they want root")
    finally:
        shutil.rmtree(checks.folder, ignore_errors=True)
    return 1 if checks.failed else 0


if __name__ == "__main__":
    sys.exit(main())
