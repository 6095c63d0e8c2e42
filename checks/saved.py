#!/usr/bin/env python3
"""Saves the histories of random sessions of the built program, audits each, changes one byte or one entry at random, and audits it again.

    checks/saved.py [PROGRAM] [SESSIONS] [SEED]

SESSIONS is 1,000 where nothing is said. A saved history is `legal N version 2`, N its entries. A changed one is legal, illegal or damaged, with status 0, 3 or 4, and no
crash; how often which is printed. Before, saves that have to fail, those over what stands there and at places of every kind, those of sessions that cannot read or
write, and those of servers. As root, and where the kernel protects links, it saves as nobody through a link of another user's.
"""
import collections
import os
import random
import resource
import shutil
import signal
import socket
import stat
import struct
import subprocess
import sys
import tempfile
import threading
import time

import refused

HERE = os.path.dirname(os.path.abspath(__file__))
NAMES = ["a", "b", "root", "log_1", "x" * 32]
PATHS = ["one", "two", "none/three"]


class Wrong(Exception):
    pass


# ---- Sessions

def command(rng):
    """A command, mostly one that can be carried out, over few handles."""
    handle = lambda: rng.randrange(0, 12) if rng.random() < 0.97 else rng.randrange(0, 256)
    field = lambda: rng.randrange(0, 3)
    name = lambda: rng.choice(NAMES)
    kinds = [
        (16, lambda: "new " + rng.choice(["-", "r", "rr", "ri", "i", "rrrrrrrr"])),
        (8, lambda: f"put {handle()} {field()} {handle()}"),
        (4, lambda: f"get {handle()} {field()}"),
        (3, lambda: f"setint {handle()} {field()} {rng.randrange(-2**63, 2**63)}"),
        (2, lambda: f"int {handle()} {field()}"),
        (3, lambda: f"dup {handle()}"),
        (12, lambda: f"drop {handle()}"),
        (1, lambda: f"same {handle()} {handle()}"),
        (8, lambda: f"{rng.choice(['soft', 'weak', 'phantom'])} {handle()} {handle() if rng.random() < 0.6 else 0}"),
        (4, lambda: f"deref {handle()}"),
        (1, lambda: f"refers {handle()} {handle()}"),
        (1, lambda: f"clear {handle()}"),
        (2, lambda: f"enqueue {handle()}"),
        (1, lambda: f"enqueued {handle()}"),
        (4, lambda: "queue"),
        (4, lambda: f"poll {handle()}"),
        (1, lambda: f"remove {handle()}"),
        (3, lambda: "cleaner"),
        (6, lambda: f"register {handle()} {handle()} {rng.randrange(0, 2**32)}"),
        (2, lambda: f"clean {handle()}"),
        (4, lambda: f"open {rng.choice('rw')} {rng.choice(PATHS)}"),
        (3, lambda: f"read {handle()} {rng.randrange(1, 201)}"),
        (3, lambda: f"write {handle()} {rng.randbytes(rng.randrange(1, 201)).hex()}"),
        (2, lambda: f"close {handle()}"),
        (3, lambda: f"bind {name()} {handle()}"),
        (2, lambda: f"find {name()}"),
        (1, lambda: f"unbind {name()}"),
        (1, lambda: "names"),
        (4, lambda: "gc"),
        (2, lambda: "gc soft"),
        (1, lambda: "stat"),
        (1, lambda: "notes"),
        (1, lambda: "faults"),
        (1, lambda: "no command"),
    ]
    return rng.choices([make for _, make in kinds], [weight for weight, _ in kinds])[0]()


def options(rng):
    words = ["--cells", str(rng.choice([16, 16, 20, 64]))]
    if rng.random() < 0.3:
        words += ["--trace", "64"]
    if rng.random() < 0.3:
        words += ["--resources", "1"]
    if rng.random() < 0.3:
        words += ["--soft-age", "0"]
    return words


def run(program, words, text, folder):
    done = subprocess.run([program, *words], input=text.encode(), capture_output=True, cwd=folder, timeout=60)
    if done.returncode < 0 or done.returncode > 5:
        raise Wrong(f"{words}: status {done.returncode}")
    return done.returncode, done.stdout.decode(), done.stderr.decode()


def audit(program, path, folder):
    return run(program, ["audit", path], "", folder)


# ---- Changes of a file

def entries_at(data):
    """Where the count of entries stands, by the format: the file is read up to there."""
    at = 5

    def take(form):
        nonlocal at
        values = struct.unpack_from(">" + form, data, at)
        at += struct.calcsize(">" + form)
        return values[0] if len(values) == 1 else values

    def work():
        take("BI")

    _, sessions, _, _ = take("IBHQ")
    for _ in range(take("I")):
        _, kind = take("IB")
        if kind == 1:
            for _ in range(take("B")):
                take("q" if take("B") == 0 else "I")
        elif kind == 2:
            take("BIIB")
        elif kind == 3:
            for _ in range(take("I")):
                take("I")
        elif kind == 5:
            take("IQ")
            work()
            take("B")
        elif kind == 6:
            take("II")
    for _ in range(sessions):
        if take("B"):
            for _ in range(take("I")):
                take("BI")
            take("I")
            call = take("B")
            if call:
                take("Q" if call == 3 else "I")
    for _ in range(take("I")):
        size = take("B")
        at += size
        take("I")
    for _ in range(2):
        for _ in range(take("I")):
            take("I")
    for _ in range(take("I")):
        take("Q")
        work()
        take("B")
    for _ in range(take("I")):
        take("IQB")
    for _ in range(take("I")):
        take("QB")
    for _ in range(take("I")):
        take("I")
    take("QQQQ")
    return at


def changed(rng, data):
    """The file with one byte changed, or with a run of bytes among its entries left out or doubled."""
    data = bytearray(data)
    first = entries_at(data)
    kind = rng.random()
    if kind < 0.4:
        at = rng.randrange(len(data))
        data[at] ^= 1 << rng.randrange(8)
    elif kind < 0.8:
        at = rng.randrange(first, len(data))
        data[at] = rng.randrange(256)
    else:
        at = rng.randrange(first + 8, len(data))
        size = rng.randrange(1, 12)
        part = data[at:at + size]
        count = struct.unpack_from(">Q", data, first)[0]
        if kind < 0.9:
            del data[at:at + size]
            struct.pack_into(">Q", data, first, max(count - 1, 0))
        else:
            data[at:at] = part
            struct.pack_into(">Q", data, first, count + 1)
    return bytes(data)


# ---- The checks

def try_sessions(program, count, seed):
    told = collections.Counter()
    with tempfile.TemporaryDirectory() as folder:
        for number in range(count):
            rng = random.Random(f"{seed} {number}")
            lines = [command(rng) for _ in range(rng.choice([0, 5, 40, 200]))]
            status, _, said = run(program, ["run", *options(rng), "--save", "saved"], "".join(line + "\n" for line in lines), folder)
            if status != 0:
                raise Wrong(f"session {number}: status {status}, {said}")
            with open(os.path.join(folder, "saved"), "rb") as file:
                data = file.read()
            entries = struct.unpack_from(">Q", data, entries_at(data))[0]
            verdict = audit(program, "saved", folder)
            if verdict != (0, f"legal {entries} version 2\n", ""):
                raise Wrong(f"session {number}: {verdict}, due is legal {entries}")
            told["saved and legal"] += 1
            with open(os.path.join(folder, "changed"), "wb") as file:
                file.write(changed(rng, data))
            status, out, said = audit(program, "changed", folder)
            if status not in (0, 3, 4):
                raise Wrong(f"session {number}, changed: status {status}, {out} {said}")
            told[{0: "changed and legal", 3: "changed and illegal", 4: "changed and damaged"}[status]] += 1
    for kind, times in sorted(told.items()):
        print(f"ok      {kind}: {times}")


def try_fronts(program, seed):
    """Each proper prefix of ten histories, with and without a cut before them, is truncated."""
    fronts = 0
    with tempfile.TemporaryDirectory() as folder:
        for number in range(10):
            rng = random.Random(f"{seed} front {number}")
            lines = "".join(command(rng) + "\n" for _ in range(4 + 10 * number))
            words = ["--trace", "64"] if number > 6 else []
            run(program, ["run", "--cells", "16", *words, "--save", "saved"], lines, folder)
            with open(os.path.join(folder, "saved"), "rb") as file:
                data = file.read()
            for length in range(len(data)):
                with open(os.path.join(folder, "front"), "wb") as file:
                    file.write(data[:length])
                if audit(program, "front", folder) != (4, "", "refheap: trace truncated\n"):
                    raise Wrong(f"history {number}, the front of {length} bytes: {audit(program, 'front', folder)}")
            fronts += len(data)
    print(f"ok      {fronts} fronts of ten histories are truncated")


def try_worked(program):
    """The histories of the worked sessions are legal, and saving them changes no reply."""
    for session in refused.SESSIONS:
        with tempfile.TemporaryDirectory() as folder:
            text = session.text(session.commands).decode()
            status, out, said = run(program, ["run", *session.options, "--save", "saved"], text, folder)
            if (status, out) != (session.status, "".join(line + "\n" for line in session.answers)):
                raise Wrong(f"worked session {session.name}: {status}, {out} {said}")
            status, out, said = audit(program, "saved", folder)
            if status != 0 or not out.startswith("legal "):
                raise Wrong(f"worked session {session.name}: {out} {said}")
    print(f"ok      {len(refused.SESSIONS)} worked sessions are legal")


def wants(name, got, wanted):
    if got != wanted:
        raise Wrong(f"{name}: {got}, due is {wanted}")
    print(f"ok      {name}")


def is_saved(program, folder, name):
    return audit(program, name, folder)[:2] == (0, "legal 3 version 2\n")


# The second lines, with reasons.
MISSING = "refheap: there is no such file or folder: check the path\n"
FOLDER = "refheap: it is a folder: name a file\n"
NO_ROOM = "refheap: no room is left: make room, or name another place\n"
NO_NAME = "refheap: all names from .refheap-new0 to .refheap-new99 beside it are taken: remove them\n"
DENIED = "refheap: permission is denied: check the rights of the file and of its folder\n"


def try_places(program):
    """Saves that have to fail, and saves over what stands there. Each session has one command."""
    save = lambda folder, path: run(program, ["run", "--cells", "16", "--save", path], "new -\n", folder)
    with tempfile.TemporaryDirectory() as folder:
        there = lambda name: os.path.join(folder, name)
        os.mkdir(there("directory"))
        for path, why in [("directory", FOLDER), ("none/saved", MISSING), ("/proc/saved", MISSING), ("", MISSING)]:
            wants(f"no save to '{path}', which is told at the start", save(folder, path), (1, "", f"refheap: cannot save {path}\n{why}"))
        wants("no save to a full device", save(folder, "/dev/full"), (1, "= 1\n", f"refheap: cannot save /dev/full\n{NO_ROOM}"))
        os.symlink("nowhere", there("dangling"))
        wants("no save to a link that leads nowhere", save(folder, "dangling"), (1, "", f"refheap: cannot save dangling\n{MISSING}"))
        wants("a save to nowhere", save(folder, "/dev/null"), (0, "= 1\n", ""))
        wants("nowhere stays what it is", stat.S_ISCHR(os.stat("/dev/null").st_mode), True)

        wants("a first save", save(folder, "saved"), (0, "= 1\n", ""))
        wants("it is legal", is_saved(program, folder, "saved"), True)
        os.chmod(there("saved"), 0o640)
        with open(there("saved"), "ab") as file:
            file.write(b"more")
        wants("a save over a file", save(folder, "saved"), (0, "= 1\n", ""))
        wants("it is legal too", is_saved(program, folder, "saved"), True)
        wants("it keeps its permissions", stat.S_IMODE(os.stat(there("saved")).st_mode), 0o640)
        os.symlink("saved", there("link"))
        os.truncate(there("saved"), 0)
        wants("a save through a link", save(folder, "link"), (0, "= 1\n", ""))
        wants("its file is new", is_saved(program, folder, "saved"), True)
        wants("the link stays", os.path.islink(there("link")), True)
        with open(there("other"), "wb") as file:
            file.write(b"kept")
        for number in range(100):
            os.link(there("other"), there(f".refheap-new{number}"))
        wants("no save where all names for a new file are taken", save(folder, "busy"), (1, "", f"refheap: cannot save busy\n{NO_NAME}"))
        wants("what has those names stays", open(there("other"), "rb").read(), b"kept")
        for number in range(100):
            os.remove(there(f".refheap-new{number}"))
        wants("no new file is left", sorted(os.listdir(folder)), ["dangling", "directory", "link", "other", "saved"])
        wants("a session that fails is saved too", run(program, ["run", "--cells", "16", "--save", "failed"], "new -", folder)[::2], (4, "refheap: unfinished line\n"))
        wants("and is legal", audit(program, "failed", folder)[:2], (0, "legal 2 version 2\n"))
        if os.geteuid() != 0:
            os.chmod(folder, 0o500)
            wants("no save in a folder that is only read", save(folder, "saved"), (1, "", f"refheap: cannot save saved\n{DENIED}"))
            os.chmod(folder, 0o700)


def saves(program, folder, path, before=None, **how):
    """A session of one command that is saved: its status, and what it wrote."""
    given = {} if "stdin" in how else {"input": b"new -\n"}
    how = {"stdout": subprocess.PIPE, "stderr": subprocess.PIPE, "timeout": 60, **given, **how}
    words = [program, "run", "--cells", "16", "--save", path]
    done = subprocess.run(words, cwd=folder, preexec_fn=before, **how)
    return done.returncode, done.stdout, done.stderr


def cannot_save(name, got, path, reply=b"= 1\n"):
    """A save that cannot be is told in the first line of the standard error, and why in the second."""
    status, out, said = got
    begins = said.startswith(f"refheap: cannot save {path}\nrefheap: ".encode())
    wants(name, (status, out, begins, said.count(b"\n")), (1, reply, True, 2))


def is_history(program, folder, data):
    with open(os.path.join(folder, "tail"), "wb") as file:
        file.write(data)
    return is_saved(program, folder, "tail")


def contents(path):
    with open(path, "rb") as file:
        return file.read()


def put_old(path):
    with open(path, "wb") as file:
        file.write(b"old")


def try_faults(program):
    """A session that cannot write its replies, or cannot read its lines, is saved too: anew, and over what stood there."""
    with tempfile.TemporaryDirectory() as folder:
        for which in "a first", "a second":
            with open("/dev/full", "wb") as full:
                told = saves(program, folder, "unwritten", stdout=full)
            wants(f"{which} session whose output is full", told, (1, None, b"refheap: write failed\n"))
            wants("is saved, and legal", audit(program, "unwritten", folder), (0, "legal 3 version 2\n", ""))
            inner = os.open(folder, os.O_RDONLY)
            told = saves(program, folder, "unread", stdin=inner)
            os.close(inner)
            wants(f"{which} session whose input is a directory", told, (1, b"", b"refheap: read failed\n"))
            wants("is saved, and legal too", audit(program, "unread", folder), (0, "legal 2 version 2\n", ""))
            wants("no other file is left", sorted(os.listdir(folder)), ["unread", "unwritten"])
            for path in "unwritten", "unread":
                put_old(os.path.join(folder, path))


class Watch(threading.Thread):
    """Looks again and again at those files of a folder whose names are not known: with which rights they are seen."""

    def __init__(self, folder, known):
        super().__init__()
        self.folder, self.known, self.seen, self.ended = folder, known, set(), False

    def run(self):
        while not self.ended:
            for name in os.listdir(self.folder):
                if name not in self.known:
                    try:
                        self.seen.add(stat.S_IMODE(os.lstat(os.path.join(self.folder, name)).st_mode))
                    except FileNotFoundError:
                        pass

    def __enter__(self):
        self.start()
        return self

    def __exit__(self, *_):
        self.ended = True
        self.join()


def short_files():
    """At most 64 bytes go into a file, and a write of more is a fault."""
    signal.signal(signal.SIGXFSZ, signal.SIG_IGN)
    resource.setrlimit(resource.RLIMIT_FSIZE, (64, 64))


def try_rights(program):
    """A new file has its rights before its first byte, and a save that fails leaves what stood there, and no file."""
    with tempfile.TemporaryDirectory() as folder:
        there = lambda name: os.path.join(folder, name)
        mode = lambda name: stat.S_IMODE(os.stat(there(name)).st_mode)
        wants("a save where the umask is 027", saves(program, folder, "new", umask=0o027), (0, b"= 1\n", b""))
        wants("has the rights that it leaves", mode("new"), 0o640)
        for rights in 0o600, 0o400, 0o666:
            with open(there("kept"), "wb") as file:
                file.write(b"kept")
            os.chmod(there("kept"), rights)
            with Watch(folder, ["new", "kept"]) as watch:
                ended = {saves(program, folder, "kept", umask=0) for _ in range(20)}
            wants(f"20 saves over a file of mode {rights:o}", ended, {(0, b"= 1\n", b"")})
            wants("it is legal", is_saved(program, folder, "kept"), True)
            wants("it has that mode", mode("kept"), rights)
            wants("no new file was open to more", [seen for seen in watch.seen if seen & ~(rights | 0o600)], [])
            os.remove(there("kept"))
        with open(there("kept"), "wb") as file:
            file.write(b"kept")
        cannot_save("a save that fails halfway", saves(program, folder, "kept", short_files), "kept")
        wants("leaves what stood there", contents(there("kept")), b"kept")
        cannot_save("a first save that fails halfway", saves(program, folder, "none", short_files), "none")
        wants("and no file", sorted(os.listdir(folder)), ["kept", "new"])


def try_names(program):
    """The longest names, folders whose names are no UTF-8, and chains of links."""
    with tempfile.TemporaryDirectory() as folder:
        long = "n" * 255
        for which in "a first", "a second":
            wants(f"{which} save to a name of 255 bytes", saves(program, folder, long), (0, b"= 1\n", b""))
            wants("is legal", is_saved(program, folder, long), True)
        cannot_save("no save to a name of 256 bytes", saves(program, folder, "n" * 256), "n" * 256, b"")
        wants("no other file is left", os.listdir(folder), [long])
    with tempfile.TemporaryDirectory() as folder:
        inner = os.path.join(os.fsencode(folder), b"\xff\xfe")
        os.makedirs(os.path.join(inner, b"below"))
        os.symlink("below/file", os.path.join(inner, b"link"))
        for path in "saved", "below/saved", "./saved", "below/../saved":
            for which in "a first", "a second":
                wants(f"{which} save to {path} in a folder of no UTF-8", saves(program, inner, path), (0, b"= 1\n", b""))
        with open(os.path.join(inner, b"below/file"), "wb") as file:
            file.write(b"old")
        wants("a save there through a link", saves(program, inner, "link"), (0, b"= 1\n", b""))
        for path in b"saved", b"below/saved", b"link":
            wants(f"{path} is legal", is_history(program, folder, contents(os.path.join(inner, path))), True)
        wants("no other file is left", sorted(os.listdir(inner)), [b"below", b"link", b"saved"])
        wants("nor below", sorted(os.listdir(os.path.join(inner, b"below"))), [b"file", b"saved"])


def try_links(program):
    """Links to links are followed, each from its own folder, up to 40."""
    with tempfile.TemporaryDirectory() as folder:
        there = lambda name: os.path.join(folder, name)
        os.makedirs(there("a/b"))
        with open(there("a/file"), "wb") as file:
            file.write(b"old")
        os.symlink("a/b/second", there("first"))
        os.symlink("../third", there("a/b/second"))
        os.symlink(there("a/file"), there("a/third"))
        wants("a save through three links", saves(program, folder, "first"), (0, b"= 1\n", b""))
        wants("its file is new", is_saved(program, folder, "a/file"), True)
        links = [name for name in ("first", "a/b/second", "a/third") if os.path.islink(there(name))]
        wants("the links stay", links, ["first", "a/b/second", "a/third"])
        os.symlink("a/file", there("link1"))
        for number in range(2, 42):
            os.symlink(f"link{number - 1}", there(f"link{number}"))
        os.truncate(there("a/file"), 0)
        wants("a save through 40 links", saves(program, folder, "link40"), (0, b"= 1\n", b""))
        wants("its file is new too", is_saved(program, folder, "a/file"), True)
        os.symlink("round", there("round"))
        for path in "link41", "round":
            cannot_save(f"no save through {path}", saves(program, folder, path), path, b"")
        wants("no new file is left", sorted(os.listdir(there("a"))), ["b", "file", "third"])
        wants("nor above", [name for name in os.listdir(folder) if "new" in name], [])


NOBODY, ANOTHER = 65_534, 1


def are_links_protected():
    """Whether the kernel lets nobody follow a link of another user's in a folder that all may write to, with the sticky bit."""
    try:
        return contents("/proc/sys/fs/protected_symlinks").strip() == b"1"
    except FileNotFoundError:
        return False


def try_strange_links(program):
    """A save does not go through a link that the kernel does not let the saver follow, and what it leads to stays."""
    if os.geteuid() != 0 or not are_links_protected():
        print("left    a link of another user's: it wants root, and a kernel that protects links")
        return
    with tempfile.TemporaryDirectory() as folder:
        there = lambda name: os.path.join(folder, name)
        os.chmod(folder, 0o755)
        shutil.copy(program, there("program"))
        os.chmod(there("program"), 0o755)
        os.mkdir(there("own"))
        put_old(there("own/file"))
        for path in there("own"), there("own/file"):
            os.chown(path, NOBODY, NOBODY)
        os.mkdir(there("all"))
        os.chmod(there("all"), 0o1777)
        save = lambda path: saves(there("program"), folder, path, user=NOBODY, group=NOBODY, extra_groups=[])
        for owner in ANOTHER, NOBODY:
            os.symlink("../own/file", there(f"all/{owner}"))
            os.lchown(there(f"all/{owner}"), owner, owner)
        cannot_save("no save through a link of another user's", save(f"all/{ANOTHER}"), f"all/{ANOTHER}", b"")
        wants("what it leads to stays", contents(there("own/file")), b"old")
        wants("no new file is left", (os.listdir(there("own")), sorted(os.listdir(there("all")))), (["file"], sorted([str(ANOTHER), str(NOBODY)])))
        wants("a save there through a link of one's own", save(f"all/{NOBODY}"), (0, b"= 1\n", b""))
        wants("its file is new", is_saved(program, folder, "own/file"), True)


def try_descriptors(program):
    """Paths of open descriptors: a pipe gets the bytes, and a file gets them behind its own."""
    with tempfile.TemporaryDirectory() as folder:
        out = os.path.join(folder, "out")
        for link, leads in ("link", "/dev/stdout"), ("far", "link"), ("own", "/proc/self/fd/1"):
            os.symlink(leads, os.path.join(folder, link))
        for path in "/dev/stdout", "/dev/fd/1", "/proc/self/fd/1", "/proc/thread-self/fd/1", "link", "far", "own":
            for mode in "wb", "ab":
                before = contents(out) if mode == "ab" else b""
                with open(out, mode) as file:
                    number = os.fstat(file.fileno()).st_ino
                    told = saves(program, folder, path, stdout=file)
                wants(f"a save to {path}, a file that is open to {mode}", told, (0, None, b""))
                data = contents(out)
                wants("it is the same file", os.stat(out).st_ino, number)
                wants("the reply comes after what stood there", data[:len(before) + 4], before + b"= 1\n")
                wants("then the history", is_history(program, folder, data[len(before) + 4:]), True)
            status, data, said = saves(program, folder, path)
            wants(f"a save to {path}, a pipe", (status, data[:4], said), (0, b"= 1\n", b""))
            wants("the history comes after the reply", is_history(program, folder, data[4:]), True)
        with open(out, "wb") as file:
            told = saves(program, folder, "/dev/stderr", stderr=file)
        wants("a save to /dev/stderr, a file", told, (0, b"= 1\n", None))
        wants("it has the history", is_history(program, folder, contents(out)), True)
        with open(out, "wb") as file:
            file.write(b"front")
            file.flush()
            for path in f"/dev/fd/{file.fileno()}", f"/proc/self/fd/{file.fileno()}":
                os.truncate(out, 5)
                told = saves(program, folder, path, pass_fds=[file.fileno()])
                wants(f"a save to {path}, a file", told, (0, b"= 1\n", b""))
                wants("what stood there stays", contents(out)[:5], b"front")
                wants("then comes the history", is_history(program, folder, contents(out)[5:]), True)
        cannot_save("no save to a descriptor that is not open", saves(program, folder, "/dev/fd/77"), "/dev/fd/77", b"")
        wants("no new file is left", sorted(os.listdir(folder)), ["far", "link", "out", "own", "tail"])
    if os.path.isdir("/dev/shm"):
        with tempfile.TemporaryDirectory(dir="/dev/shm") as folder:
            path = os.path.join(folder, "saved")
            for which in "a first", "a second":
                wants(f"{which} save to shared memory", saves(program, folder, path), (0, b"= 1\n", b""))
                wants("is legal, and alone", (is_saved(program, folder, path), os.listdir(folder)), (True, ["saved"]))


def try_pipes(program):
    """A FIFO: with a reader all bytes arrive, and at the start it is left alone; without one nothing waits."""
    with tempfile.TemporaryDirectory() as folder:
        there = lambda name: os.path.join(folder, name)
        os.mkfifo(there("fifo"))
        os.symlink("fifo", there("link"))
        for path in "fifo", "link":
            cannot_save(f"no save to a {path} that nobody reads", saves(program, folder, path), path)
            with open(there("read"), "wb") as file:
                reader = subprocess.Popen(["cat", there("fifo")], stdout=file)
            words, pipe = [program, "run", "--cells", "16", "--save", path], subprocess.PIPE
            session = subprocess.Popen(words, cwd=folder, stdin=pipe, stdout=pipe, stderr=pipe)
            session.stdin.write(b"new -\n")
            session.stdin.flush()
            wants("a session that a FIFO waits for", session.stdout.readline(), b"= 1\n")
            time.sleep(0.2)
            wants("its reader still waits", reader.poll(), None)
            wants("it is saved", (*session.communicate(timeout=60), session.returncode), (b"", b"", 0))
            wants("and read", (reader.wait(timeout=60), is_saved(program, folder, "read")), (0, True))
        wants("no new file is left", sorted(os.listdir(folder)), ["fifo", "link", "read"])
        lines = b"new rrrrrrrr\ndrop 1\n" * 4_500
        with open(there("read"), "wb") as file:
            reader = subprocess.Popen(["cat", there("fifo")], stdout=file)
        words = [program, "run", "--cells", "16", "--trace", "10000", "--save", "fifo"]
        done = subprocess.run(words, input=lines, capture_output=True, cwd=folder, timeout=60)
        wants("a history longer than a pipe", (done.returncode, done.stderr, reader.wait(timeout=60)), (0, b"", 0))
        wants("is read whole", audit(program, "read", folder)[0], 0)
        wants("and was longer", os.path.getsize(there("read")) > 65_536, True)


def try_mounts(program):
    """A file on which another is mounted cannot be replaced, and stays."""
    with tempfile.TemporaryDirectory() as folder:
        there = lambda name: os.path.join(folder, name)
        for name in "below", "above":
            with open(there(name), "wb") as file:
                file.write(name.encode())
        if subprocess.run(["mount", "--bind", there("above"), there("below")], stderr=subprocess.DEVNULL).returncode:
            print("left    a file on which another is mounted: nothing can be mounted here")
            return
        try:
            cannot_save("no save to a file on which another is mounted", saves(program, folder, "below"), "below")
            wants("it stays", contents(there("below")), b"above")
            wants("no new file is left", sorted(os.listdir(folder)), ["above", "below"])
        finally:
            subprocess.run(["umount", there("below")], check=True)


def said_by(stream, lines):
    """What a server answers to lines, one after the other."""
    replies = []
    for line in lines:
        stream.write(line + b"\n")
        stream.flush()
        replies.append(stream.readline())
    return replies


def serve(program, folder, words):
    """A server of two clients, of whom the second finds what the first left: its status, and what it wrote."""
    path = os.path.join(folder, "socket")
    server = subprocess.Popen([program, "serve", "--socket", path, "--total", "2", "--cells", "16", *words], cwd=folder, stdout=subprocess.PIPE, stderr=subprocess.PIPE)
    while not os.path.exists(path) and server.poll() is None:
        time.sleep(0.01)
    for lines in [b"new -", b"bind a 1", b"weak 1 0", b"gc", b"bye"], [b"find a", b"open w file", b"write 2 00ff", b"bye"]:
        with socket.socket(socket.AF_UNIX) as client:
            client.connect(path)
            with client.makefile("rwb") as stream:
                said_by(stream, lines)
    out, said = server.communicate(timeout=60)
    return server.returncode, out.decode(errors="surrogateescape"), said.decode()


def try_servers(program):
    """The history of a server is legal, with as many entries as it says."""
    with tempfile.TemporaryDirectory() as folder:
        for words in [], ["--trace", "64"]:
            status, out, said = serve(program, folder, [*words, "--save", "saved"])
            entries = out.split()[-1] if out else ""
            wants(f"a server {words} ends well", (status, out, said), (0, f"served 2\nentries {entries}\n", ""))
            wants("its history is saved and legal", audit(program, "saved", folder), (0, f"legal {entries} version 2\n", ""))
        status, out, said = serve(program, folder, ["--save", "/dev/stdout"])
        first, second, data = out.split("\n", 2)
        wants("a server whose history goes to its output ends well", (status, first, said), (0, "served 2", ""))
        with open(os.path.join(folder, "tail"), "wb") as file:
            file.write(data.encode(errors="surrogateescape"))
        legal = f"legal {second.split()[-1]} version 2\n"
        wants("the history comes after its lines, and is legal", audit(program, "tail", folder), (0, legal, ""))
        wants("a server that cannot save does not begin", run(program, ["serve", "--socket", "socket", "--total", "2", "--save", "none/saved"], "", folder),
              (1, "", f"refheap: cannot save none/saved\n{MISSING}"))


def main():
    program = os.path.abspath(sys.argv[1] if len(sys.argv) > 1 else os.path.join(HERE, "../crates/refheap/out/refheap"))
    count = int(sys.argv[2]) if len(sys.argv) > 2 else 1_000
    seed = sys.argv[3] if len(sys.argv) > 3 else "1"
    try:
        try_places(program)
        try_faults(program)
        try_rights(program)
        try_names(program)
        try_links(program)
        try_strange_links(program)
        try_descriptors(program)
        try_pipes(program)
        try_mounts(program)
        try_servers(program)
        try_worked(program)
        try_fronts(program, seed)
        try_sessions(program, count, seed)
    except Wrong as wrong:
        print(f"WRONG   {wrong}")
        sys.exit(1)


main()
