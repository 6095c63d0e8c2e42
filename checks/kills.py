#!/usr/bin/env python3
"""A program that is killed at each system call of a save, and what is synced before it may be told of.

    checks/kills.py PROGRAM [--verbose]

First, by a library that is loaded before the C library (`synced.c`), since no kill of a process shows it: a session and a server sync the new file of a save
behind its last byte and before it gets its name; and what a session closes, itself or by the cleaner, is synced before, and a socket shut down both ways.

A session, and a server with a client and a `refheap stop`, whose history is saved over an older one. One life of each under `strace`
tells the calls of the thread that saves, from the first that has to do with the file of the history, at the start, to the end. Then a
life for each of these calls, in which the program is killed just before it: with SIGKILL, so nothing is tidied up. After each the file
is the whole older history or the whole new one, never anything else; what else is left in the folder is told. Then, in the folder as it
was left, the same is done again with nothing killed: it ends with status 0, its history is there, and a server begins again at the same
paths of its sockets.

Then the same with the place of the older history empty: there is no file then, or the new one. At last a hundred saves that are killed
in one folder, and a save after them. Without `strace` no kill is tried.
"""
import argparse
import collections
import os
import re
import shutil
import signal
import socket
import subprocess
import sys
import tempfile
import time

sys.dont_write_bytecode = True

HERE = os.path.dirname(os.path.abspath(__file__))
# A disk under load may take long for a sync.
SECONDS = 120
LINES = b"new ri\nsetint 1 1 -7\nnew -\ndrop 2\ngc\nstat\n"
REPLIES = b"= 1\nok\n= 2\nok\nok\nstat 1 0 0 0 0\n"
ENTRIES = 8
CALL = re.compile(r"^(\d+) +([a-z0-9_]+)\((.*)$")
# What has to do with the save, by the name of the file or of the new one beside it. `strace -y` tells the names of descriptors.
OF_THE_SAVE = re.compile(r"/saved\b|\.refheap-new")
# Calls that may come once more or less, as threads meet.
UNSTEADY = {"futex", "sched_yield", "madvise", "restart_syscall"}
TRACED = ["strace", "-f", "-y", "-qq", "-e", "signal=none"]

Call = collections.namedtuple("Call", "kind number text")


class Wrong(Exception):
    pass


# ---- Lives

class Run:
    """A session of its own."""

    name, files, due = "run", set(), f"legal {ENTRIES} version 2"

    def __init__(self, program, folder):
        self.program, self.folder = program, folder
        self.words = [program, "run", "--save", os.path.join(folder, "saved")]

    def live(self, tracing):
        """Lives under `strace`, or without. Status and what it said; the status is negative where it was killed."""
        done = subprocess.run([*tracing, *self.words], input=LINES, capture_output=True, cwd=self.folder, timeout=SECONDS, check=False)
        return done.returncode, done.stdout, done.stderr

    well = (0, REPLIES, b"")


class Serve:
    """A server with one client, that is asked to end."""

    name, files, due = "serve", {"heap", "control"}, f"legal {ENTRIES} version 2"

    def __init__(self, program, folder, *more):
        self.program, self.folder = program, folder
        self.path, self.control = os.path.join(folder, "heap"), os.path.join(folder, "control")
        self.words = [program, "serve", "--socket", self.path, "--control", self.control, "--total", "9", "--sessions", "2",
                      "--mode", "660", "--save", os.path.join(folder, "saved")]

    def live(self, tracing):
        pipe, none = subprocess.PIPE, subprocess.DEVNULL
        process = subprocess.Popen([*tracing, *self.words], cwd=self.folder, stdin=none, stdout=pipe, stderr=pipe)
        try:
            self.client(process)
            stop = subprocess.run([self.program, "stop", self.control], capture_output=True, timeout=SECONDS, check=False)
            out, errors = process.communicate(timeout=SECONDS)
        except subprocess.TimeoutExpired:
            end_all(process)
            raise Wrong("it does not end") from None
        return process.returncode, out, errors + stop.stderr * (process.returncode == 0)

    def client(self, process):
        """A client of a few lines, where the server comes to listen and lives to answer."""
        end = time.monotonic() + SECONDS
        while process.poll() is None:
            if time.monotonic() > end:
                end_all(process)
                raise Wrong("it does not come to listen")
            with socket.socket(socket.AF_UNIX) as stream:
                stream.settimeout(SECONDS)
                try:
                    # Where somebody listens there, the server is ready.
                    with socket.socket(socket.AF_UNIX) as control:
                        control.connect(self.control)
                    stream.connect(self.path)
                    stream.sendall(LINES + b"bye\n")
                    replies = stream.makefile("rb").read()
                    if not (REPLIES + b"ok\n").startswith(replies):
                        raise Wrong(f"the client is answered {replies[:200]}")
                    return
                except (ConnectionError, FileNotFoundError):
                    time.sleep(0.002)

    well = (0, f"served 1\nentries {ENTRIES}\n".encode(), b"")


def end_all(process):
    """Ends what `strace` started, and it itself."""
    with open(f"/proc/{process.pid}/task/{process.pid}/children", encoding="ascii") as children:
        numbers = [int(number) for number in children.read().split()]
    for number in [*numbers, process.pid]:
        os.kill(number, signal.SIGKILL)
    process.communicate()


def verdict(program, path):
    """The verdict on a file, or none where nothing is there."""
    if not os.path.lexists(path):
        return None
    return subprocess.run([program, "audit", path], capture_output=True, timeout=SECONDS, check=False).stdout.decode().strip()


OLDER = "legal 3 version 2"


def lay_out(program, folder, is_there):
    """An older history, where one is there."""
    if is_there:
        words = [program, "run", "--save", os.path.join(folder, "saved")]
        subprocess.run(words, input=b"new -\n", stdout=subprocess.DEVNULL, check=True, timeout=SECONDS)


# ---- Calls

def calls_of(kind, program, is_there):
    """The calls of the thread that saves, from the first that has to do with the save, each with its number among those of its kind."""
    with tempfile.TemporaryDirectory(prefix="refheap-kills-") as folder, tempfile.NamedTemporaryFile("r", encoding="utf-8") as log:
        lay_out(program, folder, is_there)
        life = kind(program, folder)
        told = life.live([*TRACED, "-o", log.name])
        seen = verdict(program, os.path.join(folder, "saved"))
        if told[0] != 0 or seen != kind.due or left_in(folder):
            raise Wrong(f"with nothing killed: {told}, {seen}, {left_in(folder)}")
        lines = [found.groups() for found in map(CALL.match, log.read().splitlines()) if found]
    thread = next(number for number, _, text in reversed(lines) if OF_THE_SAVE.search(text))
    counts, calls, begun = collections.Counter(), [], False
    for number, name, text in lines:
        if number != thread:
            continue
        counts[name] += 1
        begun = begun or bool(OF_THE_SAVE.search(text))
        if begun and name not in UNSTEADY:
            calls.append(Call(name, counts[name], text.replace(folder + "/", "")))
    return calls


def left_in(folder):
    """What is in a folder but the history."""
    return sorted(set(os.listdir(folder)) - {"saved"})


def told_of(call):
    """A call in few words."""
    return f"{call.kind} {call.number} ({call.text[:60]})"


def killed(kind, program, call, is_there):
    """A life that is killed at a call, then one in the same folder. What the file was, and what was left."""
    with tempfile.TemporaryDirectory(prefix="refheap-kills-") as folder:
        lay_out(program, folder, is_there)
        saved = os.path.join(folder, "saved")
        with open(saved, "rb") if is_there else open(os.devnull, "rb") as file:
            before = file.read()
        injection = ["-e", f"trace={call.kind}", "-e", f"inject={call.kind}:signal=SIGKILL:when={call.number}"]
        status, _, _ = kind(program, folder).live([*TRACED, "-o", os.devnull, *injection])
        if status != -signal.SIGKILL:
            return "not met", ""
        seen, left = verdict(program, saved), left_in(folder)
        is_older = seen is None if not is_there else seen == OLDER and contents(saved) == before
        if not is_older and (seen is None or not is_whole(kind, seen)):
            raise Wrong(f"the file is neither the older history nor the new one: {seen}")
        if set(left) - kind.files - {".refheap-new0", "heap.new", "control.new"}:
            raise Wrong(f"something else is left: {left}")
        again(kind, program, folder, left)
        rest = "; then goes" if left and not left_in(folder) else f"; {', '.join(left_in(folder))} stays" if left else ""
        return "as before" if is_older else "the new", f"{', '.join(left) or 'nothing else'} left{rest}"


def is_whole(kind, seen):
    """Whether the verdict is that of the whole new history. Of a server a collection of its own may come to it."""
    found = re.fullmatch(r"legal (\d+) version 2", seen)
    return bool(found) and (seen == kind.due or kind is Serve and int(found.group(1)) >= ENTRIES)


def contents(path):
    with open(path, "rb") as file:
        return file.read()


def again(kind, program, folder, left):
    """The same once more, in the folder as it was left: it goes, and adds nothing that stays."""
    told = kind(program, folder).live([])
    seen = verdict(program, os.path.join(folder, "saved"))
    if told != kind.well or not is_whole(kind, seen or ""):
        raise Wrong(f"with {left} left, a later life: {told}, its history is {seen}")
    more = set(left_in(folder)) - set(left)
    if more or kind.files & set(left_in(folder)):
        raise Wrong(f"a later life leaves {left_in(folder)}, where {left} was left")


# ---- What is synced

def library_in(folder):
    """The library that tells what a program does with its files."""
    library = os.path.join(folder, "synced.so")
    subprocess.run([os.environ.get("CC", "cc"), "-O2", "-shared", "-fPIC", "-o", library, os.path.join(HERE, "synced.c")], check=True)
    return library


def told_in(log):
    """The lines of a log: what was done, and the last parts of the names of what it had to do with."""
    with open(log, encoding="utf-8", errors="replace") as file:
        lines = [line.split() for line in file]
    return [(what, *[os.path.basename(name) for name in names]) for what, *names in lines]


def try_synced(program, library, kind, is_there):
    """The new file of a save is synced once it has all its bytes, and then renamed."""
    place = "over an older history" if is_there else "where nothing was"
    with tempfile.TemporaryDirectory(prefix="refheap-kills-") as folder, tempfile.NamedTemporaryFile("r", encoding="utf-8") as log:
        lay_out(program, folder, is_there)
        told = kind(program, folder).live(["env", f"LD_PRELOAD={library}", f"SYNC_LOG={log.name}"])
        seen = verdict(program, os.path.join(folder, "saved"))
        lines = told_in(log.name)
    if told != kind.well or not is_whole(kind, seen or ""):
        raise Wrong(f"{kind.name} {place}, with synced.c: {told}, {seen}")
    new = ".refheap-new0"
    renamed = lines.index(("rename", new, "saved")) if ("rename", new, "saved") in lines else None
    written = max((at for at, line in enumerate(lines[:renamed]) if line == ("write", new)), default=None)
    if renamed is None or written is None:
        raise Wrong(f"{kind.name} {place}: neither a write of {new} nor its rename was met")
    right = any(line in (("fsync", new), ("fdatasync", new)) for line in lines[written:renamed])
    says = f"{kind.name} {place}: the new file is synced behind its last byte, before it gets its name"
    print(f"ok      {says}" if right else f"WRONG   {says}: not so, {lines[written:renamed + 1]}", flush=True)
    return right


# Files and sockets that are closed by their session, and by the cleaner.
CLOSINGS = [("open w one", "= 1"), ("write 1 6162", "wrote 2"), ("close 1", "ok"), ("connect peer", "= 2"), ("close 2", "ok"), ("open w two", "= 3"),
            ("write 3 63", "wrote 1"), ("connect peer", "= 4"), ("drop 3", "ok"), ("drop 4", "ok"), ("gc", "ok"), ("faults", "list")]


def try_closed(program, library):
    """A file is synced and a socket shut down both ways before it is closed."""
    with tempfile.TemporaryDirectory(prefix="refheap-kills-") as folder, tempfile.NamedTemporaryFile("r", encoding="utf-8") as log, \
            socket.socket(socket.AF_UNIX) as listener:
        listener.bind(os.path.join(folder, "peer"))
        listener.listen()
        done = subprocess.run([program, "run"], input="".join(f"{line}\n" for line, _ in CLOSINGS), capture_output=True, text=True, cwd=folder,
                              timeout=SECONDS, check=False, env={**os.environ, "LD_PRELOAD": library, "SYNC_LOG": log.name})
        lines = told_in(log.name)
    if (done.returncode, done.stdout.splitlines(), done.stderr) != (0, [reply for _, reply in CLOSINGS], ""):
        raise Wrong(f"closings: {done}")
    # The socket that the session closes is the first to be closed.
    sockets = list(dict.fromkeys(line[1] for line in lines if line[0] == "close" and line[1:] and line[1].startswith("socket:")))
    if len(sockets) != 2:
        raise Wrong(f"two sockets were to be closed: {sockets}")
    right = True
    for what, name, due in (
        ("a file that its session closes", "one", ["write", "fsync", "close"]), ("a file that the cleaner closes", "two", ["write", "fsync", "close"]),
        ("a socket that its session closes", sockets[0], ["shutdown_both", "close"]), ("a socket that the cleaner closes", sockets[1], ["shutdown_both", "close"]),
    ):
        done = [line[0] for line in lines if line[1:] == (name,)]
        right = right and done == due
        print(f"ok      {what}: {', '.join(done)}" if done == due else f"WRONG   {what}: {done}, and due is {due}", flush=True)
    return right


def try_syncs(program):
    """All that is synced, or shut down."""
    if not shutil.which(os.environ.get("CC", "cc")):
        print("left    what is synced: a C compiler is missing here")
        return True
    with tempfile.TemporaryDirectory(prefix="refheap-kills-") as folder:
        library = library_in(folder)
        right = [try_synced(program, library, kind, is_there) for is_there in (True, False) for kind in (Run, Serve)]
        return try_closed(program, library) and all(right)


# ---- The cases

def try_all(kind, program, is_there, verbose):
    """A kill at each call."""
    place = "over an older history" if is_there else "where nothing was"
    calls = calls_of(kind, program, is_there)
    told, rests, right = collections.Counter(), collections.Counter(), True
    for call in calls:
        try:
            which, left = killed(kind, program, call, is_there)
        except (Wrong, subprocess.TimeoutExpired) as wrong:
            print(f"WRONG   {kind.name} {place}, killed at {told_of(call)}: {wrong}", flush=True)
            right = False
            continue
        told[which] += 1
        rests[left] += which != "not met"
        if verbose:
            print(f"        {told_of(call)}: {which}, {left}", flush=True)
    met = sum(told.values()) - told["not met"]
    if met == 0 or told["as before"] == 0 or told["the new"] == 0:
        print(f"WRONG   {kind.name} {place}: of {len(calls)} kills {met} were met, {dict(told)}")
        return False
    says = ", ".join(f"{which} {times}" for which, times in sorted(told.items()))
    if right:
        print(f"ok      {kind.name} {place}, killed at each of {len(calls)} calls: {says}; then it goes again", flush=True)
        for left, times in sorted((left, times) for left, times in rests.items() if left):
            print(f"ok      {kind.name} {place}, {times} times: {left}", flush=True)
    return right


def try_hundred(program):
    """A hundred saves that are killed in one folder before the new file has its name. What the save after them says."""
    call = next(call for call in reversed(calls_of(Run, program, True)) if call.kind.startswith("rename"))
    with tempfile.TemporaryDirectory(prefix="refheap-kills-") as folder:
        lay_out(program, folder, True)
        injection = ["-e", f"trace={call.kind}", "-e", f"inject={call.kind}:signal=SIGKILL:when={call.number}"]
        statuses = collections.Counter()
        for _ in range(100):
            statuses[Run(program, folder).live([*TRACED, "-o", os.devnull, *injection])[0]] += 1
        left = left_in(folder)
        seen = verdict(program, os.path.join(folder, "saved"))
        if seen != OLDER:
            raise Wrong(f"after a hundred kills the history is {seen}")
        after = Run(program, folder).live([])
        for name in left:
            os.remove(os.path.join(folder, name))
        then = Run(program, folder).live([])
    named = after[0] == 1 and len(after[2].splitlines()) == 2 and b"remove them" in after[2]
    if not (after == Run.well or named) or then != Run.well:
        raise Wrong(f"after a hundred kills: {after}, and with the files removed {then}")
    what = "goes" if after == Run.well else "is refused at the start, and says what to remove"
    print(f"ok      a hundred kills at {call.kind} in one folder ({dict(statuses)}): {len(left)} files left; the next save {what}")
    return True


def main():
    parser = argparse.ArgumentParser(description=__doc__.splitlines()[0])
    parser.add_argument("program")
    parser.add_argument("--verbose", action="store_true")
    asked = parser.parse_args()
    program = os.path.abspath(asked.program)
    try:
        right = try_syncs(program)
        if not shutil.which("strace"):
            print("left    a kill at each system call of a save: strace is missing here")
            return 0 if right else 1
        for is_there in True, False:
            for kind in Run, Serve:
                right = try_all(kind, program, is_there, asked.verbose) and right
        right = try_hundred(program) and right
    except (Wrong, subprocess.TimeoutExpired) as wrong:
        print(f"WRONG   {wrong}")
        right = False
    return 0 if right else 1


if __name__ == "__main__":
    sys.exit(main())
