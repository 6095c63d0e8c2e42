#!/usr/bin/env python3
"""Each system call of a server failing in turn.

    checks/calls.py PROGRAM [--kinds KIND,..] [--numbers N] [--jobs N] [--verbose]

Plays one fixed small life of a server under `strace`: a start with a socket, one of control and a history that is saved over an older
one; clients that make objects, use files and a peer, wait for a death and for an action of the cleaner, collect; one that vanishes in
`remove`, one that waits there when `refheap stop` asks the server to end. Each kind of system call is counted; then the life is played
again and again, each time with the call of number n of one kind failing, for each n (at most N of them a kind, 25), with each error
that fits. First the calls of the start; then those behind it, for which `strace` joins a server that listens. A number is that of one
thread: where several threads make so many calls of a kind, one call of each fails.

Always: the server ends within 20 s of being asked to, by itself, with a status and lines that docs/protocol.md names; each reply is the
one that is due, or `! 1`, or a fault of a command on files, or the connection ends; a history that is there is legal, and has the
entries that the server tells. What more may be met is said by the table, kind by kind, and of some files what has to be met where a
call on them fails: nobody is told that all is well. Without `strace` nothing is tried.
"""
import argparse
import collections
import concurrent.futures
import os
import re
import shutil
import signal
import socket
import subprocess
import sys
import tempfile
import threading
import time

sys.dont_write_bytecode = True

# ---- What a failing call may lead to

# The server does not start, and says why: status 1 and `cannot listen on` or `cannot save`, or status 5 and `no memory`.
UNSTARTED = "it does not start"
# A command is refused with `! 1`; a command on a file or a socket has a fault; the connection ends before a reply.
REFUSED, FAULT, CUT = "a refusal", "a fault", "a client is cut off"
# The server tells that accepts failed.
ACCEPTS = "accepts are counted as failed"
# Nothing is saved: status 1 and `cannot save`, or 5 and `no memory`, and `stop` is told so. Or the two lines at the end cannot be written.
UNSAVED, UNWRITTEN = "it cannot save", "it cannot write its lines"
# A file of the server's own stays.
LEFT = "a file is left"
# A client has to wait until another goes, since a worker waits until something is closed.
WAITS = "a client waits until another goes"
# `stop` was told of no end in order, and asked again; or it was told so though the server ended with status 0.
AGAIN, UNTOLD = "stop asked again", "stop was told of no end in order"

# `at` names the files whose calls fail, where not all do. `must` says what a failing call on a file of these names leads to, one or the other.
Row = collections.namedtuple("Row", "kinds errors may at must", defaults=("", {}))
TABLE = [
    Row("socket", "EMFILE ENOMEM", {UNSTARTED, FAULT}),
    # Then there is no spare descriptor.
    Row("socketpair", "EMFILE ENOMEM", set()),
    Row("bind", "EACCES ENOSPC", {UNSTARTED}),
    Row("listen", "EACCES", {UNSTARTED}),
    Row("connect", "ECONNREFUSED EACCES EAGAIN", {FAULT}),
    Row("accept4", "EMFILE ECONNABORTED ENOMEM", {ACCEPTS, WAITS, AGAIN}),
    Row("recvfrom", "ECONNRESET ENOMEM", {FAULT, CUT, AGAIN}),
    Row("sendto", "EPIPE ENOBUFS", {FAULT, CUT, UNTOLD}),
    Row("read", "EIO", {FAULT}),
    Row("write", "EIO ENOSPC", {FAULT, UNSAVED, UNWRITTEN}, "file .refheap-new0 said"),
    Row("poll", "ENOMEM", {FAULT, AGAIN}),
    Row("epoll_create1 eventfd2", "EMFILE ENOMEM", {UNSTARTED}),
    # A `remove` whose client cannot be watched is refused.
    Row("epoll_ctl", "ENOSPC ENOMEM", {UNSTARTED, REFUSED}),
    Row("openat", "EMFILE EACCES ENOSPC", {UNSTARTED, FAULT, UNSAVED}),
    Row("close", "EIO", set()),
    Row("fsync", "EIO ENOSPC", {UNSTARTED, FAULT, UNSAVED}, must={r"\.refheap-new\d+": {UNSTARTED, UNSAVED}, "file": {FAULT}}),
    Row("rename", "EACCES ENOSPC EIO", {UNSAVED}),
    Row("link", "EACCES ENOSPC EIO", {UNSTARTED}),
    Row("unlink", "EACCES EIO", {UNSTARTED, LEFT}),
    Row("chmod fchmod", "EACCES EIO", {UNSTARTED, UNSAVED}, must={r"(heap|control)\.new|\.refheap-new\d+": {UNSTARTED, UNSAVED}}),
    # What cannot be looked at is not removed.
    Row("statx", "EACCES EIO", {UNSTARTED, FAULT, UNSAVED, LEFT}),
    Row("fcntl", "EMFILE", {UNSTARTED, CUT, ACCEPTS}),
    Row("ioctl", "EIO", {UNSTARTED, FAULT}),
    Row("mmap brk mremap mprotect", "ENOMEM", {UNSTARTED, REFUSED, CUT, UNSAVED}),
    Row("clone3", "EAGAIN", {UNSTARTED}),
    # What is interrupted is made again: but for those that Linux interrupts at no time, a connect that does not wait, and one byte to and
    # from who says `stop`.
    Row("accept4 epoll_wait openat read fsync", "EINTR", set()),
    Row("write", "EINTR", set(), "file .refheap-new0 said"),
    Row("connect", "EINTR", {FAULT}),
    Row("poll recvfrom sendto", "EINTR", {AGAIN, UNTOLD}),
]
# Calls that no surroundings refuse, that only give something back, or that only the loader makes. A `shutdown` of a connected Unix socket
# does not fail on Linux; nor does an `epoll_wait`, unless it is interrupted, or a write that wakes another thread.
LEFT_OUT = set("""
    futex execve exit exit_group arch_prctl set_tid_address set_robust_list rseq restart_syscall rt_sigaction rt_sigprocmask
    rt_sigreturn sigaltstack gettid getpid sched_yield sched_getaffinity nanosleep clock_nanosleep prlimit64 getrandom madvise munmap
    access pread64 newfstatat uname umask getuid geteuid shutdown
    """.split())

# Where a `close` waits for no disk.
FAST = "/dev/shm" if os.path.isdir("/dev/shm") else None
SECONDS = 20
# Of a server: the first, three workers, marker, handler, cleaner.
THREADS = 7
# A client that has no reply in so many seconds says so.
PATIENCE = 8
OPTIONS = ["--sessions", "3", "--cells", "64", "--resources", "8", "--mode", "660"]
OWN_FILES = re.compile(r"heap|control|.*\.new|\.refheap-new\d+")
CALL = re.compile(r"^(\d+) +([a-z0-9_]+)\(")
OF_FILES = {"open", "connect", "read", "write", "close"}


class Wrong(Exception):
    """Something that no failing call may lead to."""


class Silent(Wrong):
    """No reply in time."""


class Other(Exception):
    """A reply that only a failing call explains; what follows from it is left out."""


class Cut(Exception):
    """The connection ended."""


# ---- Clients

class Talk:
    """A client's session, of which each reply is the one that is due, or one that a failing call explains."""

    def __init__(self, life, path):
        self.life, self.closed = life, False
        self.stream = socket.socket(socket.AF_UNIX)
        self.stream.settimeout(PATIENCE)
        self.replies = self.stream.makefile("rb")
        try:
            self.stream.connect(path)
        except OSError:
            self.cut()

    def cut(self):
        self.life.met.add(CUT)
        self.close()
        raise Cut

    def close(self):
        self.replies.close()
        self.stream.close()
        self.closed = True

    def send(self, line):
        try:
            self.stream.sendall(line.encode() + b"\n")
        except OSError:
            self.cut()

    def reply(self, line):
        try:
            reply = self.replies.readline()
        except TimeoutError:
            raise Silent(f"'{line}' has no reply in {PATIENCE} s") from None
        except OSError:
            reply = b""
        if not reply.endswith(b"\n"):
            self.cut()
        return reply[:-1].decode()

    def judged(self, line, reply, due):
        """The reply, where it is due. One that is not, and that a failing call may explain, is noted."""
        if re.fullmatch(due, reply):
            return reply
        if reply == "! 1":
            self.life.met.add(REFUSED)
        elif reply in ("fault other", "fault denied") and line.split()[0] in OF_FILES:
            self.life.met.add(FAULT)
        elif not self.life.met or reply not in ("! 9", "= 0"):
            raise Wrong(f"'{line}' is answered '{reply}', due is '{due}'")
        raise Other

    def ask(self, line, due):
        self.send(line)
        return self.judged(line, self.reply(line), due)

    def handle(self, line):
        """The handle that a command gives."""
        return int(self.ask(line, "= [1-9][0-9]*").split()[1])


def objects(talk):
    one = talk.handle("new ri")
    talk.ask(f"setint {one} 1 -7", "ok")
    talk.ask(f"int {one} 1", "int -7")
    some = talk.handle("array 3")
    talk.ask(f"put {some} 2 {one}", "ok")
    talk.ask(f"bind root {some}", "ok")
    talk.ask(f"drop {one}", "ok")


def file(talk):
    guard = talk.handle("open w file")
    talk.ask(f"write {guard} 0aff", "wrote 2")
    talk.ask(f"close {guard}", "ok")
    talk.ask(f"drop {guard}", "ok")
    guard = talk.handle("open r file")
    talk.ask(f"read {guard} 200", "data 0aff")
    talk.ask(f"read {guard} 200", "end")
    talk.ask(f"close {guard}", "ok")
    talk.ask(f"drop {guard}", "ok")


def peer(talk):
    guard = talk.handle("connect peer")
    talk.ask(f"write {guard} 010203", "wrote 3")
    talk.ask(f"read {guard} 200", "data 010203")
    talk.ask(f"close {guard}", "ok")
    talk.ask(f"drop {guard}", "ok")


def death(talk):
    queue, held = talk.handle("queue"), talk.handle("new -")
    weak = talk.handle(f"weak {held} {queue}")
    talk.ask(f"drop {held}", "ok")
    talk.ask("gc", "ok")
    found = talk.handle(f"remove {queue}")
    talk.ask(f"same {found} {weak}", "yes")


def settled(talk, line, due):
    """Asks until the reply is due: what the loops do comes soon. Between, it waits, so that mostly one ask is enough."""
    for _ in range(100):
        time.sleep(0.03)
        try:
            return talk.ask(line, due)
        except Silent:
            raise
        except Wrong:
            pass
    raise Wrong(f"'{line}' is not answered '{due}' in the end")


def action(talk):
    cleaner, held = talk.handle("cleaner"), talk.handle("new -")
    talk.handle(f"register {cleaner} {held} 42")
    talk.ask(f"drop {held}", "ok")
    lost = talk.handle("open w lost")
    talk.ask(f"drop {lost}", "ok")
    talk.ask("gc", "ok")
    settled(talk, "notes", "list 42")
    settled(talk, "stat", r"stat \d+ \d+ \d+ \d+ \d+" if talk.life.met else r"stat \d+ 0 \d+ \d+ \d+")


def shared(talk):
    found = talk.handle("find root")
    held = talk.handle(f"get {found} 2")
    talk.ask(f"int {held} 1", "int -7")
    talk.ask("unbind root", "ok")
    talk.ask("names", "list")


# ---- A life

class Echo:
    """A peer that sends back what it gets."""

    def __init__(self, path):
        self.listener = socket.socket(socket.AF_UNIX)
        self.listener.bind(path)
        self.listener.listen()
        threading.Thread(target=self.serve, daemon=True).start()

    def serve(self):
        while True:
            try:
                stream, _ = self.listener.accept()
                with stream:
                    while data := stream.recv(4096):
                        stream.sendall(data)
            except OSError:
                if self.listener.fileno() < 0:
                    return

    def close(self):
        self.listener.shutdown(socket.SHUT_RDWR)
        self.listener.close()


def traced(thread):
    """Whether a thread is traced, and runs or waits in a call of its own again."""
    with open(f"{thread}/status", encoding="ascii") as status:
        said = dict(line.split(":", 1) for line in status)
    return said["TracerPid"].strip() != "0" and not said["State"].strip().startswith("t")


class Life:
    """A server's life in a folder of its own, with what was met that only a failing call explains."""

    def __init__(self, program, tracing, later=False, at=""):
        """One that is traced from its start, or later, once it listens."""
        self.program, self.met, self.joined, self.failed, self.told = program, set(), 0, [], []
        self.left = []
        self.folder = tempfile.mkdtemp(prefix="refheap-calls-", dir=FAST)
        self.log, self.history = self.at("log"), self.at("history")
        shutil.copy(older(program), self.history)
        self.echo = Echo(self.at("peer"))
        words = [program, "serve", "--socket", self.at("heap"), "--control", self.at("control"), "--total", "1000", "--save", self.history]
        # With `-y` it tells the names of descriptors.
        self.tracing = ["strace", "-f", "-y", "-e", "signal=none", "-o", self.log, *tracing]
        for name in at.split():
            self.tracing += ["-P", self.at(name)]
        self.later, self.tracer = later, None
        with open(self.at("said"), "wb") as said:
            self.process = subprocess.Popen([*([] if later else [*self.tracing, "-qq"]), *words, *OPTIONS], cwd=self.folder,
                                            stdin=subprocess.DEVNULL, stdout=said, stderr=subprocess.PIPE)

    def at(self, name):
        return os.path.join(self.folder, name)

    def join(self):
        """`strace` joins all threads of the server."""
        words = [*self.tracing, "-q", "-p", str(self.process.pid)]
        threads = f"/proc/{self.process.pid}/task"
        end = time.monotonic() + SECONDS
        while len(os.listdir(threads)) < THREADS:
            if time.monotonic() > end:
                raise Wrong(f"it has {len(os.listdir(threads))} threads, due are {THREADS}")
            time.sleep(0.002)
        self.tracer = subprocess.Popen(words, stdout=subprocess.DEVNULL, stderr=subprocess.DEVNULL)
        while any(not traced(f"{threads}/{thread}") for thread in os.listdir(threads)):
            if time.monotonic() > end or self.tracer.poll() is not None:
                raise Wrong("strace does not join it")
            time.sleep(0.002)

    def server(self):
        """The number of the server's process, which `strace` started."""
        if self.later:
            return [self.process.pid]
        with open(f"/proc/{self.process.pid}/task/{self.process.pid}/children", encoding="ascii") as children:
            return [int(number) for number in children.read().split()]

    def ended(self, seconds):
        try:
            self.process.wait(seconds)
            return True
        except subprocess.TimeoutExpired:
            return False

    def started(self):
        """Whether the server came to listen."""
        end = time.monotonic() + SECONDS
        while not os.path.exists(self.at("control")):
            if self.process.poll() is not None:
                return False
            if time.monotonic() > end:
                raise Wrong(f"it neither starts nor ends in {SECONDS} s")
            time.sleep(0.002)
        if self.later:
            self.join()
        return True

    def session(self, *scenes):
        """A session of these scenes. It stays open where it was not cut off."""
        try:
            self.joined += 1
            talk = Talk(self, self.at("heap"))
            for scene in scenes:
                try:
                    scene(talk)
                except Other:
                    pass
            return talk
        except Cut:
            return None

    def vanishing(self):
        """A client that is gone while it waits in `remove`."""
        def vanish(talk):
            queue = talk.handle("queue")
            talk.send(f"remove {queue}")
            time.sleep(0.03)

        talk = self.session(vanish)
        if talk:
            talk.close()

    def waiting(self):
        """A client that waits in `remove` when the server is asked to end, and has its seat by then."""
        self.line = None

        def wait(talk):
            self.line = f"remove {talk.handle('queue')}"
            talk.send(self.line)

        return self.session(wait)

    def clients(self):
        keeper = self.session(objects, file, peer, death, action)
        waiting = self.waiting()
        self.vanishing()
        # All three seats are taken, until the client that vanished gives up its own.
        last = self.session(lambda talk: self.seated(talk, keeper), shared, lambda talk: talk.ask("bye", "ok"))
        if last:
            last.close()
        self.stop()
        for talk, line in ((keeper, None), (waiting, self.line)):
            if talk and not talk.closed:
                self.is_told(talk, line)

    def seated(self, talk, keeper):
        """A client's first reply, for which it may have to wait until another goes, if accepts failed."""
        try:
            talk.ask("same 0 0", "yes")
        except Silent:
            if not keeper:
                raise
            self.met.add(WAITS)
            keeper.close()
            talk.replies = talk.stream.makefile("rb")
            talk.judged("same 0 0", talk.reply("same 0 0"), "yes")

    def is_told(self, talk, line):
        """At the end a client that waits is answered `! 18`, and the connection ends."""
        try:
            if line:
                talk.judged(line, talk.reply(line), "! 18")
            if talk.replies.readline() != b"":
                raise Wrong("something follows the last reply")
            talk.close()
        except (Cut, Other):
            pass
        except TimeoutError:
            raise Wrong("the connection does not end with the server") from None
        except OSError:
            self.met.add(CUT)

    def stop(self):
        """Asks the server to end; again, where the one who asked is told that it did not, and it goes on."""
        self.told = []
        for _ in range(3):
            try:
                stop = subprocess.run([self.program, "stop", self.at("control")], capture_output=True, timeout=SECONDS, check=False)
            except subprocess.TimeoutExpired:
                raise Wrong(f"stop does not return in {SECONDS} s") from None
            self.told.append((stop.returncode, stop.stdout + stop.stderr))
            if stop.returncode == 0 or self.ended(1):
                return
            self.met.add(AGAIN)

    def play(self):
        """Plays it all. Raises what is wrong whatever fails."""
        try:
            if self.started():
                self.clients()
                if not self.ended(SECONDS):
                    raise Wrong(f"it does not end in {SECONDS} s; stop said {self.told}")
                self.judge_end(*self.end())
            else:
                self.judge_unstarted(*self.end())
            self.judge_files()
        finally:
            self.clear()
        return self

    def end(self):
        """Status and lines of the server."""
        _, errors = self.process.communicate(timeout=SECONDS)
        with open(self.at("said"), encoding="utf-8") as said:
            return self.process.returncode, said.read().splitlines(), errors.decode(errors="replace").splitlines()

    def judge_unstarted(self, status, out, errors):
        """It says why it does not start: why is the second line."""
        kinds = {1: (2, r"refheap: cannot (listen on|save) /.*"), 5: (1, "refheap: no memory")}
        lines, due = kinds.get(status, (0, ""))
        if out or len(errors) != lines or not lines or not re.fullmatch(due, errors[0]) or not errors[-1].startswith("refheap: "):
            raise Wrong(f"it does not start, with status {status} and {errors}")
        self.met.add(UNSTARTED)

    def judge_end(self, status, out, errors):
        """What the server said at its end, what `stop` was told, and the history."""
        if not out and status == 1 and errors and errors[0].startswith("refheap: cannot listen on"):
            # It listened for a moment.
            self.met -= {CUT, AGAIN}
            return self.judge_unstarted(status, out, errors)
        self.missed = 0
        if errors and re.fullmatch(r"refheap: \d+ of the accepts failed", errors[0]):
            self.met.add(ACCEPTS)
            self.missed = int(errors[0].split()[1])
            errors = errors[1:]
        said = errors[0] if errors else ""
        saved = status == 0
        if (status, len(errors)) == (1, 2) and said == f"refheap: cannot save {self.history}":
            self.met.add(UNSAVED)
        elif (status, errors) == (5, ["refheap: no memory"]):
            self.met.add(UNSAVED)
        elif (status, errors) == (1, ["refheap: write failed"]):
            self.met.add(UNWRITTEN)
            saved = True
        elif status or errors:
            raise Wrong(f"status {status}, and it said {errors}")
        due = [(0, b""), (1, b"refheap: the server did not end in order\n")]
        if self.told[-1] not in due:
            raise Wrong(f"stop is told {self.told[-1]}")
        if self.told[-1] != due[not saved]:
            if not saved:
                raise Wrong("stop is told of an end in order, and nothing was saved")
            self.met.add(UNTOLD)
        self.judge_lines(out, saved)

    def judge_lines(self, out, saved):
        """The two lines, and the history, with as many entries."""
        legal = self.verdict()
        if saved and UNWRITTEN not in self.met:
            entries = out[1].split()[-1] if len(out) == 2 else "none"
            served = int(out[0].split()[-1]) if out else -1
            if legal != f"legal {entries} version 2" or not 0 <= served <= self.joined + self.missed:
                raise Wrong(f"it said {out} of {self.joined} clients, and the history is '{legal}'")
        if saved and legal == OLDER:
            raise Wrong("the history is still the older one")

    def judge_files(self):
        """A history is legal, whichever it is, and the server's own files are gone, but where the table says that they may stay."""
        if not self.verdict().startswith("legal "):
            raise Wrong(f"what stands in place of the history is '{self.verdict()}'")
        self.left = sorted(name for name in os.listdir(self.folder) if OWN_FILES.fullmatch(name))
        if self.left:
            self.met.add(LEFT)

    def verdict(self):
        return subprocess.run([self.program, "audit", self.history], capture_output=True, check=False, timeout=60).stdout.decode().strip()

    def clear(self):
        """Ends what is still there, and reads which calls failed."""
        if self.process.poll() is None:
            for number in self.server():
                os.kill(number, signal.SIGKILL)
            self.process.wait(SECONDS)
        self.process.stderr.close()
        if self.tracer:
            self.tracer.wait(SECONDS)
        self.echo.close()
        with open(self.log, encoding="utf-8", errors="replace") as log:
            self.calls = log.read().splitlines()
        self.failed = [re.sub(r"^\d+ +| \(INJECTED\)| = -1.*", "", line) for line in self.calls if "(INJECTED)" in line]
        shutil.rmtree(self.folder)


OLDER = "legal 22 version 2"


def older(program, made={}):
    """A history that is there before."""
    if not made:
        made["folder"] = tempfile.TemporaryDirectory(prefix="refheap-calls-")
        made["path"] = os.path.join(made["folder"].name, "older")
        subprocess.run([program, "run", "--save", made["path"]], input=b"stat\n" * 20, stdout=subprocess.DEVNULL, check=True)
    return made["path"]


# ---- All lives

def count(calls):
    """How often each thread made each kind of call, by the lines of a log. The first thread is the first."""
    threads = collections.defaultdict(collections.Counter)
    for line in calls:
        found = CALL.match(line)
        if found:
            threads[found.group(1)][found.group(2)] += 1
    return threads


def loaded(program):
    """How many calls of each kind are made before the program's own first one: those of `refheap version`, up to where it writes."""
    with tempfile.NamedTemporaryFile("r", encoding="utf-8") as log:
        subprocess.run(["strace", "-f", "-qq", "-o", log.name, program, "version"], stdout=subprocess.DEVNULL, check=True)
        lines = log.read().splitlines()
    first = next(number for number, line in enumerate(lines) if " write(1" in line)
    return next(iter(count(lines[:first]).values()))


def numbers(first, last, most):
    """Numbers from the first to the last, thinned out to a most."""
    all_numbers = range(first, last + 1)
    if len(all_numbers) <= most:
        return list(all_numbers)
    return sorted({all_numbers[round(step * (len(all_numbers) - 1) / (most - 1))] for step in range(most)})


def highest(threads):
    """How often the thread that makes most calls of a kind makes them, and how often all do."""
    most, total = collections.Counter(), collections.Counter()
    for counts in threads.values():
        total.update(counts)
        for kind, times in counts.items():
            most[kind] = max(most[kind], times)
    return most, total


def plans(program, most):
    """For each kind of call, at the start and later: how often it is made, its rows, the numbers to fail, and how many the loader makes."""
    started, later = Life(program, []).play(), Life(program, [], True).play()
    if started.met or later.met:
        raise Wrong(f"with nothing failing: {sorted(started.met | later.met)}")
    last = max(number for number, line in enumerate(started.calls) if " clone3(" in line)
    start = next(iter(count(started.calls[:last + 1]).values()))
    before = loaded(program)
    times, total = highest(count(later.calls))
    planned = {kind for row in TABLE for kind in row.kinds.split()}
    for kind in sorted(set(start) | set(times)):
        if kind in LEFT_OUT:
            continue
        if kind not in planned:
            raise Wrong(f"the table has no row for {kind}")
        rows = [row for row in TABLE if kind in row.kinds.split()]
        yield kind, False, start[kind] - before[kind], rows, numbers(before[kind] + 1, start[kind], most)
        yield kind, True, total[kind], rows, numbers(1, times[kind], most)


def judge_ignored(life, must):
    """A failing call on a file for which the table says what it leads to has led to that."""
    for files, due in must.items():
        for call in life.failed:
            if re.search(rf'/({files})[">]', call) and not life.met & due:
                raise Wrong(f"{call} led to {sorted(life.met) or 'nothing'}, due is one of {sorted(due)}")


def one_life(program, kind, error, number, later, row):
    """A life with a call failing. What was met, and which calls failed."""
    tracing = ["-e", f"trace={kind}", "-e", f"inject={kind}:error={error}:when={number}"]
    life = Life(program, tracing if later else ["--seccomp-bpf", *tracing], later, row.at if later else "")
    may = row.may - {UNSTARTED} if later else row.may
    try:
        life.play()
        if not life.met <= may:
            raise Wrong(f"{sorted(life.met - may)}{life.left if LEFT in life.met else ''}")
        named = [name for name in life.left if any(f'/{name}"' in call for call in life.failed)]
        if kind != "listen" and named != life.left:
            raise Wrong(f"{life.left} left, of which a failing call was to remove {named}")
        judge_ignored(life, row.must)
    except Wrong as wrong:
        raise Wrong(f"{kind} {number} {error} {'behind' if later else 'at'} the start: {wrong}; failed: {life.failed or 'none'}") from None
    return life.met or {"nothing is seen"} if life.failed else {"not met"}, life.failed


def try_row(program, kind, error, which, later, row, asked):
    """The lives of a kind and an error, some beside each other: how often what was met, or none where something was wrong."""
    def tried(number):
        try:
            return one_life(program, kind, error, number, later, row)
        except Wrong as wrong:
            print(f"WRONG   {wrong}", flush=True)
            return None

    with concurrent.futures.ThreadPoolExecutor(asked.jobs) as pool:
        lives = list(pool.map(tried, which))
    if asked.verbose:
        for number, life in zip(which, lives):
            if life:
                print(f"        {kind} {number} {error}: {', '.join(sorted(life[0]))}; {life[1]}", flush=True)
    return None if None in lives else collections.Counter(what for met, _ in lives for what in met)


def try_kind(program, kind, later, total, rows, which, asked):
    """All lives of a kind, at the start or behind it. Whether all went as they may."""
    right = True
    place = "behind the start" if later else "at the start"
    for row in rows if which else []:
        for error in row.errors.split():
            told = try_row(program, kind, error, which, later, row, asked)
            if told is None:
                right = False
                continue
            says = ", ".join(f"{what} {times}" for what, times in sorted(told.items()))
            print(f"ok      {kind} {place} ({total} calls) {error}, {len(which)} lives: {says}", flush=True)
    return right


def main():
    parser = argparse.ArgumentParser(description=__doc__.splitlines()[0])
    parser.add_argument("program")
    parser.add_argument("--kinds", default="")
    parser.add_argument("--numbers", type=int, default=25)
    parser.add_argument("--jobs", type=int, default=2)
    parser.add_argument("--verbose", action="store_true")
    asked = parser.parse_args()
    if not shutil.which("strace"):
        print("left    each system call failing: strace is missing here")
        return 0
    program = os.path.abspath(asked.program)
    wanted = asked.kinds.split(",") if asked.kinds else None
    right = True
    try:
        for kind, later, total, rows, which in list(plans(program, asked.numbers)):
            if wanted is None or kind in wanted:
                right = try_kind(program, kind, later, total, rows, which, asked) and right
    except Wrong as wrong:
        print(f"WRONG   {wrong}")
        right = False
    return 0 if right else 1


if __name__ == "__main__":
    sys.exit(main())
