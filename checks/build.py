#!/usr/bin/env python3
"""Proves and builds the program, crate by crate from below, on all processors. `make` calls it.

    python3 checks/build.py [CRATE..]

builds the named crates, and what they stand on; by default the program, refheap. It starts a crate as soon as what it
stands on is built, the longest chain of crates first, and as many at once as processors and memory allow. What was
built before and has not changed is kept. Ctrl-C ends it; what was proved by then is kept for the next build.

    --jobs N            uses N processors (default: all that this process may use)
    --memory GB         takes at most so much memory (default: nine tenths of what is free)
    --model             builds nothing: prints what would start when, by checks/crate_costs.txt, if nothing were built
    --write-costs       after the build, writes what the crates took that it proved from nothing into that table

It reports progress on standard error: one line on a terminal, else a line for each crate. If a crate is not proved, it
prints what `rt` said of it, ends the others, and exits with status 1.
"""
import argparse
import ctypes
import fcntl
import hashlib
import os
import shutil
import signal
import subprocess
import sys
import tempfile
import time

sys.dont_write_bytecode = True
import crate_plan  # noqa: E402
import machine  # noqa: E402
from crate_view import ROOT, Texts, View, command_of, folder_of  # noqa: E402

# The processors go first to the crates that lead; the others run with this niceness.
NICE = 5
SAMPLED_SECONDS = 6
ENDS_WITH_PARENT = 1  # prctl's PR_SET_PDEATHSIG


def start(view, words, nice):
    """Starts `rt` in a view, in a process group of its own. It ends when this script does."""
    library = ctypes.CDLL(None)

    def prepare():
        os.setpgrp()
        os.nice(nice)
        library.prctl(ENDS_WITH_PARENT, signal.SIGKILL)

    return subprocess.Popen(words, cwd=view.folder, stdin=subprocess.DEVNULL, stdout=view.said,
                            stderr=subprocess.STDOUT, preexec_fn=prepare)


class Run:
    """A crate that is being built."""

    def __init__(self, view, words, jobs, nice):
        self.view, self.jobs, self.began = view, jobs, time.monotonic()
        self.is_new = not os.path.exists(os.path.join(folder_of(view.name), "out", "incremental"))
        self.process = start(view, words, nice)
        self.seconds, self.alone, self.largest, self.clock = 0.0, 0.0, 0, 0.0

    def look(self, found):
        """Takes note of what its processes took so far, and gives the memory that they take now."""
        own = self.process.pid
        pids = [pid for pid in (own, *machine.descendants(own, found)) if pid in found]
        self.seconds = sum(found[pid].seconds for pid in pids)
        # the process that `rt` starts gives jobs to others, and waits for them
        first = sum(found[pid].own_seconds for pid in pids if pid == own or found[pid].parent == own)
        self.alone = max(self.alone, first)
        return machine.memory_of(pids, found)

    def poll(self):
        """The exit status once it has ended, or None."""
        pid, status, usage = os.wait4(self.process.pid, os.WNOHANG)
        if not pid:
            return None
        self.process.returncode = os.waitstatus_to_exitcode(status)
        self.clock = time.monotonic() - self.began
        self.seconds = usage.ru_utime + usage.ru_stime
        self.largest = usage.ru_maxrss // 1024
        return self.process.returncode

    def is_measured(self):
        """Whether this run proved the whole crate."""
        said = self.view.output()
        return self.is_new and "logic=proved" in said and "begins with what a check kept" not in said

    def stop(self):
        """Ends it and all that it started."""
        found = machine.processes()
        pids = [self.process.pid, *machine.descendants(self.process.pid, found)]
        self.process.kill()
        self.process.wait()
        for _ in range(50):
            now = machine.processes()
            left = [pid for pid in pids if pid in now and now[pid].began == found[pid].began]
            if not left:
                return
            for pid in left:
                try:
                    os.kill(pid, signal.SIGKILL)
                except OSError:
                    pass
            time.sleep(0.1)


class Progress:
    """What is told on standard error."""

    def __init__(self):
        self.is_terminal, self.began = sys.stderr.isatty(), time.monotonic()

    def elapsed(self):
        """The seconds since the start."""
        return time.monotonic() - self.began

    def line(self, text):
        """A line that stays."""
        print(f"{chr(13)}{chr(27)}[K{text}" if self.is_terminal else text, file=sys.stderr, flush=True)

    def now(self, text):
        """On a terminal, the line that the next one replaces."""
        if self.is_terminal:
            width = shutil.get_terminal_size().columns - 1
            print(f"{chr(13)}{chr(27)}[K{text[:width]}", end="", file=sys.stderr, flush=True)


def clock(seconds):
    """Seconds as minutes and seconds."""
    return f"{int(seconds) // 60}:{int(seconds) % 60:02}"


class Builder:
    """Builds crates side by side, each once all that it stands on is built."""

    def __init__(self, crates, order, asked, place):
        self.place, self.limit = place, asked.memory
        self.texts, self.runs, self.progress = Texts(crates), {}, Progress()
        kept = [name for name in order if self.texts.is_kept(name)]
        costs = crate_plan.with_guesses(crate_plan.read_costs(), order)
        self.plan = crate_plan.Plan(crates, order, costs, asked.jobs, kept)
        self.crates, self.order, self.kept = crates, order, len(kept)
        self.measured, self.known, self.told = {}, [0.0, 0.0], 0.0
        self.largest, self.sum, self.busy, self.sampled = (0, ""), 0, 0.0, 0.0
        self.memory = self.may_take(0)

    def may_take(self, ours):
        """The memory that the crates may take together, where they take `ours` now."""
        return min((machine.free_memory() + ours) * crate_plan.USED, self.limit or float("inf"))

    def sample(self):
        """Looks at what the running crates take."""
        if time.monotonic() - self.sampled < SAMPLED_SECONDS:
            return
        found = machine.processes()
        self.sampled, ours = time.monotonic(), sum(run.look(found) for run in self.runs.values())
        self.sum, self.memory = max(self.sum, ours), self.may_take(ours)

    def left(self):
        """The seconds that are left by the table, at the speed of what was built so far."""
        seconds = crate_plan.model(self.plan, self.memory, {it: run.seconds for it, run in self.runs.items()})[0]
        known, took = self.known
        return seconds * (took / known if known > 60 else 1)

    def begin(self):
        """Starts what can start now."""
        while (found := self.plan.next(self.memory)):
            name, jobs = found
            view = View(self.place, name, crate_plan.closure(self.crates, [name])[:-1])
            nice = 0 if name in self.plan.leading else NICE
            self.runs[name] = Run(view, command_of(name, jobs), jobs, nice)

    def end(self, name, status):
        """A crate that has ended: its line, or what was said of it. Gives whether it is built."""
        run, cost = self.runs.pop(name), self.plan.costs[name]
        said, is_same, is_measured = run.view.output(), run.view.is_same_below(), run.is_measured()
        run.view.give_back()
        if status or not is_same:
            self.progress.line(f"{name}: not proved" if status else f"{name}: files changed meanwhile: build again")
            sys.stdout.write(said if status else "")
            return False
        self.texts.keep(name)
        self.plan.end(name)
        self.busy += run.seconds
        self.largest = max(self.largest, (run.largest, name))
        if is_measured:
            self.measured[name] = crate_plan.measured(run.seconds, run.alone, run.jobs, run.largest, cost)
            self.known = [self.known[0] + cost.alone + cost.shared, self.known[1] + run.seconds]
        took = f"{run.clock:.0f} s, {run.seconds:.0f} processor seconds in {run.jobs} jobs, {run.largest} MiB"
        self.progress.line(f"{name}: {took}; {len(self.plan.done)} of {len(self.order)} crates, {self.times()}")
        return True

    def times(self):
        """How long it has taken so far, and how long it takes in all."""
        elapsed = self.progress.elapsed()
        return f"{clock(elapsed)} of about {clock(elapsed + self.left())}"

    def tell(self):
        """The line of progress."""
        if self.progress.is_terminal and time.monotonic() - self.told >= 1:
            self.told, running = time.monotonic(), sorted(self.runs, key=lambda it: -self.plan.behind[it])
            done = f"{len(self.plan.done)} of {len(self.order)} crates"
            self.progress.now(f"{done}, {self.times()}: {', '.join(running)}")

    def run(self):
        """All of them; the first that is not proved ends it. Gives whether all are built."""
        self.progress.line(f"{len(self.order)} crates, {self.kept} of them built before; about {clock(self.left())}"
                           f" on {self.plan.cpus} processors with {self.memory / 1024:.1f} GB")
        try:
            while self.plan.waiting or self.runs:
                self.sample()
                self.begin()
                self.tell()
                time.sleep(0.5)
                for name, run in list(self.runs.items()):
                    status = run.poll()
                    if status is not None and not self.end(name, status):
                        return False
            return True
        finally:
            self.leave()

    def stop(self):
        """Ends what still runs; what it proved is kept."""
        for run in self.runs.values():
            run.stop()
            run.view.give_back()
        self.runs = {}

    def leave(self):
        """Ends what still runs, and removes the folder for views."""
        self.stop()
        if not os.listdir(self.place):
            os.rmdir(self.place)

    def summary(self, wanted):
        """The last line."""
        elapsed = max(self.progress.elapsed(), 0.1)
        if self.busy:
            share = 100 * self.busy / elapsed / self.plan.cpus
            self.progress.line(
                f"{self.busy / 60:.0f} processor minutes, processors busy {share:.0f} in a hundred; largest process"
                f" {self.largest[0]} MiB ({self.largest[1]}), all together {self.sum} MiB")
        self.progress.line(f"built in {clock(elapsed)}: {' '.join(wanted)}")


def lock(order):
    """Waits until no `rt` works in these crates. Others wait, as for `rt` itself, while the result is held."""
    held = []
    for name in sorted(order):
        held.append(os.open(folder_of(name), os.O_RDONLY))
        try:
            fcntl.flock(held[-1], fcntl.LOCK_EX | fcntl.LOCK_NB)
        except BlockingIOError:
            print(f"waiting for an rt that works in crates/{name}", file=sys.stderr, flush=True)
            fcntl.flock(held[-1], fcntl.LOCK_EX)
    return held


def place_for_views(order):
    """The folder for views, on the tree's own file system where git has its folder there. It is the same each time,
    since `rt` takes note of each folder in which it worked. What a killed build left is removed."""
    git = os.path.join(ROOT, ".git")
    name = f"refheap-build-{os.getuid()}-{hashlib.sha256(ROOT.encode()).hexdigest()[:16]}"
    place = os.path.join(git if os.path.isdir(git) else tempfile.gettempdir(), name)
    os.makedirs(place, 0o700, exist_ok=True)
    for crate in order:
        shutil.rmtree(os.path.join(place, crate), ignore_errors=True)
    return place


def show_model(crates, order, asked):
    """Prints what would start when."""
    costs = crate_plan.with_guesses(crate_plan.read_costs(), order)
    memory = asked.memory or machine.free_memory() * crate_plan.USED
    seconds, busy, said = crate_plan.model(crate_plan.Plan(crates, order, costs, asked.jobs), memory)
    for begun, ended, name, jobs in sorted(said):
        print(f"{clock(begun):>6} to {clock(ended):>6}, {jobs} jobs: {name}")
    print(f"{clock(seconds)} on {asked.jobs} processors with {memory / 1024:.1f} GB,"
          f" busy {100 * busy / seconds / asked.jobs:.0f} in a hundred")


def interrupt(*_):
    """Any signal to end is as Ctrl-C."""
    raise KeyboardInterrupt


def build(crates, order, asked):
    """Builds, and gives the exit status."""
    for number in (signal.SIGTERM, signal.SIGHUP):
        signal.signal(number, interrupt)
    try:
        _held = lock(order)
        builder = Builder(crates, order, asked, place_for_views(order))
        if not builder.run():
            return 1
        builder.summary(asked.crates)
        if asked.write_costs:
            crate_plan.write_costs(builder.measured)
        return 0
    except KeyboardInterrupt:
        print("\ninterrupted; what was proved is kept", file=sys.stderr)
        return 130


def arguments(crates):
    """Reads the command line."""
    parser = argparse.ArgumentParser(description=__doc__, formatter_class=argparse.RawDescriptionHelpFormatter)
    parser.add_argument("--jobs", type=int, default=machine.processors(), help=argparse.SUPPRESS)
    parser.add_argument("--memory", type=float, help=argparse.SUPPRESS)
    parser.add_argument("--model", action="store_true", help=argparse.SUPPRESS)
    parser.add_argument("--write-costs", action="store_true", help=argparse.SUPPRESS)
    parser.add_argument("crates", nargs="*", default=["refheap"], help=argparse.SUPPRESS)
    asked = parser.parse_args()
    for name in asked.crates:
        if name not in crates:
            parser.error(f"crates.txt has no crate {name}")
    asked.memory, asked.jobs = (asked.memory or 0) * 1024, max(asked.jobs, 1)
    return asked


def main():
    """Reads the command line, and builds."""
    crates = crate_plan.read_crates()
    asked = arguments(crates)
    order = crate_plan.closure(crates, asked.crates)
    if asked.model:
        show_model(crates, order, asked)
        return 0
    return build(crates, order, asked)


if __name__ == "__main__":
    sys.exit(main())
