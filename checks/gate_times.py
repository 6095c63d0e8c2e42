#!/usr/bin/env python3
"""Runs the gate, or another command, with the lanes that the machine has room for, and tells what its checks took.

    python3 checks/gate_times.py [--write-costs] [COMMAND..]

runs `rt ci` if no command is given. The command's output and exit status pass through unchanged; all that this script
adds goes to standard error. It sets RT_JOBS, unless that is set: one lane for each 4.5 GB of free memory (limits of
control groups count), at most one a processor, and fewer if the sum of the memory of all checks would not stay under
nine tenths of what is free, by gate_model.py. Meanwhile it reports progress: one line on a terminal, else a line for
each crate.

Then it prints, crate by crate, the processor seconds of proofs, tests and must-fail edits, and the memory of the
largest process; the processor minutes; how busy the processors were; the largest sum of the memory of all processes;
and which edits break a rule of edits.py, which does not change the exit status. --write-costs writes the crates'
figures into checks/gate_costs.txt, if nothing was kept from an earlier run.

A check of tests has the flag --test, and an edit is checked in a folder rt-edit-*. The processes are looked at twice a
second, so that of a check the last half second may be missing.
"""
import os
import re
import select
import shutil
import signal
import subprocess
import sys
import time

sys.dont_write_bytecode = True
import edits  # noqa: E402
import gate_model  # noqa: E402
import crate_plan  # noqa: E402
import machine  # noqa: E402

KINDS = ("proofs", "tests", "edits", "builds")
CLEAR = "\r\x1b[K"
# What `rt ci` says of a run that took nothing from an earlier one.
NOTHING_KEPT = "every proof and must-fail edit was done in this run"

# Processor seconds that the proofs of some crates took on 26 November 2026, on a machine as fast as the one on which
# the bound of docs/gate.md was set. A crate is taken off the list once its files change, since it tells nothing of the
# machine any more.
REFERENCE = {
    "jlr_resource": 31,
    "jlr_soft": 9,
    "jlr_sweep": 20,
    "jlr_types": 32,
}


def words_of(pid):
    """The command line of a process, or none where it has ended."""
    try:
        with open(f"/proc/{pid}/cmdline", "rb") as file:
            return file.read().decode("utf-8", "replace").split("\0")
    except OSError:
        return []


def purpose_of(pid, words):
    """The crate that a process works on and why, or none where it is no work of the toolchain."""
    tool = os.path.basename(words[0]) if words else ""
    if tool not in ("rattle", "clang", "ld.lld"):
        return None
    if tool != "rattle":
        return "(compiling)", "builds"
    named = re.search(r"--crate-name\s(\S+)", " ".join(words))
    if not named:
        return None
    if "/rt-edit-" in os.readlink(f"/proc/{pid}/cwd"):
        return named[1], "edits"
    if "--crate-checked" in words:
        return named[1], "builds"
    return named[1], "tests" if "--test" in words else "proofs"


class Watch:
    """What the processes of the command took so far."""

    def __init__(self, root):
        self.root, self.seen, self.largest = root, {}, 0

    def look(self):
        """Takes note of each process of the command that runs now."""
        found = machine.processes()
        pids = [pid for pid in (self.root, *machine.descendants(self.root, found)) if pid in found]
        self.largest = max(self.largest, machine.memory_of(pids, found, self.largest))
        for pid in pids:
            it, key = found[pid], (pid, found[pid].began)
            try:
                purpose = purpose_of(pid, words_of(pid))
            except OSError:
                continue
            if purpose:
                # What a check gives to copies of itself they count themselves.
                self.seen[key] = purpose, it.own_seconds, max(it.memory, self.seen.get(key, (0, 0, 0))[2])

    def seconds(self):
        """The processor seconds so far."""
        return sum(it[1] for it in self.seen.values())

    def table(self):
        """For each crate and each kind of check the processor seconds and the memory of the largest process."""
        table = {}
        for (crate, kind), seconds, peak in self.seen.values():
            row = table.setdefault(crate, {it: (0, 0) for it in KINDS})
            row[kind] = row[kind][0] + seconds, max(row[kind][1], peak)
        return table


class Progress:
    """How far the command is, by the lines that it prints."""

    def __init__(self, lanes, words):
        self.began, self.is_terminal = time.monotonic(), sys.stderr.isatty()
        self.crates, self.proved, self.lines = crate_plan.read_crates(), set(), b""
        named = crate_plan.closure(self.crates, [it for it in words if it in self.crates])
        self.crates = {it: self.crates[it] for it in named or self.crates}
        self.costs = gate_model.read_costs()
        self.seconds = sum(self.takes(crate) for crate in self.crates)
        tasks = gate_model.tasks_of(self.crates, self.costs)
        self.clock = gate_model.model(tasks, lanes).clock
        self.kept, self.now, self.is_shown = 0.0, 0.0, False

    def takes(self, crate):
        """The processor seconds of a crate in the table."""
        return sum(seconds for seconds, _ in self.costs.get(crate, {}).values())

    def hear(self, said):
        """Reads what the command printed. Gives whether another crate is proved."""
        *lines, self.lines = (self.lines + said).split(b"\n")
        before = len(self.proved)
        for line in lines:
            found = re.match(r"rt: (\w+) (proved$|is kept: )", line.decode("utf-8", "replace"))
            if found and found[1] in self.crates:
                self.proved.add(found[1])
                self.kept += self.takes(found[1]) if found[2] != "proved" else 0
        return len(self.proved) > before

    def times(self, used):
        """How long it has taken, and about how long it takes in all. What is kept takes nothing."""
        elapsed = time.monotonic() - self.began
        left = max(self.seconds - self.kept - used, 0) / max(self.seconds, 1) * self.clock
        return (f"{len(self.proved)} of {len(self.crates)} crates proved,"
                f" {elapsed / 60:.0f} of about {(elapsed + left) / 60:.0f} minutes")

    def show(self, watch):
        """On a terminal, the line that the next one replaces."""
        if self.is_terminal and time.monotonic() - self.now >= 1:
            self.now, self.is_shown = time.monotonic(), True
            width = shutil.get_terminal_size().columns - 1
            print(f"{CLEAR}{self.times(watch.seconds())}"[:width], end="", file=sys.stderr, flush=True)

    def hide(self):
        """Takes that line away."""
        if self.is_shown:
            print(CLEAR, end="", file=sys.stderr, flush=True)
            self.is_shown = False


def pass_on(command, progress, watch, seconds):
    """Passes on what the command prints within this time, and gives it, or None at its end."""
    if not select.select([command.stdout], [], [], seconds)[0]:
        return b""
    said = os.read(command.stdout.fileno(), 1 << 16)
    if not said:
        return None
    progress.hide()
    sys.stdout.buffer.write(said)
    sys.stdout.buffer.flush()
    if progress.hear(said) and not progress.is_terminal:
        print(progress.times(watch.seconds()), file=sys.stderr, flush=True)
    return said


def follow(command, progress, watch):
    """Waits for the command. Gives its output, its exit status and its processor seconds."""
    output, is_open, looked = [], True, 0.0
    while True:
        if is_open:
            said = pass_on(command, progress, watch, 0.5)
            is_open = said is not None
            output.append(said or b"")
        else:
            time.sleep(0.5)
        if time.monotonic() - looked >= 0.5:
            looked = time.monotonic()
            watch.look()
            progress.show(watch)
        pid, status, usage = os.wait4(command.pid, os.WNOHANG)
        if pid:
            break
    while is_open and (said := pass_on(command, progress, watch, 0)):
        output.append(said)
    progress.hide()
    command.returncode = os.waitstatus_to_exitcode(status)
    return b"".join(output).decode("utf-8", "replace"), command.returncode, usage.ru_utime + usage.ru_stime


def tell(table):
    """Writes the table, the dearest crate first, and how fast the machine is if crates were proved that tell it."""
    lines = [("crate", *KINDS, "MiB")]
    sums = {crate: sum(seconds for seconds, _ in row.values()) for crate, row in table.items()}
    for crate, row in sorted(table.items(), key=lambda it: -sums[it[0]]):
        peak = max(mib for _, mib in row.values())
        lines.append((crate, *(f"{row[kind][0]:.0f}" for kind in KINDS), f"{peak}"))
    total = [f"{sum(row[kind][0] for row in table.values()):.0f}" for kind in KINDS]
    lines.append(("all", *total, ""))
    for line in lines:
        print(f"{line[0]:24}" + "".join(f"{it:>9}" for it in line[1:]), file=sys.stderr)
    proved = {crate: row["proofs"][0] for crate, row in table.items() if row["proofs"][0]}
    if REFERENCE.keys() <= proved.keys():
        slowness = sum(proved[crate] for crate in REFERENCE) / sum(REFERENCE.values())
        minutes = sum(sums.values()) / 60
        print(f"{minutes:.0f} processor minutes; this machine takes {slowness:.2f} times as long as the one of the"
              f" bound: {minutes / slowness:.0f} there", file=sys.stderr)


def processor_ticks():
    """The ticks of all processors since the machine began, and those of them that its host gave to others."""
    with open("/proc/stat") as file:
        ticks = [int(it) for it in file.readline().split()[1:9]]
    return sum(ticks), ticks[7]


class Machine:
    """What the machine had at the start, and what came of it."""

    def __init__(self):
        self.began, self.free, self.processors = time.monotonic(), machine.free_memory(), machine.processors()
        self.ticks = processor_ticks()
        tasks = gate_model.tasks_of(crate_plan.read_crates(), gate_model.read_costs())
        given = os.environ.get("RT_JOBS", "")
        self.lanes = int(given) if given.isdigit() else 0
        self.lanes = self.lanes or gate_model.lanes_for(self.processors, self.free, tasks)
        print(f"{self.lanes} lanes, of {self.processors} processors and {self.free / 1024:.1f} GB free",
              file=sys.stderr, flush=True)

    def tell(self, seconds, largest):
        """The clock, how busy the processors were, and the memory."""
        elapsed = max(time.monotonic() - self.began, 0.1)
        ticks, stolen = (now - then for now, then in zip(processor_ticks(), self.ticks))
        share, busy = 100 * stolen / max(ticks, 1), 100 * seconds / elapsed / self.processors
        print(f"{elapsed / 60:.1f} minutes on {self.processors} processors, of whose time others had {share:.1f} in a"
              f" hundred; this run kept them busy {busy:.0f} in a hundred ({seconds / 60:.0f} processor minutes)",
              file=sys.stderr)
        share = 100 * largest / max(self.free, 1)
        print(f"largest sum of the memory of all processes: {largest / 1024:.1f} GB, {share:.0f} in a hundred of the"
              f" {self.free / 1024:.1f} GB free at the start (at most {100 * gate_model.USED:.0f})", file=sys.stderr)


def end_with(command):
    """Has signals that end this script end the command."""
    def pass_signal(number, _):
        command.send_signal(number)

    for number in (signal.SIGINT, signal.SIGTERM, signal.SIGHUP):
        if signal.getsignal(number) is not signal.SIG_IGN:
            signal.signal(number, pass_signal)


def main():
    """Runs the command, and gives its exit status."""
    words = sys.argv[1:]
    if words[:1] in (["--help"], ["-h"]):
        print(__doc__.strip())
        return 0
    writes, words = words[:1] == ["--write-costs"], words[1:] if words[:1] == ["--write-costs"] else words
    found = Machine()
    progress = Progress(found.lanes, words)
    environment = {**os.environ, "RT_JOBS": str(found.lanes)}
    command = subprocess.Popen(words or ["rt", "ci"], stdout=subprocess.PIPE, env=environment)
    end_with(command)
    watch = Watch(command.pid)
    output, status, seconds = follow(command, progress, watch)
    table = watch.table()
    tell(table)
    # If the command was killed, the system does not count what it had started.
    found.tell(max(seconds, watch.seconds()), watch.largest)
    for line in edits.findings(output):
        print(line, file=sys.stderr)
    if writes and NOTHING_KEPT in output:
        gate_model.write_costs(table)
    elif writes:
        print("checks/gate_costs.txt is as it was: not all was proved in this run", file=sys.stderr)
    return status


if __name__ == "__main__":
    sys.exit(main())
