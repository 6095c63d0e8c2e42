#!/usr/bin/env python3
"""Tests checks/build.py with an `rt` that proves nothing: it sleeps, and writes what it was told.

    python3 checks/test_build.py

Each test has a small repository of its own.
"""
import fcntl
import json
import os
import pty
import shutil
import signal
import subprocess
import sys
import tempfile
import time
import unittest

sys.dont_write_bytecode = True
import crate_plan  # noqa: E402
import machine  # noqa: E402

HERE = os.path.dirname(os.path.abspath(__file__))
SCRIPTS = ("build.py", "crate_plan.py", "crate_view.py", "machine.py")
CRATES = """
low:                 # below all
left: low std_alloc
right: low
other: low
top: left right
program: top other
"""
COSTS = """# seconds, seconds, MiB
low 1 1 100
left 2 8 100
right 1 1 100
other 1 1 100
top 1 4 200
program 1 1 300
"""
# What stands for `rt`: it notes when it begins and ends, with its words, and fails where the crate's text has the word.
RT = """#!/usr/bin/env python3
import json, os, subprocess, sys, time
if sys.argv[1] == "version":
    print("a kit")
    sys.exit()
name, log = os.path.basename(os.getcwd()), os.environ["RT_LOG"]
text = open("src/main.rt" if os.path.exists("src/main.rt") else "src/lib.rt").read()
def note(**what):
    with open(log, "a") as file:
        file.write(json.dumps({"name": name, "at": time.monotonic(), "words": sys.argv[1:], **what}) + "\\n")
note(event="begin")
for line in open("../../crates.txt"):
    other = line.partition(":")[0].split()[0]
    if other != name and not os.path.exists(f"../{other}/out/rlib/stamp"):
        sys.exit(f"{other} is not built")
subprocess.run(["sleep", "60" if "SLEEPS" in text else "0.3"], check=True)
if "FAILS" in text:
    print(f"{os.getcwd()}/src/lib.rt: error: a wrong body")
    sys.exit(1)
os.makedirs("out/rlib", exist_ok=True)
os.makedirs("out/incremental", exist_ok=True)
open("out/incremental/work", "w").write(text)
open(f"out/{name}.stamp" if sys.argv[1] == "run" else "out/rlib/stamp", "w").write(text)
print("logic=proved")
note(event="end")
"""


class Repository:
    """A repository with the crates above, and a PATH with that `rt`."""

    def __init__(self):
        self.top = tempfile.mkdtemp(prefix="refheap-test-")
        os.makedirs(f"{self.top}/checks")
        os.makedirs(f"{self.top}/bin")
        os.makedirs(f"{self.top}/.git")
        for script in SCRIPTS:
            shutil.copy(os.path.join(HERE, script), f"{self.top}/checks")
        self.write("crates.txt", CRATES)
        self.write("HANDLES", "Handles allowed: none.\n")
        self.write("checks/crate_costs.txt", COSTS)
        self.write("bin/rt", RT)
        os.chmod(f"{self.top}/bin/rt", 0o755)
        for name in crate_plan.crate_lines(self.top):
            self.write(f"crates/{name}/src/{'main' if name == 'program' else 'lib'}.rt", f"crate {name}")
        self.environment = {**os.environ, "PATH": f"{self.top}/bin:{os.environ['PATH']}", "RT_LOG": f"{self.top}/log"}

    def write(self, path, text):
        """Writes a file anew, as an editor does."""
        path = os.path.join(self.top, path)
        os.makedirs(os.path.dirname(path), exist_ok=True)
        if os.path.exists(path):
            os.remove(path)
        with open(path, "w", encoding="utf-8") as file:
            file.write(text)

    def words(self, *words):
        """The command."""
        return [sys.executable, f"{self.top}/checks/build.py", *(words or ("program",))]

    def build(self, *words):
        """Builds, and gives what came of it and what `rt` noted."""
        if os.path.exists(self.environment["RT_LOG"]):
            os.remove(self.environment["RT_LOG"])
        ran = subprocess.run(self.words(*words), env=self.environment, capture_output=True, text=True, timeout=50)
        return ran, self.notes()

    def begin(self, **how):
        """Starts a build."""
        return subprocess.Popen(self.words(), env=self.environment, **how)

    def notes(self):
        """What `rt` noted."""
        if not os.path.exists(self.environment["RT_LOG"]):
            return []
        with open(self.environment["RT_LOG"], encoding="utf-8") as file:
            return [json.loads(line) for line in file]

    def is_quiet(self):
        """Whether no process of a build is left."""
        return not any(self.top in command for command in map(command_of, machine.processes()))


def command_of(pid):
    """The command line and the folder of a process."""
    try:
        with open(f"/proc/{pid}/cmdline", encoding="utf-8", errors="replace") as file:
            return file.read() + os.readlink(f"/proc/{pid}/cwd")
    except OSError:
        return ""


def times(notes, event):
    """When each crate began or ended."""
    return {it["name"]: it["at"] for it in notes if it["event"] == event}


def jobs(notes):
    """The jobs that each crate was given."""
    return {it["name"]: int(it["words"][it["words"].index("--jobs") + 1]) for it in notes if it["event"] == "begin"}


class Builds(unittest.TestCase):
    """What the script does."""

    def setUp(self):
        self.repository = Repository()
        self.addCleanup(shutil.rmtree, self.repository.top, ignore_errors=True)

    def test_a_crate_begins_after_what_it_stands_on(self):
        ran, notes = self.repository.build("--jobs", "4", "program")
        self.assertEqual(ran.returncode, 0, ran.stderr)
        begun, ended = times(notes, "begin"), times(notes, "end")
        for name, below in crate_plan.read_crates(self.repository.top).items():
            for other in below:
                self.assertGreater(begun[name], ended[other], f"{name} after {other}")
        self.assertTrue(os.path.exists(f"{self.repository.top}/crates/program/out/program.stamp"))
        self.assertIn("6 of 6 crates", ran.stderr)

    def test_crates_run_side_by_side(self):
        _, notes = self.repository.build("--jobs", "4", "program")
        begun, ended = times(notes, "begin"), times(notes, "end")
        self.assertLess(begun["right"], ended["left"])
        self.assertLess(begun["other"], ended["left"])

    def test_the_longest_chain_begins_first(self):
        _, notes = self.repository.build("--jobs", "1", "program")
        begun = times(notes, "begin")
        self.assertEqual(sorted(begun, key=begun.get)[:2], ["low", "left"])

    def test_what_is_alone_has_all_processors(self):
        _, notes = self.repository.build("--jobs", "3", "program")
        self.assertEqual(jobs(notes)["low"], 3)
        self.assertEqual(jobs(notes)["program"], 3)

    def test_what_is_built_is_kept(self):
        self.repository.build()
        ran, notes = self.repository.build()
        self.assertEqual((ran.returncode, notes), (0, []))
        self.assertIn("6 of them built before", ran.stderr)

    def test_what_changed_is_built_again_and_what_stands_on_it(self):
        self.repository.build()
        self.repository.write("crates/right/src/lib.rt", "crate right, changed")
        _, notes = self.repository.build()
        self.assertEqual(set(times(notes, "end")), {"right", "top", "program"})
        with open(f"{self.repository.top}/crates/right/out/rlib/stamp", encoding="utf-8") as file:
            self.assertEqual(file.read(), "crate right, changed")

    def test_only_what_is_asked_for_is_built(self):
        _, notes = self.repository.build("right")
        self.assertEqual(set(times(notes, "end")), {"low", "right"})

    def test_a_failure_is_shown_and_ends_the_others(self):
        self.repository.write("crates/left/src/lib.rt", "SLEEPS")
        self.repository.write("crates/right/src/lib.rt", "FAILS")
        ran, notes = self.repository.build("--jobs", "4", "program")
        self.assertEqual(ran.returncode, 1)
        self.assertIn(f"{self.repository.top}/crates/right/src/lib.rt: error: a wrong body", ran.stdout)
        self.assertIn("right: not proved", ran.stderr)
        self.assertNotIn("top", times(notes, "begin"))
        self.assertTrue(self.repository.is_quiet())

    def test_an_interrupt_ends_all(self):
        self.repository.write("crates/left/src/lib.rt", "SLEEPS")
        for number in (signal.SIGINT, signal.SIGTERM):
            begun = self.repository.begin(stderr=subprocess.PIPE)
            self.assertIn(b"6 crates", begun.stderr.readline())
            while "left" not in times(self.repository.notes(), "begin"):
                time.sleep(0.1)
            begun.send_signal(number)
            said = begun.communicate(timeout=20)[1]
            self.assertEqual(begun.returncode, 130)
            self.assertIn(b"interrupted", said)
            self.assertTrue(self.repository.is_quiet())
            os.remove(f"{self.repository.top}/log")

    def test_a_killed_build_leaves_nothing_that_runs(self):
        self.repository.write("crates/left/src/lib.rt", "SLEEPS")
        begun = self.repository.begin(stderr=subprocess.DEVNULL)
        while "left" not in times(self.repository.notes(), "begin"):
            time.sleep(0.1)
        begun.kill()
        begun.wait()
        time.sleep(1)
        self.assertFalse(any("build.py" in it or "/bin/rt" in it for it in map(command_of, machine.processes())
                             if self.repository.top in it))
        self.repository.write("crates/left/src/lib.rt", "crate left")
        self.assertEqual(self.repository.build()[0].returncode, 0)

    def test_a_large_crate_waits_for_memory(self):
        table = "low 1 1 100\nleft 1 1 900\nright 1 1 900\nother 1 1 100\ntop 1 1 100\nprogram 1 1 100\n"
        self.repository.write("checks/crate_costs.txt", table)
        _, notes = self.repository.build("--jobs", "4", "--memory", "1", "program")
        begun, ended = times(notes, "begin"), times(notes, "end")
        first, second = sorted(("left", "right"), key=begun.get)
        self.assertGreater(begun[second], ended[first])

    def test_a_crate_that_is_larger_than_the_memory_runs_alone(self):
        self.repository.write("checks/crate_costs.txt", COSTS.replace("left 2 8 100", "left 2 8 9000"))
        ran, notes = self.repository.build("--jobs", "4", "--memory", "1", "program")
        self.assertEqual(ran.returncode, 0)
        begun, ended = times(notes, "begin"), times(notes, "end")
        for other in ("low", "right", "other", "top", "program"):
            self.assertTrue(begun[other] > ended["left"] or ended[other] < begun["left"], other)

    def test_a_terminal_has_one_line(self):
        ours, theirs = pty.openpty()
        begun = self.repository.begin(stderr=theirs)
        os.close(theirs)
        said = b""
        while True:
            try:
                said += os.read(ours, 1000)
            except OSError:
                break
        os.close(ours)
        self.assertEqual(begun.wait(), 0)
        self.assertRegex(said, rb"\r\x1b\[K\d of 6 crates, 0:0\d of about \d+:\d\d: \w+")

    def test_a_table_is_written(self):
        self.repository.build("--write-costs", "program")
        costs = crate_plan.read_costs(f"{self.repository.top}/checks/crate_costs.txt")
        self.assertEqual(set(costs), set(crate_plan.read_crates(self.repository.top)))
        self.assertLess(costs["left"].alone + costs["left"].shared, 8)

    def test_it_waits_for_an_rt_that_works_in_a_crate(self):
        held = os.open(f"{self.repository.top}/crates/low", os.O_RDONLY)
        fcntl.flock(held, fcntl.LOCK_EX)
        begun = self.repository.begin(stderr=subprocess.PIPE)
        self.assertIn(b"waiting for an rt that works in crates/low", begun.stderr.readline())
        os.close(held)
        begun.communicate(timeout=30)
        self.assertEqual(begun.returncode, 0)

    def test_a_wrong_name_is_refused(self):
        ran, _ = self.repository.build("nothing")
        self.assertEqual(ran.returncode, 2)
        self.assertIn("crates.txt has no crate nothing", ran.stderr)

    def test_the_model_builds_nothing(self):
        ran, notes = self.repository.build("--model", "--jobs", "2", "--memory", "4", "program")
        self.assertEqual((ran.returncode, notes), (0, []))
        self.assertIn("on 2 processors with 4.0 GB", ran.stdout)


class Plans(unittest.TestCase):
    """The order, without any process."""

    crates = {"low": [], "long": ["low"], "short": ["low"], "top": ["long", "short"]}
    costs = {"low": crate_plan.Cost(10, 0, 100), "long": crate_plan.Cost(100, 400, 1000),
             "short": crate_plan.Cost(10, 40, 1000), "top": crate_plan.Cost(600, 0, 1000)}

    def plan(self, cpus):
        return crate_plan.Plan(self.crates, list(self.crates), self.costs, cpus)

    def test_the_clock_of_the_model(self):
        # 10 s, 500 s on one processor with the short one after it, and 600 s
        self.assertAlmostEqual(crate_plan.model(self.plan(1), 9000)[0], 10 + 500 + 50 + 600)
        # 10 s, 100 + 400 / 4 s, and 600 s; the short one takes what is left over
        self.assertAlmostEqual(crate_plan.model(self.plan(4), 9000)[0], 10 + 200 + 600, delta=20)

    def test_no_more_memory_is_planned_than_there_is(self):
        for memory in (1000, 1500, 2500, 4000, 9000):
            plan = self.plan(4)
            while plan.waiting or plan.running:
                while plan.next(memory):
                    pass
                self.assertTrue(plan.space() <= memory or len(plan.running) == 1, memory)
                plan.end(next(iter(plan.running)))

    def test_a_measured_run_becomes_a_row(self):
        row = crate_plan.measured(seconds=100, alone=20, jobs=4, memory=500, before=crate_plan.Cost(1, 1, 1))
        self.assertAlmostEqual(row.seconds(4), 40)
        self.assertAlmostEqual(row.seconds(1), 100)
        alone = crate_plan.measured(seconds=100, alone=100, jobs=1, memory=500, before=crate_plan.Cost(30, 10, 1))
        self.assertAlmostEqual(alone.alone, 75)


if __name__ == "__main__":
    unittest.main()
