#!/usr/bin/env python3
"""Tests checks/gate_times.py with commands that prove nothing, checks/gate_model.py and checks/edits.py.

    python3 checks/test_gate.py
"""
import os
import signal
import subprocess
import sys
import tempfile
import time
import unittest

sys.dont_write_bytecode = True
import edits  # noqa: E402
import gate_model  # noqa: E402

HERE = os.path.dirname(os.path.abspath(__file__))
# What stands for a check of the toolchain: it has the name and the words of one, works for a second and holds 200 MB.
CHECK = """
import os, subprocess, sys
code = "import time; held = bytearray(200 << 20)\\nwhile time.process_time() < 1.2: pass"
def check(*words, cwd="."):
    subprocess.run(["/kit/rattle", "-c", code, *words], executable=sys.executable, cwd=cwd, check=True)
"""


def run(code, *words, **environment):
    """Runs a script in place of `rt ci`."""
    command = [sys.executable, os.path.join(HERE, "gate_times.py"), *words, sys.executable, "-c", code]
    return subprocess.run(command, capture_output=True, env={**os.environ, **environment}, timeout=60)


class Gates(unittest.TestCase):
    """What gate_times.py does of a command."""

    def test_output_and_status_pass_through(self):
        ran = run("import sys; print('rt: jlr_types proved'); print('\\xff no text'); sys.stdout.flush(); sys.exit(3)")
        self.assertEqual(ran.returncode, 3)
        self.assertEqual(ran.stdout, "rt: jlr_types proved\n\xff no text\n".encode())
        self.assertIn(b"1 of ", ran.stderr)

    def test_a_killed_command_fails(self):
        self.assertNotEqual(run("import os; os.kill(os.getpid(), 9)").returncode, 0)

    def test_lanes_are_set_unless_they_are(self):
        code = "import os; print(os.environ['RT_JOBS'])"
        self.assertGreater(int(run(code, RT_JOBS="").stdout), 0)
        self.assertEqual(run(code, RT_JOBS="7").stdout, b"7\n")

    def test_the_seconds_and_the_memory_of_each_crate(self):
        with tempfile.TemporaryDirectory(prefix="rt-edit-") as edit:
            ran = run(CHECK + "check('check', '--crate-name', 'one')\n"
                      "check('build', '--crate-name', 'one', '--test')\n"
                      f"check('check', '--crate-name', 'two', cwd={edit!r})")
        rows = {line.split()[0]: line.split()[1:] for line in ran.stderr.decode().splitlines() if line}
        self.assertAlmostEqual(int(rows["one"][0]), 1, delta=1)
        self.assertAlmostEqual(int(rows["one"][1]), 1, delta=1)
        self.assertEqual(rows["one"][2], "0")
        self.assertAlmostEqual(int(rows["two"][2]), 1, delta=1)
        self.assertGreater(int(rows["two"][4]), 200)
        self.assertIn(b"largest sum of the memory of all processes: 0.2 GB", ran.stderr)

    def test_a_signal_ends_the_command(self):
        command = [sys.executable, os.path.join(HERE, "gate_times.py"), "sleep", "600"]
        begun = subprocess.Popen(command, stderr=subprocess.PIPE)
        begun.stderr.readline()
        time.sleep(1)
        begun.send_signal(signal.SIGTERM)
        begun.communicate(timeout=10)
        self.assertNotEqual(begun.returncode, 0)


class Models(unittest.TestCase):
    """The clock and the memory of a gate, by its checks."""

    def test_a_chain_and_what_runs_beside_it(self):
        task = gate_model.Task
        tasks = {("low", "proofs"): task([], 10, 60, 1000), ("top", "proofs"): task([("low", "proofs")], 10, 60, 1000),
                 ("low", "tests"): task([], 5, 90, 3000)}
        found = gate_model.model(tasks, 2)
        self.assertEqual((found.clock, found.busy, found.memory), (120, 210, 4000))
        self.assertEqual(gate_model.model(tasks, 1).clock, 210)

    def test_a_lane_less_where_memory_would_not_do(self):
        tasks = {(name, "proofs"): gate_model.Task([], 1, 60, 5000) for name in "abcd"}
        self.assertEqual(gate_model.lanes_for(4, 64000, tasks), 4)
        self.assertEqual(gate_model.lanes_for(4, 20000, tasks), 3)
        self.assertEqual(gate_model.lanes_for(4, 9500, tasks), 1)
        self.assertEqual(gate_model.lanes_for(2, 64000, tasks), 2)
        self.assertEqual(gate_model.lanes_for(4, 1000), 1)


class Edits(unittest.TestCase):
    """What edits.py says of the output of a gate."""

    def findings(self, files, said):
        """The findings, in a repository with these files."""
        with tempfile.TemporaryDirectory() as top:
            for path, text in files.items():
                path = os.path.join(top, "crates", "low", path)
                os.makedirs(os.path.dirname(path), exist_ok=True)
                with open(path, "w", encoding="utf-8") as file:
                    file.write(text)
            before, edits.ROOT = edits.ROOT, top
            try:
                return edits.findings(f"rt: low proved\nrt: must-fail low/wrong.edit: {said}\n")
            finally:
                edits.ROOT = before

    source = {"src/table.rt": "impl Table {\n    pub fn find(&self) -> u32\n    {\n        1\n    }\n}\n"}
    left = "refused, as it must be: note: src/table.rt:4:9: it is not proved that it holds (`returns-clause-x`)"

    def test_a_goal_without_an_answer(self):
        found = self.findings(self.source, self.left)
        self.assertEqual(found[0], "edit low/wrong.edit: `returns-clause-x` of find in src/table.rt has no answer")
        self.assertEqual(found[1], "1 of 1 edits break a rule of checks/edits.py")

    def test_a_goal_with_an_answer(self):
        answers = "pub returns-clause-x : goal.x\nreturns-clause-x g c =\n    grind (arith, common_steps)\n"
        files = {**self.source, "proofs/table/Table/find/Answers.antt": answers}
        self.assertEqual(self.findings(files, self.left), ["0 of 1 edits break a rule of checks/edits.py"])

    def test_an_answer_that_is_a_search(self):
        answers = "pub returns-clause-x : goal.returns-clause-x\nreturns-clause-x g c = search rules\n"
        files = {**self.source, "proofs/table/Table/find/Answers.antt": answers}
        self.assertIn("is a search alone", self.findings(files, self.left)[0])
        said = "refused, as it must be: ./proofs/table/Table/find/Answers.antt:2:26: error: `returns-clause-x`: no"
        self.assertIn("is a search alone", self.findings(files, said)[0])
        files["proofs/table/Table/find/Answers.antt"] = answers.replace("search rules", "refl")
        self.assertEqual(len(self.findings(files, said)), 1)

    def test_an_assignment_over_a_book(self):
        for text, wrong in (("locked.book = other;", 1), ("let book = other;", 0), ("*self.core = other;", 1),
                            ("drop(std::mem::replace(&mut locked.book, other));", 0), ("if book == other {", 0)):
            found = self.findings({"must-fail/wrong.edit": f"file: src/a.rt\nold: a\nnew: {text}\n"},
                                  "refused, as it must be: ./proofs/a/Answers.antt:1:1: error: `x`: no")
            self.assertEqual(len(found), 1 + wrong, text)

    def test_an_edit_that_shows_nothing(self):
        for said in ("refused, as it must be (only by a limit of the prover, which gave no verdict): x", "BAD EDIT: x",
                     "refused, as it must be"):
            self.assertEqual(len(self.findings({}, said)), 2, said)


if __name__ == "__main__":
    unittest.main()
