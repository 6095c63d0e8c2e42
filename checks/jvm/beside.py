#!/usr/bin/env python3
"""Plays scripts of java.lang.ref calls on Java virtual machines and on refheap, and compares what they answer.

    checks/jvm/beside.py [--program PROGRAM] [--java PATH..] [--collector NAME,..|all] [--count N] [--seed S]
    checks/jvm/beside.py --self-test [--java PATH] [--collector NAME]

The scripts are those of sentences/, written by hand and named by the sentence of the API that they try, and N random
ones of 5 to 200 steps (by default 1,000). What the API fixes has to be answered alike by refheap, by each virtual
machine, and by expected.py. Where the API leaves a choice, the answer has to be one that it allows. A script that
differs is cut down to a shorter one that still does, and printed; the status is 1 then.

PROGRAM is the built refheap, by default crates/refheap/out/refheap if it is there, else refheap-unproved next to it.
--collector takes Serial, Parallel, G1, Z and Shenandoah, by default all that the virtual machine has. --self-test
changes expectations on purpose, and each change has to be found within 200 scripts. Without a java the script says
so and ends with status 0.
"""
import argparse
import glob
import os
import sys
import tempfile
import time
from concurrent.futures import ThreadPoolExecutor

sys.dont_write_bytecode = True
import compare  # noqa: E402
import changed  # noqa: E402
import heap  # noqa: E402
import machines  # noqa: E402
from script import POLICIES, random_script, read_scripts  # noqa: E402

HERE = os.path.dirname(os.path.abspath(__file__))
OUT = os.path.join(HERE, "..", "..", "crates", "refheap", "out")
MACHINES, BATCH, FULL_SCRIPTS, FULL_MEGABYTES = 3, 1000, 100, 16
SELF_TEST_SCRIPTS = 200


def say(what, holds=True):
    print(f"{'ok     ' if holds else 'WRONG  '} {what}", flush=True)
    return holds


def found_program():
    for name in ("refheap", "refheap-unproved"):
        path = os.path.join(OUT, name)
        if os.path.exists(path):
            return path
    sys.exit("no refheap is built; name one by --program")


def by_hand():
    paths = sorted(glob.glob(os.path.join(HERE, "sentences", "*.txt")))
    return [script for path in paths for script in read_scripts(path)]


def at_random(count, seed, policies):
    """Random scripts: each number has one policy."""
    return [random_script(seed + number, policies[number % len(policies)]) for number in range(count)]


def until_full(count, seed):
    """Random scripts that end in a full heap."""
    return [random_script(f"full {seed + number}", "keep", "oom") for number in range(count)]


def by_policy(scripts):
    return [[script for script in scripts if script.policy == policy] for policy in POLICIES]


class Beside:
    """The answers of refheap, made once, and the machines that are held against them."""

    def __init__(self, program, jobs):
        self.program, self.jobs, self.known = program, jobs, {}

    def learn(self, scripts):
        """Has refheap play each script that it has not played."""
        new = {str(script): script for script in scripts if str(script) not in self.known}
        with ThreadPoolExecutor(self.jobs) as pool:
            self.known.update(zip(new, pool.map(lambda script: heap.play(self.program, script), new.values())))

    def holds(self, what, machine, scripts, megabytes=1024):
        """Compares the scripts on one machine."""
        self.learn(scripts)
        start, found = time.monotonic(), compare.Found()
        batches = [of_policy[first:first + BATCH] for of_policy in by_policy(scripts)
                   for first in range(0, len(of_policy), BATCH)]
        with ThreadPoolExecutor(MACHINES) as pool:
            played = pool.map(lambda batch: compare.played(machine, batch, megabytes, found), batches)
            for batch, answers in zip(batches, played):
                compare.batch(batch, answers, [self.known[str(script)] for script in batch], found)
        for script in found.different[:3]:
            print(compare.shrunk(machine, script, self.program, megabytes))
        took = time.monotonic() - start
        return say(f"{machine.collector}: {len(scripts)} {what}: {found} ({took:.0f} s)", not found.different)


def policies_of(machine):
    """The policies that a machine can be held to."""
    return POLICIES if compare.keeps_soft(machine) else ("clear",)


def try_machine(machine, options, beside):
    """All scripts on one Java virtual machine with one collector."""
    policies = policies_of(machine)
    if policies != POLICIES:
        print(f"        {machine.collector} clears the soft references to all softly reachable objects at System.gc()")
    scripts = [script for script in by_hand() if script.policy in policies]
    small = [script for script in scripts if not script.is_full()]
    full = [script for script in scripts if script.is_full()] + until_full(FULL_SCRIPTS, options.seed)
    good = [beside.holds("scripts by hand", machine, small),
            beside.holds("random scripts", machine, at_random(options.count, options.seed, policies))]
    if policies == POLICIES:
        what = f"scripts that end in a full heap of {FULL_MEGABYTES} MB"
        good.append(beside.holds(what, machine, full, FULL_MEGABYTES))
    return all(good)


def try_java(java, options, beside, folder):
    """All scripts on one Java virtual machine, with each of its collectors."""
    print(machines.version(java))
    classes, has = machines.compiled(java, folder), machines.collectors_of(java)
    wanted = has if options.collector == "all" else options.collector.split(",")
    for name in (name for name in wanted if name not in has):
        print(f"left    {name}: this virtual machine does not have it")
    return all([try_machine(machines.Machine(java, classes, name), options, beside) for name in wanted if name in has])


def self_test(java, options, folder):
    """Changes expectations on purpose, and says by which script each change was found."""
    name = "Serial" if options.collector == "all" else options.collector
    machine = machines.Machine(java, machines.compiled(java, folder), name)
    scripts = at_random(SELF_TEST_SCRIPTS, options.seed, policies_of(machine))
    found = {}
    for batch in filter(None, by_policy(scripts)):
        found.update((script, answers) for script, answers in zip(batch, machine.play(batch)[0]))
    good = True
    for change in changed.CHANGES:
        at = next((number for number, script in enumerate(scripts) if script.answers(change)[0] != found[script]), None)
        by = "none" if at is None else f"script {at + 1}"
        good = say(f"{change.__doc__} Found by {by} of {len(scripts)}.", at is not None) and good
    same = all(script.answers()[0] == found[script] for script in scripts)
    return say("The expectations unchanged: no script differs.", same) and good


def main():
    parser = argparse.ArgumentParser(description=__doc__, formatter_class=argparse.RawDescriptionHelpFormatter)
    parser.add_argument("--program")
    parser.add_argument("--java", nargs="+", default=[machines.found_java()])
    parser.add_argument("--collector", default="all")
    parser.add_argument("--count", type=int, default=1000)
    parser.add_argument("--seed", type=int, default=1)
    parser.add_argument("--jobs", type=int, default=os.cpu_count())
    parser.add_argument("--self-test", action="store_true")
    options = parser.parse_args()
    if None in options.java:
        print("left    all: there is no java here")
        return 0
    with tempfile.TemporaryDirectory() as folder:
        if options.self_test:
            return 0 if self_test(options.java[0], options, folder) else 1
        program = options.program or found_program()
        print(os.path.basename(program))
        beside = Beside(program, options.jobs)
        return 0 if all([try_java(java, options, beside, folder) for java in options.java]) else 1


if __name__ == "__main__":
    sys.exit(main())
