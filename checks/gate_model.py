#!/usr/bin/env python3
"""Predicts the clock and the memory of a gate from nothing, by what each crate took in a measured one. Proves nothing.

    python3 checks/gate_model.py [--processors N] [--memory GB] [--list]

follows the order in which `rt ci` starts its checks if the number of lanes is set, as checks/gate_times.py does. The
figures are those of checks/gate_costs.txt, which `checks/gate_times.py --write-costs` writes. --list prints each check.
"""
import argparse
import os
import sys

sys.dont_write_bytecode = True
import crate_plan  # noqa: E402
import machine  # noqa: E402

ROOT = crate_plan.ROOT
COSTS = os.path.join(ROOT, "checks", "gate_costs.txt")
KINDS = ("proofs", "tests", "edits")
# The memory for each lane, in MiB, and the share of the free memory under which the sum of all checks stays.
LANE_MIB = 4500
USED = 0.9
# What the check after a crate's edits takes of an edit: it proves the crate again over what is kept.
LAST = 0.4


def read_costs(path=COSTS):
    """What each crate took: for each kind of check its processor seconds and the memory of its largest process."""
    costs = {}
    if os.path.exists(path):
        with open(path, encoding="utf-8") as lines:
            for line in lines:
                words = line.partition("#")[0].split()
                if words:
                    numbers = list(map(float, words[1:]))
                    costs[words[0]] = dict(zip(KINDS, zip(numbers[::2], numbers[1::2])))
    return costs


def write_costs(rows, path=COSTS):
    """Writes the table anew, under its first lines of comment."""
    with open(path, encoding="utf-8") as lines:
        head = [line for line in lines if line.startswith("#")]
    with open(path, "w", encoding="utf-8") as file:
        file.writelines(head)
        for crate in (it for it in crate_plan.crate_lines() if it in rows):
            pairs = (rows[crate].get(kind, (0, 0)) for kind in KINDS)
            file.write(f"{crate:24}" + "".join(f"{seconds:7.0f}{mib:7.0f}" for seconds, mib in pairs) + "\n")


def lines_of(crate):
    """The lines of a crate's .rt files, by which `rt ci` finds the longest chain."""
    found = 0
    for part in ("src", "specs", "proofs"):
        for at, _, files in os.walk(os.path.join(ROOT, "crates", crate, part)):
            for name in files:
                if name.endswith(".rt"):
                    with open(os.path.join(at, name), "rb") as file:
                        found += file.read().count(b"\n")
    return found


def edits_of(crate):
    """The number of a crate's must-fail edits."""
    folder = os.path.join(ROOT, "crates", crate, "must-fail")
    return sum(it.endswith(".edit") for it in os.listdir(folder)) if os.path.isdir(folder) else 0


class Task:
    """A check: what it waits for, the lines by which it is ranked, its seconds and its memory."""

    def __init__(self, waits, lines, seconds, memory):
        self.waits, self.lines, self.seconds, self.memory = waits, lines, seconds, memory


def edit_tasks(crate, count, row, below, lines):
    """The checks that a crate's edits take. Several begin with a check of the crate, and end with one."""
    seconds, memory = row["edits"]
    proved = [(crate, "proofs"), (crate, "tests")]
    if count == 1:
        return {(crate, "edits", 0): Task(proved, lines, seconds, memory)}
    first = min(row["proofs"][0], seconds / 2)
    each = (seconds - first) / (count + LAST)
    tasks = {(crate, "seed"): Task(below, 0, first, row["proofs"][1])}
    for at in range(count):
        tasks[crate, "edits", at] = Task([*proved, (crate, "seed")], lines, each, memory)
    tasks[crate, "last"] = Task([it for it in tasks if it[1] == "edits"], 0, LAST * each, memory)
    return tasks


def tasks_of(crates, costs):
    """All checks, as `rt ci` lists them."""
    deep = {name: crate_plan.closure(crates, [name])[:-1] for name in crates}
    tasks = {}
    for name in sorted(crates, key=lambda it: len(deep[it])):
        row = costs.get(name) or dict.fromkeys(KINDS, (60, 1500))
        below, lines, count = [(it, "proofs") for it in deep[name]], lines_of(name), edits_of(name)
        tasks[name, "proofs"] = Task(below, lines, *row["proofs"])
        tasks[name, "tests"] = Task(below, lines if row["tests"][0] else 0, *row["tests"])
        if count:
            tasks.update(edit_tasks(name, count, row, below, lines))
    return tasks


def in_order(tasks):
    """The checks in the order in which they are tried: proofs before edits, the longest chain of lines first."""
    behind = dict.fromkeys(tasks, 0)
    for key in reversed(list(tasks)):
        behind[key] += tasks[key].lines
        for it in tasks[key].waits:
            behind[it] = max(behind[it], behind[key])
    return sorted(tasks, key=lambda it: (it[1] in ("edits", "seed"), -behind[it]))


class Outcome:
    """What a gate comes to: its clock, its processor seconds, the largest sum of memory, and when each check ran."""

    def __init__(self):
        self.clock, self.busy, self.memory, self.at, self.said = 0.0, 0.0, 0.0, (), []


def model(tasks, lanes):
    """Follows the checks through this number of lanes."""
    left, running, done, found = in_order(tasks), {}, set(), Outcome()
    while left or running:
        for key in [it for it in left if done.issuperset(tasks[it].waits)]:
            if len(running) < lanes:
                left.remove(key)
                running[key] = found.clock + tasks[key].seconds
                found.said.append((found.clock, running[key], key))
        memory = sum(tasks[it].memory for it in running)
        if memory > found.memory:
            found.memory, found.at = memory, tuple(running)
        ends = min(running.values())
        found.busy += (ends - found.clock) * len(running)
        found.clock = ends
        for key in [it for it in running if running[it] <= ends]:
            done.add(key)
            del running[key]
    return found


def lanes_for(processors, memory, tasks=None):
    """The lanes for a gate: one for each 4.5 GB, at most one a processor, and fewer if the sum of the memory that the
    checks took would not stay under nine tenths of what is free."""
    lanes = max(min(processors, int(memory // LANE_MIB)), 1)
    while tasks and lanes > 1 and model(tasks, lanes).memory > USED * memory:
        lanes -= 1
    return lanes


def main():
    """Prints what the model says."""
    parser = argparse.ArgumentParser(description=__doc__, formatter_class=argparse.RawDescriptionHelpFormatter)
    parser.add_argument("--processors", type=int, default=machine.processors(), help=argparse.SUPPRESS)
    parser.add_argument("--memory", type=float, help=argparse.SUPPRESS)
    parser.add_argument("--list", action="store_true", help=argparse.SUPPRESS)
    asked = parser.parse_args()
    memory = asked.memory * 1024 if asked.memory else machine.free_memory()
    tasks = tasks_of(crate_plan.read_crates(), read_costs())
    lanes = lanes_for(asked.processors, memory, tasks)
    found = model(tasks, lanes)
    for begun, ended, key in found.said if asked.list else ():
        print(f"{begun / 60:6.1f} to {ended / 60:6.1f}: {' '.join(map(str, key))}")
    print(f"{found.clock / 60:.0f} minutes in {lanes} lanes, {found.busy / 60:.0f} processor minutes,"
          f" lanes busy {100 * found.busy / found.clock / lanes:.0f} in a hundred")
    print(f"at most {found.memory / 1024:.1f} of {memory / 1024:.1f} GB:"
          f" {', '.join(' '.join(map(str, it)) for it in found.at)}")


if __name__ == "__main__":
    main()
