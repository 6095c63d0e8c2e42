#!/usr/bin/env python3
"""Counts the functions through which `weak 1 0` goes in a session of its own, and their files and crates, by callgrind (valgrind).

    checks/walk.py PROGRAM [--list]

The program is to be built without inlining, in crates/refheap: rt run --backend rattle --opt-level 0 -- run --cells 16 < /dev/null
Counted is each function of the repository in which a session takes more instructions where it has one such command more
(bench/instructions.py). Functions of the libraries, drops and closures are left out. --list names each.
"""
import argparse
import glob
import os
import re
import sys

ROOT = os.path.join(os.path.dirname(os.path.abspath(__file__)), "..")
sys.path.append(os.path.join(ROOT, "bench"))

from instructions import counted, more

STAGE = ["queue", "new -", "weak 2 1", "weak 2 0"]


def plain(name):
    """The path of a function, without the types that it is made for; none where it is no function of the repository, or a drop or closure."""
    path = re.sub(r"::<.*", "", name)
    crate = path.partition("::")[0]
    is_ours = os.path.isdir(os.path.join(ROOT, "crates", crate))
    return path if is_ours and "+" not in path and "::fn::" not in path else None


def file_of(path):
    """The file in which a function stands: that of the longest front of its path that is a module, or another of its crate that has its name."""
    crate, *words = path.split("::")
    source = os.path.join(ROOT, "crates", crate, "src")
    modules = [os.path.join(source, *words[:length]) + ".rt" for length in range(len(words), 0, -1)]
    first = next(filter(os.path.isfile, modules), os.path.join(source, "lib.rt"))
    others = sorted(glob.glob(os.path.join(source, "**", "*.rt"), recursive=True))
    made = re.compile(rf"\bfn {re.escape(words[-1])}\b")
    for file in [first, *others]:
        with open(file, encoding="utf-8") as text:
            if made.search(text.read()):
                return os.path.relpath(file, os.path.join(ROOT, "crates"))
    return os.path.relpath(first, os.path.join(ROOT, "crates"))


def main():
    parser = argparse.ArgumentParser(usage="checks/walk.py PROGRAM [--list]")
    parser.add_argument("program")
    parser.add_argument("--list", action="store_true")
    asked = parser.parse_args()
    once, twice = (counted(asked.program, ["--cells", "1024"], STAGE + ["weak 2 0"] * count) for count in (1, 2))
    walk = {plain(name) for name, count in more(twice, once).items() if name and count > 0} - {None}
    files = {file_of(path) for path in walk}
    crates = {path.partition("::")[0] for path in walk}
    if asked.list:
        for path in sorted(walk):
            print(f"{path}  {file_of(path)}")
    print(f"{len(walk)} functions in {len(files)} files of {len(crates)} crates")


if __name__ == "__main__":
    main()
