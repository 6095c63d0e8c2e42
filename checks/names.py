#!/usr/bin/env python3
"""Holds that a name means one thing: no two modules of specs define the same name, and of the words that told nothing of a proof file, Standing and
Counting, each is left to one crate at most. Holds too that lib.rt tells of its crate in at most 15 lines, and that no folder has more than 40 files.

    checks/names.py

Ends with status 1 where a name has two meanings.
"""
import collections
import glob
import os
import re
import sys

ROOT = os.path.join(os.path.dirname(os.path.abspath(__file__)), "..")
DEFINES = re.compile(r"\s*(?:abbrev pub|pub abbrev|pub opaque|opaque pub|pub record|pub data) (\w+)\b")
VAGUE = ("Standing", "Counting")
MOST_LINES = 15
MOST_FILES = 40


def doubles():
    """Each name that two modules define, with them."""
    places = collections.defaultdict(set)
    for path in glob.glob(os.path.join(ROOT, "crates/*/specs/*.antt")):
        parts = path.split(os.sep)
        with open(path, encoding="utf-8") as file:
            for line in file:
                if found := DEFINES.match(line):
                    places[found[1]].add(f"{parts[-3]}/{parts[-1]}")
    for name, modules in sorted(places.items()):
        if len(modules) > 1:
            yield f"{name} is defined in {', '.join(sorted(modules))}"


def vague():
    """Each proof file whose name stands for several."""
    for name in VAGUE:
        paths = sorted(glob.glob(os.path.join(ROOT, f"crates/*/proofs/{name}.antt")))
        if len(paths) > 1:
            yield f"{len(paths)} proof files are called {name}: {', '.join(path.split(os.sep)[-3] for path in paths)}"


def long_heads():
    for path in sorted(glob.glob(os.path.join(ROOT, "crates/*/src/lib.rt"))):
        with open(path, encoding="utf-8") as file:
            lines = sum(line.startswith("//!") for line in file)
        if not 1 <= lines <= MOST_LINES:
            yield f"{os.path.relpath(path, ROOT)} has {lines} lines about its crate"


def full_folders():
    for folder, _, files in os.walk(os.path.join(ROOT, "crates")):
        if "/out" not in folder and len(files) > MOST_FILES:
            yield f"{os.path.relpath(folder, ROOT)} has {len(files)} files"


def main():
    found = [*doubles(), *vague(), *long_heads(), *full_folders()]
    print("\n".join(found) if found else "ok      each name means one thing")
    sys.exit(bool(found))


if __name__ == "__main__":
    main()
