#!/usr/bin/env python3
"""Holds the width of lines: specs, clauses and comments have at most 120 columns, proofs at most 140.

    checks/columns.py

Texts in quotes, rows of tests, tables in comments and attributes stay as they are. Ends with status 1 where a line is wider.
"""
import glob
import os
import re
import sys

ROOT = os.path.join(os.path.dirname(os.path.abspath(__file__)), "..")
WIDTHS = {"specs/**/*.antt": 120, "proofs/**/*.antt": 140, "src/**/*.rt": 120}


def is_prose_or_clause(lines):
    """For each line of a source whether it is a comment, or stands in a clause or a ghost item."""
    depth = 0
    for line in lines:
        begins = re.match(r"\s*((pub )?ghost |ensures\b|requires\b)", line)
        comment = re.match(r"\s*//", line) and "|" not in line
        yield bool(comment or begins or depth > 0)
        if begins or depth > 0:
            depth = max(depth + line.count("{") - line.count("}"), 0)


def wide(path, most):
    with open(path, encoding="utf-8") as file:
        lines = file.read().splitlines()
    counts = is_prose_or_clause(lines) if path.endswith(".rt") else [True] * len(lines)
    for number, (line, counted) in enumerate(zip(lines, counts), 1):
        if counted and len(line) > most:
            yield f"{os.path.relpath(path, ROOT)}:{number} has {len(line)} columns, and may have {most}"


def main():
    found = [
        line
        for pattern, most in WIDTHS.items()
        for path in sorted(glob.glob(os.path.join(ROOT, "crates/*", pattern), recursive=True))
        for line in wide(path, most)
    ]
    print("\n".join(found) if found else "ok      no line is too wide")
    sys.exit(bool(found))


if __name__ == "__main__":
    main()
