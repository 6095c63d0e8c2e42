#!/usr/bin/env python3
"""Checks that the version is the same wherever it stands.

    checks/versions.py [PROGRAM]

The version of the program stands in a constant of crates/jlr_commands/src/manual.rt. The macros of refheap.h, the
first version of CHANGELOG.md and the README have to agree with it. The Makefile, the pkg-config file and the name of
the shared library take theirs from the header. With PROGRAM, a built refheap, `refheap version` and `refheap --version`
have to print one same line. Ends with status 1 if a place differs.
"""
import os
import re
import subprocess
import sys

ROOT = os.path.dirname(os.path.dirname(os.path.abspath(__file__)))
SOURCE = "crates/jlr_commands/src/manual.rt"
HEADER = "examples/embed_c/refheap.h"
FORMATS = "trace files 1 and 2"


def read(path):
    with open(os.path.join(ROOT, path), encoding="utf-8") as file:
        return file.read()


def version_in_source():
    """The versions in the string constants of the source, and whether they name the formats of trace files."""
    texts = re.findall(r"""^(?:pub )?const \w+: &(?:'static )?str =\s*"([^"]*)\"""", read(SOURCE), re.M)
    return sorted(set(re.findall(r"\d+\.\d+\.\d+", " ".join(texts)))), FORMATS in " ".join(texts)


def version_in_header():
    """The version as a text, and as its three numbers."""
    text = read(HEADER)
    whole = re.findall(r'^#define REFHEAP_VERSION "(.*)"$', text, re.M)
    parts = re.findall(r"^#define REFHEAP_VERSION_(?:MAJOR|MINOR|PATCH) (\d+)$", text, re.M)
    return whole, [".".join(parts)]


def places():
    """Each place with the versions that stand there."""
    whole, parts = version_in_header()
    yield HEADER, whole
    yield f"{HEADER}, in numbers", parts
    yield "CHANGELOG.md", re.findall(r"^## \[(\d.*?)\]", read("CHANGELOG.md"), re.M)[:1]
    yield "README.md", re.findall(r"version (\d+\.\d+\.\d+)", read("README.md"))


def outputs(program):
    """What the program prints and how it ends, by each of the two ways."""
    for word in "version", "--version":
        ran = subprocess.run([program, word], capture_output=True, text=True, timeout=60, check=False)
        yield f"refheap {word}", (ran.stdout, ran.stderr, ran.returncode)


def main():
    if "--help" in sys.argv[1:]:
        print(__doc__)
        return 0
    found, has_formats = version_in_source()
    rows = [(SOURCE, found, found[:1] if len(found) == 1 else ["one version"])]
    version = found[0] if len(found) == 1 else version_in_header()[0][0]
    rows.append((f"{SOURCE}, formats of trace files", has_formats, True))
    rows += [(place, versions, [version]) for place, versions in places()]
    if len(sys.argv) > 1:
        due = (f"refheap {version}, {FORMATS}\n", "", 0)
        rows += [(place, output, due) for place, output in outputs(os.path.abspath(sys.argv[1]))]
    failed = [place for place, got, due in rows if got != due]
    for place, got, due in rows:
        print(f"ok      {place}" if got == due else f"WRONG   {place}: {got}, due {due}")
    return 1 if failed else 0


if __name__ == "__main__":
    sys.exit(main())
