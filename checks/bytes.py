#!/usr/bin/env python3
"""Audits the history of a session without a command, 103 bytes, with each byte changed to each other value: 26,264 files of version 1, and one of version 2.

    checks/bytes.py [PROGRAM]
    checks/bytes.py PROGRAM --table

What each audit says was written down once by the plain program as it was first proved, which went through lists where it marks cells today. The table is kept as a
digest, and as a count of each verdict; that each verdict ends with the version of its file is looked at beside it. The second call prints the table, a line a file: the place, the value, and what the audit says.
"""
import collections
import concurrent.futures
import hashlib
import os
import subprocess
import sys
import tempfile

HERE = os.path.dirname(os.path.abspath(__file__))

# A heap of 16 cells and one session, which joins and leaves: its limits, its empty image, and the two entries.
FILE = bytes.fromhex(
    "4a4c5254 01 00000010 01 0010 0000000000000000"
    "00000000 00"
    "00000000 00000000 00000000 00000000 00000000 00000000 00000000"
    "0000000000000001 0000000000000000 0000000000000000 0000000000000000"
    "0000000000000002"
    "00 00 00 00 00"
    "00 01 00 00 00"
)

DIGEST = "e01c6ab884c056d5ce8e99778fcd8559e3deb242a6cb19f2e4f01a522d78bfbf"

# Where the version stands, and the other one that there is.
VERSION, OTHER = 4, 2


def verdict(program, path):
    done = subprocess.run([program, "audit", path], capture_output=True, timeout=600)
    said = (done.stdout + done.stderr).decode().strip().removeprefix("refheap: ")
    return f"{done.returncode} {said}"


def without_version(said):
    """A verdict of a file of version 1 without the end that says so, where it is one."""
    return said.removesuffix(" version 1") if said.startswith(("0 ", "3 ")) else said


def verdicts_at(program, folder, place):
    """What is said of each file that differs at this place."""
    path = os.path.join(folder, str(place))
    lines = []
    for value in range(256):
        if value != FILE[place] and (place, value) != (VERSION, OTHER):
            with open(path, "wb") as file:
                file.write(FILE[:place] + bytes([value]) + FILE[place + 1:])
            lines.append(f"{place} {value} {without_version(verdict(program, path))}\n")
    return lines


def other_version(program, folder):
    """What is said of the same history in version 2."""
    path = os.path.join(folder, "other")
    with open(path, "wb") as file:
        file.write(FILE[:VERSION] + bytes([OTHER]) + FILE[VERSION + 1:])
    return verdict(program, path)


def main():
    words = sys.argv[1:]
    program = os.path.abspath(words[0] if words else os.path.join(HERE, "../crates/refheap/out/refheap"))
    with tempfile.TemporaryDirectory() as folder, concurrent.futures.ThreadPoolExecutor(os.cpu_count()) as pool:
        table = [line for lines in pool.map(lambda place: verdicts_at(program, folder, place), range(len(FILE))) for line in lines]
        other = other_version(program, folder)
    if "--table" in words:
        print("".join(table), end="")
        return
    counts = collections.Counter(line.split(" ", 3)[3].strip() for line in table)
    for said, times in sorted(counts.items()):
        print(f"ok      {said}: {times}")
    if other != "0 legal 2 version 2":
        print(f"WRONG   in version 2: {other}")
        sys.exit(1)
    digest = hashlib.sha256("".join(table).encode()).hexdigest()
    if digest != DIGEST:
        print(f"WRONG   the table's digest is {digest}, due is {DIGEST}")
        sys.exit(1)
    print(f"ok      {len(table)} files are judged as the table says")


main()
