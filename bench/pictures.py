#!/usr/bin/env python3
"""Draws the pictures of docs/PERFORMANCE.md as SVG, from what it measures.

    bench/pictures.py collections [--program crates/refheap/out/refheap] [--cells 16384] [--rounds 31] [--told FILE] > docs/collections.svg
    bench/pictures.py latency [--program crates/refheap/out/refheap] [--requests 40000] > docs/latency.svg
    bench/pictures.py beside [--program crates/refheap/out/refheap] [--told FILE] > docs/beside.svg

`collections` runs bench/collect.py with 100, 50 and 10 in a hundred objects live, and draws the median of the ratios to the plain
mark-sweep: below 1 refheap is the faster one. `latency` starts a server with one client that makes and drops objects, each request
after the reply to the one before, and draws how long each took; lines show where a background cycle is due (a quarter of the cells was
taken) and where the history is cut (it holds as many entries as `--trace` says). What was measured stands in the picture as a comment;
with `--told` the first picture is drawn from a file of such lines (`live 50: chain: .. ratio 1.08`).
`beside` draws the distributions of bench/latency.py, a row for each of what a client is beside; with `--told` those that a file of its lines has.
"""
import argparse
import os
import re
import socket
import statistics
import subprocess
import sys
import tempfile
import time
from math import log10

HERE = os.path.dirname(os.path.abspath(__file__))
LINE = re.compile(r"live (\d+): (\w+): .*?ratio ([\d.]+)")
BESIDE = re.compile(r"(\w+, [\d,]+ cells), beside (.+): ([\d., ]+) us")
SHARES = (100, 50, 10)
COLOURS = {"chain": "#33658a", "tree": "#55a630", "graph": "#f6ae2d"}
STYLE = "<style>text{font:12px sans-serif;fill:#333}.heading{font-weight:bold}.small{font-size:10px}</style>"


def svg(width, height, parts, comment):
    """A whole picture."""
    head = f'<svg xmlns="http://www.w3.org/2000/svg" width="{width}" height="{height}" viewBox="0 0 {width} {height}">'
    return "\n".join([head, f"<!-- {comment} -->", STYLE, f'<rect width="{width}" height="{height}" fill="white"/>', *parts, "</svg>"])


def text(x, y, words, anchor="start", kind=""):
    return f'<text x="{x:.0f}" y="{y:.0f}" text-anchor="{anchor}" class="{kind}">{words}</text>'


def line(x, y, to_x, to_y, colour="#999", dashes=""):
    return f'<line x1="{x:.1f}" y1="{y:.1f}" x2="{to_x:.1f}" y2="{to_y:.1f}" stroke="{colour}" stroke-dasharray="{dashes}"/>'


# ---- Collections


def measured(program, cells, rounds):
    """The lines of bench/collect.py, each behind its live share."""
    said = []
    for share in SHARES:
        words = [sys.executable, os.path.join(HERE, "collect.py"), "--program", program, "--cells", str(cells), "--live", str(share), "--rounds", str(rounds)]
        out = subprocess.run(words, check=True, capture_output=True, text=True).stdout
        said += [f"live {share}: {row}" for row in out.splitlines()]
    return said


def collections(said, cells):
    """Bars of the ratios, in groups by live share."""
    ratios = {share: {} for share in SHARES}
    for match in LINE.finditer("\n".join(said)):
        ratios[int(match[1])][match[2]] = float(match[3])
    width, height, left, base, scale = 560, 320, 50, 270, 110
    parts = [text(left, 22, f"A full collection beside a plain mark-sweep, {cells:,} cells", kind="heading")]
    for mark in (0.5, 1.0, 1.5, 2.0):
        y = base - mark * scale
        parts += [line(left, y, width - 20, y, "#c1121f" if mark == 1 else "#ddd"), text(left - 8, y + 4, f"{mark}", "end")]
    for group, share in enumerate(SHARES):
        x = left + 20 + group * 165
        for place, (shape, ratio) in enumerate(ratios[share].items()):
            high = min(ratio, 2.1) * scale
            parts.append(f'<rect x="{x + place * 44}" y="{base - high:.1f}" width="38" height="{high:.1f}" fill="{COLOURS[shape]}"/>')
            parts.append(text(x + place * 44 + 19, base - high - 4, f"{ratio:.2f}", "middle", "small"))
            parts.append(text(x + place * 44 + 19, base + 14, shape, "middle", "small"))
        parts.append(text(x + 63, base + 34, f"{share} in 100 live", "middle"))
    parts.append(line(left, base, width - 20, base, "#333"))
    return svg(width, height, parts, "; ".join(said))


# ---- Latency


CHAIN = (b"new r\n", b"put 2 0 1\n", b"drop 1\n", b"dup 2\n", b"drop 2\n")


class Client:
    """One session of a server, a request at a time."""

    def __init__(self, path):
        self.socket = socket.socket(socket.AF_UNIX)
        self.socket.connect(path)

    def ask(self, request):
        """The reply, and the microseconds to it."""
        begin = time.perf_counter_ns()
        self.socket.sendall(request)
        reply = self.socket.recv(512)
        return reply, (time.perf_counter_ns() - begin) / 1000


def request_times(program, cells, trace, requests):
    """Microseconds of each request: `new rr`, and the drop of it, by turns, over a heap of which a chain takes an eighth."""
    with tempfile.TemporaryDirectory() as folder:
        path = os.path.join(folder, "socket")
        words = [program, "serve", "--socket", path, "--total", "1", "--sessions", "1", "--cells", str(cells), "--trace", str(trace)]
        server = subprocess.Popen(words, stdout=subprocess.DEVNULL)
        while not os.path.exists(path):
            time.sleep(0.01)
        client = Client(path)
        client.ask(b"new r\n")
        for _ in range(cells // 8):
            for request in CHAIN:
                client.ask(request)
        times = []
        for _ in range(requests // 2):
            reply, took = client.ask(b"new rr\n")
            times.append(took)
            _, took = client.ask(b"drop " + reply[2:])
            times.append(took)
        client.ask(b"bye\n")
        server.wait()
    return times


def latency(times, cells, trace):
    """The shortest to the longest of the requests of each column, on a scale of powers of ten, with the lines where something is due."""
    width, height, left, top, base = 900, 360, 60, 40, 310
    most, least = 10_000.0, 1.0
    across = (width - left - 20) / len(times)

    def depth(took):
        return base - (base - top) * (log10(max(least, min(most, took))) - log10(least)) / (log10(most) - log10(least))

    parts = [text(left, 20, f"How long each of {len(times):,} requests of one client took, {cells:,} cells", kind="heading")]
    for mark in (1, 10, 100, 1000, 10000):
        parts += [line(left, depth(mark), width - 20, depth(mark), "#ddd"), text(left - 6, depth(mark) + 4, f"{mark:,} us", "end", "small")]
    made, asked = 1 + cells // 8, 2 + cells // 8 * len(CHAIN)
    for place in range((cells // 4 - made) * 2, len(times), cells // 4 * 2):
        parts.append(line(left + place * across, top, left + place * across, base, "#55a630", "4 3"))
    for place in range(trace - asked % trace, len(times), trace):
        parts.append(line(left + place * across, top, left + place * across, base, "#c1121f", "1 3"))
    columns = [[] for _ in range(width - 20 - left)]
    for place, took in enumerate(times):
        columns[min(int(place * across), len(columns) - 1)].append(depth(took))
    spans = "".join(f"M{left + x} {max(column):.0f}V{min(column) - 1:.0f}" for x, column in enumerate(columns) if column)
    parts.append(f'<path d="{spans}" stroke="#33658a" fill="none"/>')
    in_order = sorted(times)
    told = ", ".join(f"{name} {in_order[int(len(times) * share)]:.0f} us" for name, share in (("half", 0.5), ("99 in 100", 0.99), ("999 in 1,000", 0.999)))
    parts.append(text(left, base + 22, f"within: {told}, all {in_order[-1]:.0f} us", kind="small"))
    parts.append(text(left, base + 40, "green: about where a cycle is due; red: a cut of the history", kind="small"))
    return svg(width, height, parts, f"mean {statistics.mean(times):.1f} us, {told}, the longest {in_order[-1]:.0f} us; {cells} cells, cut at {trace} entries")


# ---- Beside others


def beside(said):
    """A part for each heap, and in it a row for each of what a client is beside: a line from the median to the longest, a mark at 99 and 99.9 in 100."""
    heaps = {}
    for match in BESIDE.finditer("\n".join(said)):
        heaps.setdefault(match[1], []).append((match[2], [float(took) for took in match[3].split(", ")]))
    width, left, top = 760, 160, 56
    height = top + sum(34 + 16 * len(rows) for rows in heaps.values())

    def along(took):
        return left + (log10(max(took, 5)) - log10(5)) * (width - left - 30) / (5 - log10(5))

    parts = [
        text(20, 20, "How long a request of one client takes beside others", kind="heading"),
        text(20, 36, "dot: half; short marks: 99 and 99.9 in 100; end of the line: the longest", kind="small"),
    ]
    y = top
    for heap, rows in heaps.items():
        parts.append(text(20, y + 14, heap, kind="heading"))
        for mark in (10, 100, 1_000, 10_000, 100_000):
            parts += [line(along(mark), y + 18, along(mark), y + 20 + 16 * len(rows), "#ddd"), text(along(mark), y + 14, f"{mark:,} us", "middle", "small")]
        for place, (name, (half, most, nearly, longest)) in enumerate(rows):
            middle = y + 28 + 16 * place
            parts += [text(left - 8, middle + 4, name, "end", "small"), line(along(half), middle, along(longest), middle, "#33658a")]
            parts += [line(along(took), middle - 4, along(took), middle + 4, "#33658a") for took in (most, nearly)]
            parts.append(f'<circle cx="{along(half):.1f}" cy="{middle}" r="3" fill="#33658a"/>')
        y += 34 + 16 * len(rows)
    return svg(width, height, parts, "; ".join(row.replace("--", "") for row in said))


def main():
    arguments = argparse.ArgumentParser(description=__doc__, formatter_class=argparse.RawDescriptionHelpFormatter)
    arguments.add_argument("picture", choices=("collections", "latency", "beside"))
    arguments.add_argument("--program", default=os.path.join(HERE, "..", "crates", "refheap", "out", "refheap"))
    arguments.add_argument("--cells", type=int)
    arguments.add_argument("--rounds", type=int, default=31)
    arguments.add_argument("--told", help="a file of lines to draw from")
    arguments.add_argument("--trace", type=int, default=4000)
    arguments.add_argument("--requests", type=int, default=40_000)
    given = arguments.parse_args()
    if given.picture == "collections":
        cells = given.cells or 16384
        if given.told:
            with open(given.told, encoding="utf-8") as told:
                said = told.read().splitlines()
        else:
            said = measured(given.program, cells, given.rounds)
        print(collections(said, cells))
    elif given.picture == "beside":
        if given.told:
            with open(given.told, encoding="utf-8") as told:
                said = told.read().splitlines()
        else:
            words = [sys.executable, os.path.join(HERE, "latency.py"), given.program]
            said = subprocess.run(words, check=True, capture_output=True, text=True).stdout.splitlines()
        print(beside(said))
    else:
        cells = given.cells or 16384
        print(latency(request_times(given.program, cells, given.trace, given.requests), cells, given.trace))


if __name__ == "__main__":
    main()
