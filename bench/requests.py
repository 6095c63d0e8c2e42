#!/usr/bin/env python3
"""Requests a second over a Unix socket, of 1, 4, 16 and 64 clients, each waiting for each reply: `refheap serve`, and in turn with it an echo server
with one lock, compiled and run beside it: with as many workers, and with a new thread for each client. Medians of 51 short runs, or as many as the
second argument says: where the system puts the threads changes a run by a factor of two.

    bench/requests.py PROGRAM [ROUNDS]
"""
import os
import statistics
import subprocess
import sys
import tempfile
import time

ROUNDS = 51
# Of all clients together.
REQUESTS = 40_000
HERE = os.path.dirname(os.path.abspath(__file__))


def started(words, path):
    process = subprocess.Popen(words, stdout=subprocess.DEVNULL)
    while not os.path.exists(path):
        time.sleep(0.01)
    return process


def rate(tool, words, path, clients):
    """Requests a second of a server that is started for it."""
    process = started(words, path)
    each = REQUESTS // clients
    seconds = float(subprocess.check_output([tool, "ask", path, str(clients), str(each)]))
    process.kill()
    process.wait()
    os.unlink(path)
    return clients * each / seconds


def main(program, rounds=ROUNDS):
    with tempfile.TemporaryDirectory() as folder:
        tool = os.path.join(folder, "requests")
        subprocess.check_call(["rustc", "-O", "-o", tool, os.path.join(HERE, "requests.rs")])
        path = os.path.join(folder, "socket")
        for clients in (1, 4, 16, 64):
            served = [program, "serve", "--socket", path, "--total", "1000", "--sessions", str(clients)]
            sides = {"refheap": served, "workers": [tool, "echo", path, str(clients)], "threads": [tool, "echo", path, "0"]}
            rates = {side: [] for side in sides}
            for _ in range(int(rounds)):
                for side, words in sides.items():
                    rates[side].append(rate(tool, words, path, clients))
            ours, workers, threads = (statistics.median(rates[side]) for side in sides)
            print(
                f"{clients} clients: refheap {ours:,.0f} a second, echo with workers {workers:,.0f}, {ours / workers:.2f} of it, "
                f"with threads {threads:,.0f}, {ours / threads:.2f} of it"
            )


if __name__ == "__main__":
    if len(sys.argv) < 2:
        sys.exit(__doc__)
    main(*sys.argv[1:])
