"""A pool of files for several processes: each file has one user at a time, and a file that is forgotten is closed.

    python3 pool.py PROGRAM      PROGRAM is a refheap. Four workers; some files are forgotten, and one worker is killed

It follows the recipe of docs/protocol.md. A file in the pool has a name that was never used before. A worker that wants
a file chooses one of the names, finds the file, and takes the name away: `unbind` succeeds for one worker alone. Since
the name never returns, the worker has taken the file that it found. A file that a worker forgets, or dies with, becomes
unreachable, and the heap closes it. At the limit of open files `open` is refused (`! 19`) until the heap has closed
those that are unreachable: try again.
"""
import multiprocessing
import os
import random
import secrets
import signal
import sys
import tempfile
import time

from refheap import Client, Fault, Refused, Server, program_of

WORKERS, ROUNDS, RESOURCES = 4, 150, 12


class Pool:
    """A pool of new files in the folder that the server lets its clients use."""

    def __init__(self, heap):
        self.heap, self.mine, self.count = heap, secrets.token_hex(8), 0
        self.opened = self.refused = 0

    def take(self):
        """Returns a guard that no other program has: from the pool, or a new one."""
        names = [name for name in self.heap.names() if name.startswith("file_")]
        random.shuffle(names)
        for name in names:
            try:
                guard = self.heap.find(name)
            except Refused:  # 9: another worker has taken the name.
                continue
            try:
                self.heap.unbind(name)
                return guard
            except Refused:  # 9: another worker was faster.
                self.heap.drop(guard)
        return self.open()

    def open(self):
        """Opens a new file. At the limit it tries again for four seconds."""
        self.count += 1
        for _ in range(2000):
            try:
                guard = self.heap.open("w", f"{self.mine}_{self.count}")
                self.opened += 1
                return guard
            except Refused as refused:
                if refused.number != 19:
                    raise
            self.refused += 1
            time.sleep(0.002)
        raise TimeoutError("all files are in use")

    def give(self, guard):
        """Puts a file back under a new name, and drops the handle."""
        self.count += 1
        self.heap.bind(f"file_{self.mine}_{self.count}", guard)
        self.heap.drop(guard)


def work(path, seed, told):
    """Reports what a worker did, or why it stopped. Worker 0 then takes one more file, and waits to be killed."""
    try:
        with Client(path, seconds=10) as heap:
            pool = Pool(heap)
            forgotten = rounds(heap, pool, seed)
            if seed == 0:
                pool.take()
            told.put((pool.opened, forgotten, pool.refused))
            if seed == 0:
                time.sleep(600)
    except (OSError, Refused, Fault) as fault:
        told.put(f"worker {seed}: {fault}")


def rounds(heap, pool, seed):
    """Takes a file, writes twice, and puts it back, or forgets it once in twenty. Returns how many it forgot."""
    random.seed(seed)
    forgotten = 0
    for _ in range(ROUNDS):
        guard = pool.take()
        heap.write_all(guard, f"worker {seed} has it\n".encode())
        time.sleep(random.random() / 2000)
        heap.write_all(guard, f"worker {seed} is done\n".encode())
        if random.random() < 0.05:
            forgotten += 1
            heap.drop(guard)
        else:
            pool.give(guard)
    return forgotten


def shared(text):
    """Returns the number of pairs of lines in a file that two workers wrote."""
    lines = text.splitlines()
    pairs = list(zip(lines[::2], lines[1::2]))
    right = [one.split()[:2] == other.split()[:2] and one[-2:] == "it" and other[-4:] == "done" for one, other in pairs]
    return len(lines) % 2 + right.count(False)


def all_closed(heap):
    """Unbinds all names, and returns the counts of `stat` once every file is closed."""
    for name in heap.names():
        heap.unbind(name)
    for _ in range(5000):
        heap.gc()
        _, open_now, taken, well, failed = map(int, heap.stat())
        if open_now == 0 and taken == well + failed:
            break
        time.sleep(0.002)
    return open_now, taken, well


def work_all(server):
    """Starts the workers, kills worker 0 once all have reported, and returns the sums of their reports."""
    told = multiprocessing.Queue()
    arguments = [(server.path, seed, told) for seed in range(WORKERS)]
    workers = [multiprocessing.Process(target=work, args=given) for given in arguments]
    for worker in workers:
        worker.start()
    reports = [told.get() for _ in workers]
    os.kill(workers[0].pid, signal.SIGKILL)
    faults = [report for report in reports if isinstance(report, str)]
    if faults:
        server.process.kill()
        sys.exit(f"SOMETHING IS WRONG: {', '.join(faults)}")
    for worker in workers:
        worker.join()
    return map(sum, zip(*reports))


def pairs_of_two(folder):
    """Returns the number of files, and of pairs of lines that two workers wrote."""
    paths, wrong = [os.path.join(folder, name) for name in os.listdir(folder)], 0
    for path in paths:
        with open(path, encoding="utf-8") as file:
            wrong += shared(file.read())
    return len(paths), wrong


def main(program):
    with tempfile.TemporaryDirectory() as folder:
        seats = str(WORKERS + 1)
        server = Server(program, WORKERS + 1, "--sessions", seats, "--resources", str(RESOURCES), "--files", folder)
        opened, forgotten, refused = work_all(server)
        with server.client() as heap:
            open_now, taken, well = all_closed(heap)
        status, _, _ = server.end()
        files, wrong = pairs_of_two(folder)
    print(f"{WORKERS * ROUNDS} takes by {WORKERS} processes: {opened} files opened, {forgotten} forgotten, "
          "1 with a worker that was killed")
    print(f"the limit of {RESOURCES} was met {refused} times; closed by the heap: {taken}, of them well: {well}; "
          f"still open: {open_now}")
    right = wrong == 0 and open_now == 0 and taken == opened == well == files and status == 0
    print("no file had two users at a time, and none was kept open" if right
          else f"SOMETHING IS WRONG: {wrong} pairs of lines by two, status {status}")
    return 0 if right else 1


if __name__ == "__main__":
    sys.exit(main(program_of(sys.argv)))
