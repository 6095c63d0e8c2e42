#!/usr/bin/env python3
"""Clients in Python, C, Go and Java against a server, and what docs/protocol.md tells their authors.

    checks/clients.py PROGRAM

Each client does one page of things, and says the same; where a compiler is missing, that is said. Without a server each says one sentence. Then: lines ahead, a session
that goes on in a new one, a server that comes late or anew, how one thing is taken by two, and by one, `! 19`, and the cache's values.
"""
import os
import re
import shutil
import socket
import subprocess
import sys
import tempfile
import threading
import time

EXAMPLES = os.path.join(os.path.dirname(os.path.abspath(__file__)), "..", "examples")
sys.path.insert(0, EXAMPLES)
import cache  # noqa: E402
from refheap import NAMES, Client, Refused, Server, read_reply  # noqa: E402

PAGE = """an element of an array: yes
20000 lines ahead, 20000 replies
1000 bytes written and read back: yes
dropped and collected: yes
get 200 1: no such handle
open r /nowhere/x: notfound
"""
COMPILERS = {
    "C": ("cc", lambda folder: [["cc", "-std=c11", "-D_GNU_SOURCE", "-Wall", "-Wextra", "-Werror", "-O1", "-o", f"{folder}/client_c", "refheap_example.c"]],
          lambda folder: [f"{folder}/client_c"]),
    "Go": ("go", lambda folder: [["go", "vet", "refheap.go"], ["go", "build", "-o", f"{folder}/client_go", "refheap.go"]], lambda folder: [f"{folder}/client_go"]),
    "Java": ("javac", lambda folder: [["javac", "-Xlint:all,-serial", "-Werror", "-d", folder, "Refheap.java"]], lambda folder: ["java", "-cp", folder, "Refheap"]),
}


def say(what, holds):
    print(f"{'ok     ' if holds else 'WRONG  '} {what}", flush=True)
    return holds


def is_sentence(words, status=None):
    """Whether a program ends with a status other than 0 and a sentence on the standard error, and no trace of calls."""
    ended = subprocess.run(words, capture_output=True, text=True, cwd=EXAMPLES, timeout=60)
    return ended.returncode != 0 and not ended.stdout and len(ended.stderr.splitlines()) == 1 and len(ended.stderr) < 200


def compiled(program, folder):
    for name, (compiler, builds, client) in COMPILERS.items():
        if shutil.which(compiler) is None:
            print(f"skipped the client in {name}: there is no {compiler} here")
            continue
        environment = {**os.environ, "GOCACHE": os.environ.get("GOCACHE", f"{folder}/gocache"), "GO111MODULE": "off"}
        built = all(subprocess.run(words, cwd=EXAMPLES, env=environment, timeout=300).returncode == 0 for words in builds(folder))
        yield say(f"the client in {name} is compiled without a warning", built)
        if not built:
            continue
        server = Server(program, 1)
        ended = subprocess.run([*client(folder), server.path], capture_output=True, text=True, timeout=300)
        server.process.kill() if ended.returncode else None
        yield say(f"the client in {name} says what is due", ended.returncode == 0 and ended.stdout == PAGE or print(ended) is not None)
        server.process.communicate()
        yield say(f"the client in {name} without a server says a sentence", is_sentence(client(folder)) and is_sentence([*client(folder), "/nowhere/x"]))


def sentences():
    for name in ("cache", "pool", "watch"):
        words = [sys.executable, f"{name}.py"]
        yield say(f"{name}.py without a program says a sentence", all(is_sentence([*words, *more]) for more in ((), ("/nowhere/x",), ("/tmp",), ("a", "b"))))


def words():
    """The words of refusals are the same in each client, and lines are few."""
    wanted = ["", *(NAMES[number] for number in range(1, 20))]
    for file in ("refheap.h", "refheap.go", "Refheap.java"):
        with open(os.path.join(EXAMPLES, file), encoding="utf-8") as source:
            text = source.read()
        found = re.search(r'(?:words\[\] =|words = \[\]string|WORDS =) *\{(.*?)\}', text, re.S)[1]
        yield say(f"{file} has the words of refusals", re.findall(r'"([^"]*)"', found) == wanted)
    for file in ("refheap.py", "refheap.h", "refheap_example.c", "refheap.go", "Refheap.java", "cache.py", "pool.py", "watch.py"):
        with open(os.path.join(EXAMPLES, file), encoding="utf-8") as source:
            yield say(f"{file} has under 220 lines", len(source.readlines()) < 220)


def ahead(program):
    server = Server(program, 2)
    stream = socket.socket(socket.AF_UNIX)
    stream.connect(server.path)
    stopped = []

    def write(line):
        for _ in range(128):
            stream.sendall(line)
        stopped.append(line)

    os.kill(server.process.pid, 19)
    writer = threading.Thread(target=write, args=(b"x" * 512 + b"\n",), daemon=True)
    writer.start()
    writer.join(10)
    os.kill(server.process.pid, 18)
    replies = stream.makefile("rb")
    yield say("128 of the longest lines, one by one, go to a server that reads nothing", len(stopped) == 1 and all(replies.readline() == b"! 15\n" for _ in range(128)))
    replies.close()
    stream.close()
    with server.client() as heap:
        thing = heap.new()
        for number in range(256):
            heap.bind(f"{number:03}{'x' * 29}", thing)
        found = heap.ahead(*["names"] * 2000)
        yield say("2,000 lists of names, 17 MB, come to one thread that asks for them ahead", len(found) == 2000 and {len(line) for line in found} == {4 + 33 * 256})
        try:
            heap.bind("one_more", thing)
            refused = ""
        except Refused as fault:
            refused = str(fault)
        yield say("a refusal says its line and its words", refused == "bind one_more 1: 10 names full")
    yield say("the server ends well", server.end()[:2] == (0, 2))


def sessions(program, folder):
    path = f"{folder}/late"
    started = []

    def start():
        time.sleep(0.5)
        started.append(subprocess.Popen([program, "serve", "--socket", path, "--total", "3"], stdout=subprocess.DEVNULL))

    starter = threading.Thread(target=start)
    starter.start()
    heap = Client(path, seconds=30)
    starter.join()
    yield say("a client waits for a server that comes late", heap.same(0, 0))
    things = [heap.new() for _ in range(20)]
    marked, held = heap.new("i"), heap.array(20)
    heap.setint(marked, 0, 7)
    heap.put(held, 3, marked)
    before = heap.lines
    marked, held, nothing = heap.renew(marked, held, 0)
    yield say("a session goes on in a new one with what it names", heap.same(marked, heap.get(held, 3)) and heap.int(marked, 0) == 7 and nothing == 0
              and heap.names() == [] and before > heap.lines and len(things) == 20)
    started[0].kill()
    started[0].wait()
    try:
        heap.stat()
        over = False
    except OSError:
        over = True
    os.unlink(path)
    again = subprocess.Popen([program, "serve", "--socket", path, "--total", "1"], stdout=subprocess.DEVNULL)
    heap.reconnect(seconds=30)
    yield say("after the server was killed a client says so, and connects to the next one", over and heap.stat()[0] == "0")
    heap.close_session()
    again.wait()


def answers(heap, *lines):
    return heap.ahead(*lines)


def taking(program):
    server = Server(program, 7, "--sessions", "4")
    a, b, c = [server.client() for _ in range(3)]
    told = [*answers(a, "new -", "bind m 1", "drop 1"), *answers(b, "find m"), *answers(a, "find m", "unbind m"), *answers(b, "unbind m", "drop 1")]
    yield say("two find one thing, and unbind says ok to one of them", told == ["= 1", "ok", "ok", "= 1", "= 1", "ok", "! 9", "ok"])
    told = [*answers(a, "bind m 1", "drop 1"), *answers(b, "find m"), *answers(a, "find m", "unbind m"), *answers(c, "new -", "bind m 1"), *answers(b, "unbind m")]
    a.bind("of_a", 1)
    both = b.same(b.find("of_a"), 1)
    yield say("where another thing comes under the name, two have one thing, as the page says", told[-1] == "ok" and both)
    for heap in (a, b, c):
        heap.close_session()

    with server.client() as heap:
        pool = heap.array(4)
        heap.bind("pool", pool)
        for place in range(4):
            heap.bind(f"free_{place}", pool)
    taken, lock, wrong, counts = set(), threading.Lock(), [], []

    def work():
        with server.client() as heap:
            pool, mine, made = heap.find("pool"), 0, 0
            while mine < 100:
                for place in range(4):
                    try:
                        heap.unbind(f"free_{place}")
                    except Refused:
                        continue
                    thing = heap.get(pool, place)
                    if thing == 0:
                        thing, made = heap.new("i"), made + 1
                    heap.put(pool, place, 0)
                    with lock:
                        wrong.extend([place] if place in taken else [])
                        taken.add(place)
                    heap.setint(thing, 0, heap.int(thing, 0) + 1)
                    mine += 1
                    with lock:
                        taken.discard(place)
                    heap.put(pool, place, thing)
                    heap.bind(f"free_{place}", pool)
                    heap.drop(thing)
            counts.append(made)

    workers = [threading.Thread(target=work) for _ in range(3)]
    for worker in workers:
        worker.start()
    for worker in workers:
        worker.join()
    server.process.kill() if len(counts) < 3 else None
    yield say("a token for each place: of three clients one has a place at a time", not wrong and len(counts) == 3 and 1 <= sum(counts) <= 4)
    yield say("the server ends well", server.end()[:2] == (0, 7))


def limits(program, folder):
    server = Server(program, 1, "--resources", "2")
    with server.client() as heap:
        told = answers(heap, f"open w {folder}/a", f"open w {folder}/b", "drop 1", "drop 2", f"open w {folder}/c", "gc")
        yield say("guards that were only dropped hold their files until a collection", told == ["= 1", "= 2", "ok", "ok", "! 19", "ok"])
        until = time.monotonic() + 10
        while (last := answers(heap, f"open w {folder}/c")[0]) == "! 19" and time.monotonic() < until:
            time.sleep(0.002)
        yield say("after one there is room again", last == "= 1")
        told = answers(heap, "close 1", "open r /proc/self/environ", "read 2 200")
        yield say("a client reads what the server's user reads", told[:2] == ["ok", "= 2"] and told[2].startswith("data "))
    server.end()


def values(program):
    server = Server(program, 4, "--cells", "2048", "--sessions", "2")
    one, other = cache.Cache(server.client()), cache.Cache(server.client())
    known = {f"key {size}".encode(): os.urandom(size) for size in (0, 1, 63, 64, 65, 12_800, 12_801, 60_000)}
    put = all(one.put(key, value) for key, value in known.items())
    yield say("a cache has values of 0 to 60,000 bytes, for another program too", put and all(other.get(key) == value for key, value in known.items()))
    yield say("what is larger than the heap is not in it, and leaves nothing", not one.put(b"large", bytes(range(256)) * 600) and one.get(b"large") is None
              and one.heap.gc() is None and int(one.heap.stat()[0]) < 200 and other.put(b"small", b"12") and other.get(b"small") == b"12")
    other.heap.close_session()
    cache.LINES, lines = 100, cache.LINES
    first = one.heap.lines
    yield say("it goes on in a new session before its lines are used up", first > 100 and one.get(b"small") == b"12" and one.heap.lines < first)
    cache.LINES = lines
    one.heap.close_session()
    server.process.terminate()
    server.process.communicate()


def main(program):
    with tempfile.TemporaryDirectory() as folder:
        kinds = (words(), sentences(), compiled(program, folder), ahead(program), sessions(program, folder), taking(program), limits(program, folder), values(program))
        return all([holds for kind in kinds for holds in kind])


if __name__ == "__main__":
    if len(sys.argv) != 2:
        sys.exit("usage: checks/clients.py PROGRAM")
    sys.exit(not main(os.path.abspath(sys.argv[1])))
