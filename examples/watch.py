"""Programs that learn which objects of another program have died.

    python3 watch.py PROGRAM      PROGRAM is a refheap; with one that is not proved this takes half a minute

It follows the recipe of docs/protocol.md. An owner keeps objects of two kinds, each under a key. For each object it
registers a weak reference with the queue of the kind, and puts the reference into an array, at the key. A watcher waits
in `remove` on the queue of its kind, and compares the reference that it gets with those of the keys that have not died.
It sends these comparisons ahead, three commands a key.
"""
import multiprocessing
import random
import sys
import time

from refheap import Client, Server, program_of, read_reply

KINDS, KEYS, AT_ONCE = ("user", "job"), 150, 200


def ask_all(heap, lines):
    return [read_reply(reply) for reply in heap.ahead(*lines)]


def which(heap, index, places, reference):
    """Returns the place of the index, one of these, at which the reference stands."""
    for start in range(0, len(places), AT_ONCE):
        some = places[start:start + AT_ONCE]
        known = ask_all(heap, [f"get {index} {place}" for place in some])
        same = ask_all(heap, [f"same {reference} {handle}" for handle in known])
        ask_all(heap, [f"drop {handle}" for handle in known])
        if True in same:
            return some[same.index(True)]
    raise LookupError("a reference that is not in the index")


def watch(path, kind, told, said):
    """Reports the key of each object that died. It says when it is ready, and in the end how many lines it sent."""
    with Client(path, seconds=10) as heap:
        queue, index, places = heap.find(f"dead_{kind}"), heap.find(f"all_{kind}"), list(range(KEYS))
        said.put("ready")
        while places:
            reference = heap.remove(queue)
            place = which(heap, index, places, reference)
            places.remove(place)
            heap.put(index, place, 0)
            heap.drop(reference)
            told.put((kind, place))
        said.put(heap.lines)


class Owner:
    """Keeps the objects of all kinds, each in an array of its kind."""

    def __init__(self, heap):
        self.heap, self.things = heap, {}
        for kind in KINDS:
            queue, index, self.things[kind] = heap.queue(), heap.array(KEYS), heap.array(KEYS)
            heap.bind(f"dead_{kind}", queue)
            heap.bind(f"all_{kind}", index)
            for key in range(KEYS):
                thing = heap.new()
                reference = heap.weak(thing, queue)
                ask_all(heap, [f"put {self.things[kind]} {key} {thing}", f"put {index} {key} {reference}",
                               f"drop {reference}", f"drop {thing}"])

    def lose(self, kind, key):
        self.heap.put(self.things[kind], key, 0)


def lose_all(owner, told):
    """Loses all objects, 50 at a time. Returns whether the watchers reported each 50, and the seconds that it took."""
    everything = [(kind, key) for kind in KINDS for key in range(KEYS)]
    random.Random(3).shuffle(everything)
    begun, right = time.monotonic(), True
    for start in range(0, len(everything), 50):
        lost = everything[start:start + 50]
        for kind, key in lost:
            owner.lose(kind, key)
        owner.heap.gc()
        found = [told.get(timeout=60) for _ in lost]
        right &= sorted(found) == sorted(lost)
        print(f"lost {len(lost)}, the last is {lost[-1][0]} {lost[-1][1]}; "
              f"{len(found)} reported, the last is {found[-1][0]} {found[-1][1]}", flush=True)
    return right, time.monotonic() - begun


def main(program):
    seats = len(KINDS) + 1
    server = Server(program, seats, "--sessions", str(seats), "--no-files")
    told, said = multiprocessing.Queue(), multiprocessing.Queue()
    with server.client() as heap:
        owner = Owner(heap)
        arguments = [(server.path, kind, told, said) for kind in KINDS]
        watchers = [multiprocessing.Process(target=watch, args=given, daemon=True) for given in arguments]
        for watcher in watchers:
            watcher.start()
        for _ in KINDS:
            said.get(timeout=60)
        right, seconds = lose_all(owner, told)
        lines = sum(said.get(timeout=60) for _ in KINDS)
        for watcher in watchers:
            watcher.join()
    status, _, _ = server.end()
    deaths = len(KINDS) * KEYS
    print(f"{deaths} deaths, {lines // deaths} lines and {1000 * seconds / deaths:.1f} ms each")
    print("each was reported once, by its key" if right and status == 0 else f"SOMETHING IS WRONG, status {status}")
    return 0 if right and status == 0 else 1


if __name__ == "__main__":
    sys.exit(main(program_of(sys.argv)))
