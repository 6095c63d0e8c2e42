"""A cache of values of any size in a heap that several programs share.

    python3 cache.py PROGRAM      PROGRAM is a refheap; with one that is not proved this takes a minute

It follows the recipe of docs/protocol.md: only a soft reference reaches an entry, and each handle is dropped. Instead
of names it uses an array, the index, so that there may be more than 256 keys: the key's digest gives the element that
holds the reference. The entry is the head of the value: an object with the digest, the length and the first segment. A
segment is an array of blocks of 64 bytes; its element 0 is the next segment. The value is reclaimed as a whole.
The collector keeps those that were read in the last `--soft-age` collections. A full heap reclaims all that no session
holds, and `Cache.get` returns None for them.
"""
import hashlib
import random
import struct
import sys
from collections import OrderedDict

from refheap import Refused, Server, program_of, read_reply

BLOCK, BLOCKS = 64, 200
PLACES, SWEPT = 4096, 16
LINES = 900_000


class Cache:
    """Values by key; both are bytes. Any number of programs may have one in the same heap."""

    def __init__(self, heap):
        self.heap = heap
        try:
            self.index = heap.find("cache")
        except Refused:
            self.index = heap.array(PLACES)
            heap.bind("cache", self.index)
        self.hand = random.randrange(PLACES)

    def ask_all(self, lines):
        return [read_reply(reply) for reply in self.heap.ahead(*lines)]

    def get(self, key):
        """Returns the value, or None if it was never put, or was reclaimed."""
        if self.heap.lines > LINES:
            self.index, = self.heap.renew(self.index)
        place, digest = place_of(key)
        reference = self.heap.get(self.index, place)
        head = self.heap.deref(reference) if reference else 0
        value = None
        if head:
            fields = [f"int {head} 0", f"int {head} 1", f"int {head} 2", f"get {head} 3"]
            first, second, length, segment = self.ask_all(fields)
            if (first, second) == digest:
                value = self.load(segment, length)
            elif segment:
                self.heap.drop(segment)  # Another key has the same place.
        dropped = [f"drop {handle}" for handle in (reference, head) if handle]
        self.ask_all(dropped + [f"put {self.index} {place} 0"] * (reference != 0 and not head))
        return value

    def load(self, segment, length):
        """Returns the bytes of a value from this segment on, and drops the segment."""
        value = bytearray()
        while segment:
            count = min(BLOCKS, -(-(length - len(value)) // BLOCK))
            following, *blocks = self.ask_all(f"get {segment} {number}" for number in range(count + 1))
            numbers = self.ask_all(f"int {block} {field}" for block in blocks for field in range(8))
            value += struct.pack(f">{8 * count}q", *numbers)
            self.ask_all(f"drop {handle}" for handle in (segment, *blocks))
            segment = following
        return bytes(value[:length])

    def put(self, key, value):
        """Stores a value. Returns False if it is larger than the heap has room for, beside what sessions hold."""
        place, digest = place_of(key)
        self.sweep()
        try:
            segment = self.store(value)
            try:
                self.hold_softly(place, (*digest, len(value)), segment)
            finally:
                if segment:
                    self.heap.drop(segment)
        except Refused as refused:
            if refused.number != 2:
                raise
            return False
        return True

    def hold_softly(self, place, numbers, segment):
        """Makes the head of a value, and a soft reference to it in the index; drops both handles."""
        head = self.heap.new("iiir")
        try:
            reference = self.heap.soft(head)
            lines = [f"setint {head} {field} {number}" for field, number in enumerate(numbers)]
            lines += [f"put {head} 3 {segment}", f"put {self.index} {place} {reference}", f"drop {reference}"]
            self.ask_all(lines)
        finally:
            self.heap.drop(head)

    def sweep(self):
        """Removes cleared references from the next places of the index: each takes a cell that a value could use."""
        places = [(self.hand + step) % PLACES for step in range(SWEPT)]
        self.hand = (self.hand + SWEPT) % PLACES
        references = self.ask_all(f"get {self.index} {place}" for place in places)
        held = [(place, reference) for place, reference in zip(places, references) if reference]
        cleared = self.ask_all(f"refers {reference} 0" for _, reference in held)
        emptied = [f"put {self.index} {place} 0" for (place, _), is_cleared in zip(held, cleared) if is_cleared]
        self.ask_all(emptied + [f"drop {reference}" for _, reference in held])

    def store(self, value):
        """Returns a handle for the first segment of a value, 0 for none. If the heap is full, nothing of it stays."""
        following = 0
        for start in reversed(range(0, len(value), BLOCK * BLOCKS)):
            following = self.store_segment(value[start:start + BLOCK * BLOCKS], following)
        return following

    def store_segment(self, piece, following):
        """Returns a handle for a segment with these bytes, before another segment, whose handle it drops."""
        count = -(-len(piece) // BLOCK)
        replies = self.heap.ahead(f"array {count + 1}", *["new iiiiiiii"] * count)
        segment, *blocks = handles = [int(reply[2:]) for reply in replies if reply.startswith("= ")] or [0]
        if len(handles) <= count:
            self.ask_all(f"drop {handle}" for handle in (following, *handles) if handle)
            raise Refused(2)
        numbers = struct.unpack(f">{8 * count}q", piece.ljust(BLOCK * count, b"\0"))
        lines = [f"setint {blocks[at // 8]} {at % 8} {number}" for at, number in enumerate(numbers) if number]
        for at, block in enumerate(blocks, 1):
            lines += [f"put {segment} {at} {block}", f"drop {block}"]
        self.ask_all(lines + ([f"put {segment} 0 {following}", f"drop {following}"] if following else []))
        return segment


def place_of(key):
    digest = struct.unpack(">qq", hashlib.blake2b(key, digest_size=16).digest())
    return digest[0] % PLACES, digest


class Limited:
    """A dict with a limit of cells, counted as for the heap. It drops first what was not read for longest."""

    def __init__(self, cells):
        self.values, self.room = OrderedDict(), cells

    def get(self, key):
        if key in self.values:
            self.values.move_to_end(key)
        return self.values.get(key)

    def put(self, key, value):
        self.values[key] = value
        self.room -= cells_of(value)
        while self.room < 0:
            self.room += cells_of(self.values.popitem(last=False)[1])


def cells_of(value):
    """Returns the cells of a value: blocks, segments, head and reference."""
    return -(-len(value) // BLOCK) + -(-len(value) // (BLOCK * BLOCKS)) + 2


KEYS, LOOK_UPS = 600, 1000
SIZES = random.Random(7)
LENGTHS = [30_000 if n == 300 else int(600 * SIZES.random() ** 2) for n in range(KEYS)]
VALUES = {f"key {n}".encode(): SIZES.randbytes(length) for n, length in enumerate(LENGTHS)}


def hit_rate(cache, seed=1):
    """Returns how many of 100 look-ups find their value, low keys more often; each found value has to be right."""
    choices, keys, found = random.Random(seed), list(VALUES), 0
    for _ in range(LOOK_UPS):
        key = keys[int(KEYS * choices.random() ** 3)]
        value = cache.get(key)
        if value is None:
            cache.put(key, VALUES[key])
        elif value != VALUES[key]:
            sys.exit("SOMETHING IS WRONG: another value was found")
        found += value is not None
    return 100 * found // LOOK_UPS


def main(program):
    cells_of_all = sum(map(cells_of, VALUES.values()))
    print(f"{LOOK_UPS} look-ups among {KEYS} keys, low ones more often; all values together take {cells_of_all} cells")
    print("cells   found in 100   by a dict of so many cells")
    rates = []
    for cells in (1024, 2048, 4096, 8192):
        server = Server(program, 1, "--no-files", "--cells", str(cells), "--sessions", "1")
        with server.client() as heap:
            rates.append(hit_rate(Cache(heap)))
        limited = hit_rate(Limited(cells))
        print(f"{cells:5}   {rates[-1]:12}   {limited:26}", flush=True)
        if server.end()[0] != 0:
            return 1
    right = rates == sorted(rates) and rates[0] >= 20 and rates[-1] >= limited - 5
    print("more room, more found; each value found was the one that was put" if right else "SOMETHING IS WRONG")
    return 0 if right else 1


if __name__ == "__main__":
    sys.exit(main(program_of(sys.argv)))
