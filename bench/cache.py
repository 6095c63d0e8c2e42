#!/usr/bin/env python3
"""A cache of entries that are held softly, over a heap of 1,024 cells: how often a look-up finds its entry, without `gc` and with one now and then.

    bench/cache.py [--program crates/refheap/out/refheap]

A table of plain objects, held by name, leads to the soft reference of each of 600 keys. A look-up reads the reference; where it gives null, the entry (three objects) is made anew. Keys are
asked for by chance, low ones more often. The same look-ups are made each time.
"""
import argparse
import os
import random
import subprocess

KEYS, LOOKUPS, FIELDS = 600, 20_000, 8
HERE = os.path.dirname(os.path.abspath(__file__))


class Cache:
    def __init__(self, program, soft_age):
        words = [program, "run", "--cells", "1024", "--soft-age", str(soft_age)]
        self.process = subprocess.Popen(words, stdin=subprocess.PIPE, stdout=subprocess.PIPE, text=True, bufsize=1)
        self.hits = self.made = 0
        # Ten objects of eight fields hold 75 of eight fields, whose fields hold the references: key = 64 a + 8 b + c.
        self.tops = [self.ask("new " + "r" * FIELDS) for _ in range((KEYS + 63) // 64)]
        self.rows = {}
        for number in range((KEYS + 7) // 8):
            row = self.ask("new " + "r" * FIELDS)
            self.ask(f"put {self.tops[number // 8][2:]} {number % 8} {row[2:]}")
            self.ask(f"drop {row[2:]}")

    def ask(self, line):
        self.process.stdin.write(line + "\n")
        reply = self.process.stdout.readline().strip()
        if reply.startswith("!"):
            raise SystemExit(f"{line} is answered {reply}")
        return reply

    def look_up(self, key):
        row = self.ask(f"get {self.tops[key // 64][2:]} {key // 8 % 8}")[2:]
        reference = self.ask(f"get {row} {key % 8}")[2:]
        entry = self.ask(f"deref {reference}")[2:] if reference != "0" else "0"
        if entry == "0":
            self.made += 1
            entry = self.ask("new rr")[2:]
            for field in range(2):
                part = self.ask("new -")[2:]
                self.ask(f"put {entry} {field} {part}")
                self.ask(f"drop {part}")
            new = self.ask(f"soft {entry} 0")[2:]
            self.ask(f"put {row} {key % 8} {new}")
            self.ask(f"drop {new}")
        else:
            self.hits += 1
        for handle in {row, reference, entry} - {"0"}:
            self.ask(f"drop {handle}")

    def close(self):
        self.process.stdin.close()
        self.process.wait()


def hit_rate(program, soft_age, every):
    """The share of look-ups that find their entry, with a `gc` after so many look-ups, or none."""
    cache = Cache(program, soft_age)
    chance = random.Random(17)
    for number in range(LOOKUPS):
        if every and number % every == every - 1:
            cache.ask("gc")
        cache.look_up(min(int(chance.paretovariate(0.6)) - 1, KEYS - 1))
    cache.close()
    return cache.hits / LOOKUPS


def main():
    parser = argparse.ArgumentParser()
    parser.add_argument("--program", default=os.path.join(HERE, "../crates/refheap/out/refheap"))
    program = os.path.abspath(parser.parse_args().program)
    print("| `gc` | Soft age | Found |\n|---|---|---|")
    for every, soft_age in ((0, 4), (0, 100), (100, 1), (100, 4), (100, 16), (1000, 1), (1000, 4)):
        found = hit_rate(program, soft_age, every)
        print(f"| {f'after each {every} look-ups' if every else 'never'} | {soft_age} | {100 * found:.0f} in 100 |", flush=True)


if __name__ == "__main__":
    main()
