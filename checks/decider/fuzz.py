"""The fuzz of checks/decider/decider.py: many files, and of each its own verdict beside that of the program's `audit`.

They are histories of random sessions of the program, and random walks of the machine in machine.py with several sessions,
background cycles and full tables; in both versions, also with the machine in their middle as the image; and changes of them, of bytes and
of well-spelled values.
"""
import collections
import concurrent.futures
import functools
import os
import random
import re
import subprocess
import tempfile
from dataclasses import replace

import machine
from decider import ENTRY, HEAD, LISTS, OBJECTS, SESSION, History, List, Number, Opt, Rising, Seq, Tagged, Text, read, step, verdict, write
from machine import Answer, Ask, Call, Image, Why

# ---- Sessions of the program

COMMANDS = [    # how often, the line, and what its handle then stands for
    (9, "new {layout}", "plain"), (2, "array {length}", "plain"), (9, "put {plain} {k} {any}", None), (4, "get {plain} {k}", "plain"),
    (2, "setint {plain} {k} {integer}", None), (2, "int {plain} {k}", None), (2, "dup {any}", "plain"), (10, "drop {any}", None),
    (1, "same {any} {any}", None), (5, "soft {any} {queue0}", "reference"), (4, "weak {any} {queue0}", "reference"),
    (4, "phantom {any} {queue0}", "reference"), (3, "deref {reference}", "plain"), (1, "refers {reference} {any}", None),
    (1, "clear {reference}", None), (2, "enqueue {reference}", None), (1, "enqueued {reference}", None), (4, "queue", "queue"),
    (3, "poll {queue}", "reference"), (2, "remove {queue}", "reference"), (2, "cleaner", "cleaner"),
    (5, "register {cleaner} {any} {note}", "cleanable"), (2, "clean {cleanable}", None), (4, "open {mode} {path}", "guard"),
    (3, "read {guard} {count}", None), (3, "write {guard} {bytes}", None), (2, "close {guard}", None), (3, "bind {name} {any}", None),
    (2, "find {name}", "plain"), (1, "unbind {name}", None), (1, "names", None), (4, "gc", None), (2, "gc soft", None), (1, "stat", None),
    (1, "notes", None), (1, "faults", None)]
WORDS = {
    "layout": lambda rng: rng.choice(["-", "r", "rr", "ri", "i", "rrrrrrrr"]), "length": lambda rng: rng.choice([1, 2, 3, 70]),
    "k": lambda rng: rng.choice([0, 0, 0, 1, 1, 2, 300]), "integer": lambda rng: rng.randint(-2**63, 2**63 - 1),
    "note": lambda rng: rng.randrange(2**32), "mode": lambda rng: rng.choice("rww"), "count": lambda rng: rng.randint(1, 200),
    "path": lambda rng: rng.choice(["one", "two", "three", "/dev/null", "none/three"]),
    "name": lambda rng: rng.choice(["a", "b", "root_1"]), "bytes": lambda rng: rng.randbytes(rng.randint(1, 9)).hex()}


class Player:
    """Plays one session of random commands, reply by reply."""

    def __init__(self, rng):
        self.rng, self.kinds = rng, {}

    def word(self, kind):
        if kind in WORDS:
            return WORDS[kind](self.rng)
        if kind == "queue0":
            kind = "queue" if self.rng.random() < 0.7 else "null"
        fitting = [handle for handle, other in self.kinds.items() if kind in ("any", other)] if self.rng.random() < 0.95 else None
        return 0 if kind == "null" else self.rng.choice(fitting) if fitting else self.rng.randrange(12)

    def play(self, program, folder):
        rng, path = self.rng, os.path.join(folder, "saved")
        options = ["--cells", rng.choice("16 16 20 30".split()), "--trace", rng.choice("64 64 5000".split()), "--resources",
                   rng.choice("1 2 16".split()), "--soft-age", rng.choice("0 1 3".split())]
        pipes = {"stdin": subprocess.PIPE, "stdout": subprocess.PIPE}
        with subprocess.Popen([program, "run", *options, "--save", path], cwd=folder, **pipes) as session:
            for _ in range(rng.choice([2, 20, 60, 120])):
                _, form, kind = rng.choices(COMMANDS, [weight for weight, _, _ in COMMANDS])[0]
                line = re.sub(r"\{(\w+)\}", lambda found: str(self.word(found[1])), form)
                session.stdin.write(line.encode() + b"\n")
                session.stdin.flush()
                reply = session.stdout.readline().split()
                if reply[0] == b"=" and reply[1] != b"0":
                    self.kinds[int(reply[1])] = kind
                elif reply == [b"ok"] and line.startswith("drop"):
                    del self.kinds[int(line.split()[1])]
        with open(path, "rb") as file:
            return file.read()


# ---- Walks of the machine: entries that are legal by machine.py

ASKS = ENTRY[2].parts[1].bodies
OFTEN = {
    Ask.NEW: 8, Ask.PUT: 8, Ask.MAKE_REF: 12, Ask.MAKE_QUEUE: 5, Ask.MAKE_CLEANER: 4, Ask.REGISTER: 8, Ask.PREPARE: 5, Ask.DROP: 14,
    Ask.CLEAN: 4, Ask.CHECK_OUT: 5, Ask.HAND_OVER: 6, Ask.TAKE_UP: 4, Ask.BEGIN: 4, Ask.COLLECT: 4, Ask.FULL: 3, Ask.LEAVE: 0.3,
    Ask.ABANDON: 0.3}
WEIGHTS = [OFTEN.get(ask, 2) for ask in Ask]
FIELD_ASKS = (Ask.PUT, Ask.GET, Ask.SET_INT, Ask.INT)
HELPERS = (Ask.HAND_OVER, Ask.TAKE_UP, Ask.BEGIN, Ask.COLLECT, Ask.ABANDON)


class Walk:
    """A machine, and the entries that it went on by."""

    def __init__(self, rng, history):
        self.rng, self.state, self.entries = rng, machine.load(history.image), []

    def an_ask(self):
        """One that can mostly be carried out."""
        rng, sessions = self.rng, self.state.sessions
        joined = [m for m, session in enumerate(sessions) if session is not None]
        number = rng.choices(list(Ask), WEIGHTS)[0] if joined or rng.random() < 0.1 else Ask.JOIN
        ask = number, make(ASKS[number], rng)
        if number in HELPERS or rng.random() < 0.05:
            return ask
        if number == Ask.JOIN:
            return number, (rng.randrange(len(sessions)),)
        if number == Ask.FINISH and self.state.jobs:
            return self.a_finish(ask[1][2])
        m = rng.choice(joined) if joined else 0
        call = sessions[m].call[0] if joined else Call.NONE
        if call == Call.JOB and rng.random() < 0.6:
            return self.a_finish(rng.randrange(4))
        if call != Call.NONE and rng.random() < 0.6:
            number = Ask.OPENED if call == Call.OPENING else Ask.CHECK_IN
            outcome = make(ASKS[number].parts[1], rng)
            return number, (m, rng.choice([0, outcome]) if call == Call.OPENING else outcome)
        return number, self.fitted(number, [m, *ask[1][1:]], sessions[m])

    def a_finish(self, outcome):
        action = self.rng.choice(list(self.state.jobs))
        return Ask.FINISH, (self.state.jobs[action][1], action, outcome)

    def fitted(self, number, args, session):
        """The arguments, with handles of the kinds that are needed, where there are any."""
        rng = self.rng
        if number in FIELD_ASKS:
            args[2] = rng.randrange(3)
        for operand in machine.RULES[number].operands if session is not None else ():
            is_fit = lambda slot: not operand.kinds or type(self.state.objects[slot]) in operand.kinds
            fitting = [handle for handle, slot in session.handles.items() if is_fit(slot)]
            args[operand.place] = 0 if operand.null and rng.random() < 0.3 else rng.choice(fitting) if fitting else args[operand.place]
        return tuple(args)

    def kept_by(self, c):
        rng, state = self.rng, self.state
        some = lambda slots: {slot for slot in slots if rng.random() < 0.5}
        if c.ask == Ask.COLLECT:
            return state.reach(state.roots() | some(state.seen), some(state.seen))
        return state.reach(state.roots(), some(state.objects) if c.ask == Ask.FULL and c.args[1] == 0 else ())

    def given(self, number):
        if number == Ask.COLLECT:
            return machine.truth(self.state.seen is not None and self.rng.random() < 0.7)
        free = [place for place in range(self.state.limit) if place not in self.state.resources]
        return Answer.PREPARED, (self.rng.choice(free[:3]) if free else 0,)

    def go(self):
        """One entry more."""
        rng, state = self.rng, self.state
        ask = self.an_ask()
        c = machine.turn(state, ask, self.given(ask[0]))
        why = c.refusal()
        kept = made = fresh = None
        if why is None and c.has_collection():
            is_full, kept = c.is_heap_full(), self.kept_by(c)
            made = state.collect(kept)
            rng.shuffle(made)
            state.pending += made
            why = Why.HEAP_FULL if is_full else None
        if why is None and machine.RULES[c.ask].cells:
            free = [slot for slot in range(state.cells) if slot not in state.objects]
            c.fresh = fresh = rng.sample(free, machine.RULES[c.ask].cells)
        answer = machine.refused(why) if why is not None else machine.RULES[c.ask].act(c)
        if why is None:
            state.look()
        lists = ([] if kept is None else [sorted(kept), made]) + ([] if fresh is None else [list(fresh)])
        copy = answer[0], tuple(machine.copied(answer[1]))
        self.entries.append((rng.randrange(4), ask, copy, ((kept is not None) + 2 * (fresh is not None), tuple(lists))))


def empty(rng):
    sessions = [(0, ())] * rng.randint(1, 4)
    return History(2, Image(rng.choice([16, 16, 20]), rng.choice([1, 2, 4]), 0, [], sessions, [], [], [], [], [], [], [], (1, 0, 0, 0)), [])


def crowded(rng):
    """A machine whose handles, names, notes, faults and actions are at their limits, or nearly."""
    near = lambda most: most - rng.randrange(3)
    objects = [(0, (1, ([(1, (None,)), (0, (7,))],))), (1, (4, ()))]
    sessions = [(1, ([(handle, handle % 2) for handle in range(1, near(250) + 1)], None, (0, ()))), (0, ())]
    names = [(b"n%d" % number, 0) for number in range(near(256))]
    faults, actions = [(number + 1, 3) for number in range(near(256))], near(2**64 - 1)
    notes = list(range(near(256)))
    return History(2, Image(20, 3, 0, objects, sessions, names, [], [], [], [], faults, notes, (actions, 600, 344, 256)), [])


def extended(rng, history):
    """The history, and legal entries more."""
    walk = Walk(rng, history)
    for entry in history.entries:
        step(walk.state, entry)
    for _ in range(rng.choice([5, 40, 120])):
        walk.go()
    return replace(history, entries=history.entries + walk.entries)


def cut(rng, history):
    """The history from some entry on that stands in no cycle, with the machine there as its image."""
    state, images = machine.load(history.image), [(0, history.image)]
    for number, entry in enumerate(history.entries):
        if state.seen is None and rng.random() < 0.1:
            images.append((number, machine.dump(state, history.image.base + number)))
        step(state, entry)
    number, image = rng.choice(images)
    return replace(history, image=image, entries=history.entries[number:])


# ---- Values at random: `make` gives one of a spelling, `vary` another in place of this one

@functools.singledispatch
def make(spelling, rng):
    raise TypeError


@functools.singledispatch
def vary(spelling, rng, value):
    return make(spelling, rng)


@make.register
def _(spelling: Number, rng):
    low, high, kind = max(spelling.low, 0), spelling.high, rng.random()
    if kind < 0.9:
        return rng.randint(low, min(high, low + 12))
    return rng.randint(max(low, high - 2), high) if kind < 0.95 else rng.randint(spelling.low, high)


@vary.register
def _(spelling: Number, rng, value):
    return min(max(value + rng.choice([-1, 1]), spelling.low), spelling.high) if rng.random() < 0.5 else make(spelling, rng)


@make.register
def _(spelling: Opt, rng):
    return None if rng.random() < 0.3 else rng.randrange(16)


@vary.register
def _(spelling: Opt, rng, value):
    return make(spelling, rng)


@make.register
def _(spelling: Text, rng):
    low, high = spelling.length.low, min(spelling.length.low + 2, spelling.length.high)
    return bytes(rng.choices(spelling.letters[:2], k=low if low and rng.random() < 0.8 else rng.randint(low, high)))


@make.register
def _(spelling: Seq, rng):
    return tuple(make(part, rng) for part in spelling.parts)


@vary.register
def _(spelling: Seq, rng, value):
    at = rng.randrange(len(spelling.parts)) if spelling.parts else None
    return tuple(vary(part, rng, item) if number == at else item for number, (part, item) in enumerate(zip(spelling.parts, value)))


@make.register
def _(spelling: Tagged, rng):
    tag = rng.choice(list(spelling.bodies))
    return tag, make(spelling.bodies[tag], rng)


@vary.register
def _(spelling: Tagged, rng, value):
    body = spelling.bodies[value[0]]
    return (value[0], vary(body, rng, value[1])) if body.parts and rng.random() < 0.8 else make(spelling, rng)


def risen(spelling, value):
    if not isinstance(spelling, Rising):
        return value
    key = (lambda item: item) if spelling.rest is None else (lambda item: item[0])
    return sorted({key(item): item for item in value}.values(), key=key)


@make.register
def _(spelling: List, rng):
    count = rng.randint(spelling.count.low, min(spelling.count.low + 3, spelling.count.high))
    return risen(spelling, [make(spelling.item, rng) for _ in range(count)])


@vary.register
def _(spelling: List, rng, value):
    changed, kind = list(value), rng.randrange(5)
    at = rng.randrange(len(value)) if value else 0
    if not value or kind == 0:
        changed.insert(at, make(spelling.item, rng))
    elif kind == 1:
        del changed[at]
    elif kind == 2:
        changed.append(changed.pop(at))
    else:
        changed[at] = vary(spelling.item, rng, changed[at])
    return risen(spelling, changed) if spelling.count.low <= len(changed) <= spelling.count.high else value


# ---- Changes

def changed_bytes(rng, data):
    data, at, kind = bytearray(data), rng.randrange(len(data)), rng.randrange(8)
    end = at + rng.randint(1, 9)
    if kind == 0:
        data[at] = rng.randrange(256)
    elif kind == 1:
        data[at] ^= 1 << rng.randrange(8)
    elif kind == 2:
        other = rng.randrange(len(data))
        data[at], data[other] = data[other], data[at]
    elif kind == 3:
        del data[at:end]
    elif kind == 4:
        data[at:at] = rng.choice([data[at:end], rng.randbytes(end - at)])
    elif kind == 5:
        del data[at:]
    elif kind == 6:
        data += rng.randbytes(rng.randint(1, 3))
    else:
        at = rng.randrange(min(24, len(data)))
        data[at] = rng.choice([0, 1, 2, 3, 255])
    return bytes(data)


def changed_image(rng, image):
    names = Image.__slots__
    name = rng.choice(["objects"] * 8 + ["sessions"] * 4 + [*names])
    value = getattr(image, name)
    if name == "sessions":
        at = rng.randrange(len(value))
        value = [vary(SESSION, rng, session) if number == at else session for number, session in enumerate(value)]
    elif name in ("cells", "limit", "base"):
        value = vary(HEAD.parts[{"cells": 0, "limit": 2, "base": 3}[name]], rng, value)
    else:
        value = vary(OBJECTS[2], rng, value) if name == "objects" else vary(LISTS.parts[names.index(name) - 5], rng, value)
    return replace(image, **{name: value})


def changed_values(rng, history):
    """One value, entry or list in it is another, well spelled."""
    if not history.entries or rng.random() < 0.4:
        return replace(history, image=changed_image(rng, history.image))
    entries, spelling, kind = list(history.entries), ENTRY[history.version], rng.randrange(10)
    at, other = rng.randrange(len(entries)), rng.randrange(len(entries))
    if kind == 0:
        del entries[at]
    elif kind == 1:
        entries.insert(at, entries[other])
    elif kind == 2:
        entries[at], entries[other] = entries[other], entries[at]
    elif kind == 3:
        entries.insert(at, make(spelling, rng))
    elif kind == 4:
        why = rng.choice([Why.NO_MEMORY, Why.HEAP_FULL, rng.randint(1, 19)])
        entries[at] = (*entries[at][:2], (Answer.REFUSED, (why,)), rng.choice([entries[at][3], (0, ())]))
    else:
        part = rng.choice([1, 1, 2, 3])
        entries[at] = tuple(vary(spelling.parts[part], rng, value) if part == i else value for i, value in enumerate(entries[at]))
    return replace(history, entries=entries)


def files(rng, program, folder, count):
    """Histories from one source, and changes of them."""
    is_played, image = rng.random() < 0.5, crowded if rng.random() < 0.1 else empty
    history = read(Player(rng).play(program, folder)) if is_played else extended(rng, image(rng))
    sources = [history, cut(rng, history), extended(rng, history)]
    sources.append(cut(rng, sources[2]))
    for number in range(count):
        is_changed, has_values = number >= len(sources), rng.random() < 0.7
        history = rng.choice(sources) if is_changed else sources[number]
        for _ in range(rng.choice([1, 1, 2]) if is_changed and has_values else 0):
            history = changed_values(rng, history)
        try:
            data = write(replace(history, version=rng.choice([1, 2])))
        except (KeyError, OverflowError):       # an array, or a field's number, that version 1 has not
            data = write(replace(history, version=2))
        yield changed_bytes(rng, data) if is_changed and not has_values else data


# ---- Comparing

def audit(program, path):
    done = subprocess.run([program, "audit", path], capture_output=True, check=False)
    out, said = done.stdout.decode(), done.stderr.decode()
    first = said.split("\n")[0].removeprefix("refheap: ").removeprefix("trace ")
    if (done.returncode, said, out[:5]) == (0, "", "legal") or (done.returncode, said, out[:7]) == (3, "", "illegal"):
        return out.rstrip("\n")
    return first if done.returncode == 4 and out == "" else f"status {done.returncode}: {out}{said}"


def own_verdict(data):
    try:
        return verdict(data)
    except (LookupError, TypeError, ValueError, AttributeError) as crash:
        return f"crash: {crash!r}"


def group(program, seed, number, count):
    """The verdicts on one group of files, and those that differ."""
    told, differ, rng = collections.Counter(), [], random.Random(f"{seed} {number}")
    with tempfile.TemporaryDirectory() as folder:
        path = os.path.join(folder, "file")
        for data in files(rng, program, folder, count):
            with open(path, "wb") as file:
                file.write(data)
            own, other = own_verdict(data), audit(program, path)
            told[re.sub(r"^(legal|illegal|bad entry) .*", r"\1", own)] += 1
            if own != other:
                differ.append((data, own, other))
    return told, differ


def fuzz(program, count, seed, jobs):
    size, told, differ = 25, collections.Counter(), []
    tasks = [(program, seed, number, min(size, count - number * size)) for number in range((count + size - 1) // size)]
    with concurrent.futures.ProcessPoolExecutor(jobs) as pool:
        for more, others in pool.map(group, *zip(*tasks), chunksize=4):
            told += more
            differ += others
    for number, (data, own, other) in enumerate(differ):
        kept = os.path.join(tempfile.mkdtemp(prefix="decider-"), "file") if number == 0 else kept
        with open(f"{kept}{number}", "wb") as file:
            file.write(data)
        print(f"WRONG   {kept}{number}: `{own}` here, `{other}` there")
    kinds = ", ".join(f"{times:,} {kind}" for kind, times in told.most_common())
    print(f"{'WRONG' if differ else 'ok   '}   {told.total():,} files: {kinds}")
    return 1 if differ else 0
