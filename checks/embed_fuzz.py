"""Random calls to the heap in this process, each compared with an oracle that is written here from docs/specification.md alone.

    python3 checks/embed_fuzz.py librefheap.so [CALLS [SEED]]

The oracle holds a machine as Python objects: it knows which refusal comes first, which handle is free, what a collection keeps by the age of soft references, and
what goes where after it. It does not know in which order the references of one collection come to their queue, so it asks then (by `same`) which one came.
Before that a heap is opened with each limit out of its range.
"""
import os
import random
import sys
from ctypes import byref, c_bool, c_int64, c_uint8, c_uint32, c_uint64

sys.path.insert(0, os.path.join(os.path.dirname(os.path.abspath(__file__)), "..", "examples"))
import embed  # noqa: E402

MEMORY, FULL, NO_HANDLE, HANDLES_FULL, WRONG_KIND, NO_FIELD, WRONG_TYPE, NULL, NO_NAME, NAMES_FULL, BUSY, CLOSED = range(1, 13)
NO_SESSION, NOT_OUT, WOULD_WAIT, RESOURCES_FULL, NOT_OPEN, RANGE, IDLE = 13, 17, 18, 19, 32, 33, 34
BAD_CELLS, BAD_SESSIONS, BAD_RESOURCES, BAD_SOFT_AGE = 35, 36, 37, 38


class Refusal(Exception):
    pass


class Object:
    """Of a kind: plain, reference, queue, cleaner, cleanable or guard."""

    def __init__(self, kind, **parts):
        self.kind = kind
        self.__dict__.update(parts)

    def strong(self):
        if self.kind == "plain":
            return [v for v in self.fields if isinstance(v, Object)]
        if self.kind == "reference":
            return [self.queue] if self.queue and self.state in ("fresh", "pending") else []
        if self.kind == "queue":
            return [r for group in self.groups for r in group]
        return [self.cleanable] if self.kind == "guard" else []


class Mutator:
    def __init__(self):
        self.handles, self.fence, self.call = {}, None, None


def drop_empty(groups):
    while groups and not groups[0]:
        groups.pop(0)


class Oracle:
    """The machine. A call is a method; it gives what is told, or raises the refusal."""

    def __init__(self, cells, sessions, resources, soft_age):
        self.cells, self.limit, self.soft_age = cells, resources, soft_age
        self.sessions, self.mutators, self.names = sessions, {}, {}
        self.objects, self.pending, self.line, self.jobs = set(), [], [], {}
        self.held, self.clock, self.next, self.cycle = 0, 0, 1, False
        self.notes, self.faults, self.taken, self.ok, self.failed = [], [], 0, 0, 0

    # ---- What is there

    def mutator(self, k):
        if k not in self.mutators:
            raise Refusal(NO_SESSION)
        return self.mutators[k]

    def named(self, m, *operands):
        """The objects of handles; an operand is a handle, whether it may be null, and the kind that it has to be of."""
        for handle, _, _ in operands:
            if handle and handle not in m.handles:
                raise Refusal(NO_HANDLE)
        for handle, may_be_null, _ in operands:
            if not handle and not may_be_null:
                raise Refusal(NULL)
        found = [m.handles.get(handle) for handle, _, _ in operands]
        for o, (_, _, kind) in zip(found, operands):
            if o and kind and not (o.kind == "plain" and o.typed if kind == "record" else o.kind == kind):
                raise Refusal(WRONG_KIND)
        return found

    def free(self, m):
        if m.call:
            raise Refusal(BUSY)

    def room_for_handle(self, m):
        if len(m.handles) >= 250:
            raise Refusal(HANDLES_FULL)

    def give(self, m, o):
        if o is None:
            return 0
        handle = 1
        while handle in m.handles:
            handle += 1
        m.handles[handle] = o
        return handle

    def roots(self):
        for m in self.mutators.values():
            yield from m.handles.values()
            if m.fence:
                yield m.fence
        yield from self.names.values()
        for groups in (self.pending, self.line):
            for group in groups:
                yield from group
        for o in self.objects:
            if o.kind == "cleanable" and o.state in ("armed", "pending"):
                yield o

    # ---- Collections

    def kept(self, clears):
        seen, grey = set(), list(self.roots())
        while grey:
            o = grey.pop()
            if o in seen:
                continue
            seen.add(o)
            grey += o.strong()
            if o.kind == "reference" and o.strength == "soft" and o.referent and not clears and self.clock - o.used < self.soft_age:
                grey.append(o.referent)
        return seen

    def ready(self, kept):
        """Those that a collection puts on the pending list."""
        return {o for o in kept if o.kind in ("reference", "cleanable") and o.referent is not None and o.referent not in kept
                and (o.state == "armed" if o.kind == "cleanable" else o.state == "fresh" and o.queue is not None)}

    def collect(self, clears):
        kept = self.kept(clears)
        ready = self.ready(kept)
        for o in kept:
            if o.kind in ("reference", "cleanable") and o.referent is not None and o.referent not in kept:
                o.referent = None
        for o in ready:
            o.state = "pending"
        if ready:
            self.pending.append(ready)
        self.objects, self.clock, self.cycle = kept, self.clock + 1, False

    def make(self, cells):
        if len(self.objects) + cells > self.cells:
            self.collect(True)
            if len(self.objects) + cells > self.cells:
                raise Refusal(FULL)

    def new(self, k, o):
        m = self.mutator(k)
        self.free(m)
        self.room_for_handle(m)
        self.make(1)
        self.objects.add(o)
        return self.give(m, o)

    # ---- Calls

    def join(self, k):
        if k in self.mutators or k >= self.sessions:
            raise Refusal(NO_SESSION)
        self.mutators[k] = Mutator()

    def leave(self, k):
        self.free(self.mutator(k))
        del self.mutators[k]

    def dup(self, k, h):
        m = self.mutator(k)
        (o,) = self.named(m, (h, False, None))
        self.free(m)
        self.room_for_handle(m)
        return self.give(m, o)

    def drop(self, k, h):
        m = self.mutator(k)
        self.named(m, (h, False, None))
        self.free(m)
        del m.handles[h]

    def same(self, k, a, b):
        m = self.mutator(k)
        x, y = self.named(m, (a, True, None), (b, True, None))
        self.free(m)
        return x is y

    def field(self, k, h, f, kind, *values):
        m = self.mutator(k)
        o, *values = self.named(m, (h, False, kind), *[(v, True, None) for v in values])
        if f >= len(o.fields):
            raise Refusal(NO_FIELD)
        if isinstance(o.fields[f], int) != (kind == "record"):
            raise Refusal(WRONG_TYPE)
        self.free(m)
        return m, o, values

    def put(self, k, h, f, v):
        _, o, (value,) = self.field(k, h, f, "plain", v)
        o.fields[f] = value

    def get(self, k, h, f):
        m, o, _ = self.field(k, h, f, "plain")
        if o.fields[f] is not None:
            self.room_for_handle(m)
        return self.give(m, o.fields[f])

    def set_int(self, k, h, f, n):
        _, o, _ = self.field(k, h, f, "record")
        o.fields[f] = n

    def int(self, k, h, f):
        return self.field(k, h, f, "record")[1].fields[f]

    def reference(self, k, strength, h, q):
        m = self.mutator(k)
        referent, queue = self.named(m, (h, False, None), (q, True, "queue"))
        self.free(m)
        self.room_for_handle(m)
        self.make(1)
        o = Object("reference", strength=strength, referent=referent, queue=queue, state="fresh", used=self.clock)
        self.objects.add(o)
        return self.give(m, o)

    def of(self, k, r, kind="reference"):
        m = self.mutator(k)
        (o,) = self.named(m, (r, False, kind))
        self.free(m)
        return m, o

    def deref(self, k, r):
        m, o = self.of(k, r)
        if o.referent is None or o.strength == "phantom":
            return 0
        self.room_for_handle(m)
        o.used = self.clock
        return self.give(m, o.referent)

    def refers(self, k, r, h):
        m = self.mutator(k)
        o, x = self.named(m, (r, False, "reference"), (h, True, None))
        self.free(m)
        return o.referent is x

    def clear(self, k, r):
        self.of(k, r)[1].referent = None

    def enqueue(self, k, r):
        o = self.of(k, r)[1]
        o.referent, yes = None, o.queue is not None and o.state in ("fresh", "pending")
        if yes:
            self.to_queue([o])
        return yes

    def to_queue(self, references):
        for queue in {o.queue for o in references}:
            queue.groups.append({o for o in references if o.queue is queue})
        for o in references:
            o.state, o.queue = "queued", None

    def enqueued(self, k, r):
        return self.of(k, r)[1].state == "queued"

    def poll(self, k, q, which, empty=0):
        """`which` tells the handle's reference from among several."""
        m, o = self.of(k, q, "queue")
        drop_empty(o.groups)
        if not o.groups:
            if empty:
                raise Refusal(empty)
            return 0
        self.room_for_handle(m)
        group = o.groups[0]
        first = which(group) if len(group) > 1 else next(iter(group))
        group.remove(first)
        first.state = "removed"
        return self.give(m, first)

    def register(self, k, c, h, note):
        m = self.mutator(k)
        _, referent = self.named(m, (c, False, "cleaner"), (h, False, None))
        self.free(m)
        self.room_for_handle(m)
        self.make(1)
        o = Object("cleanable", referent=referent, action=self.next, value=note, token=False, state="armed")
        self.next += 1
        self.objects.add(o)
        return self.give(m, o)

    def take(self, m, by, o):
        if o.state == "spent":
            raise Refusal(IDLE)
        o.state, o.referent = "spent", None
        self.jobs[o.action] = (by, o)
        self.taken += 1
        if m:
            m.call = ("job", o.action)
        return (o.action, o.value, o.token)

    def clean(self, k, c):
        m, o = self.of(k, c, "cleanable")
        return self.take(m, k, o)

    def prepare(self, k):
        m = self.mutator(k)
        self.free(m)
        self.room_for_handle(m)
        if self.held >= self.limit:
            raise Refusal(RESOURCES_FULL)
        self.make(2)
        cleanable = Object("cleanable", action=self.next, value=None, token=True, state="armed", out=False)
        guard = Object("guard", cleanable=cleanable)
        cleanable.referent = guard
        self.next += 1
        self.held += 1
        self.objects |= {guard, cleanable}
        m.fence, m.call = guard, ("opening", None)

    def ended(self, k, call):
        m = self.mutator(k)
        if not m.call or m.call[0] != call:
            raise Refusal(NOT_OUT)
        o, m.fence, m.call = m.fence, None, None
        return m, o

    def adopt(self, k, token):
        m, guard = self.ended(k, "opening")
        guard.cleanable.value = token
        return self.give(m, guard)

    def give_up(self, k, fault):
        if not 1 <= fault <= 3:
            raise Refusal(RANGE)
        _, guard = self.ended(k, "opening")
        guard.cleanable.state, guard.cleanable.referent = "spent", None
        self.held -= 1

    def check_out(self, k, g):
        m = self.mutator(k)
        (o,) = self.named(m, (g, False, "guard"))
        if o.cleanable.state == "spent":
            raise Refusal(CLOSED)
        if o.cleanable.out:
            raise Refusal(BUSY)
        self.free(m)
        o.cleanable.out, m.fence, m.call = True, o, ("out", None)
        return o.cleanable.value

    def check_in(self, k, token, fault):
        if fault > 3:
            raise Refusal(RANGE)
        _, guard = self.ended(k, "out")
        guard.cleanable.out, guard.cleanable.value = False, token

    def stop(self, k, g):
        m = self.mutator(k)
        (o,) = self.named(m, (g, False, "guard"))
        if o.cleanable.state != "spent" and o.cleanable.out:
            raise Refusal(BUSY)
        self.free(m)
        return self.take(m, k, o.cleanable)

    def take_up(self, which):
        if any(by == 255 for by, _ in self.jobs.values()):
            raise Refusal(BUSY)
        while self.line:
            lined = {o for o in self.line[0] if o.state == "lined"}
            if lined:
                o = which(lined) if len(lined) > 1 else next(iter(lined))
                self.line[0].remove(o)
                return self.take(None, 255, o)
            self.line.pop(0)
        raise Refusal(IDLE)

    def finish(self, by, action, fault):
        if fault > 3:
            raise Refusal(RANGE)
        m = None if by == 255 else self.mutator(by)
        if self.jobs.get(action, (None, None))[0] != by:
            raise Refusal(NOT_OUT)
        o = self.jobs.pop(action)[1]
        self.held -= o.token
        if m:
            m.call = None
        if fault:
            self.failed += 1
            self.faults = (self.faults + [(action, fault)])[-256:]
        else:
            self.ok += 1
            if not o.token:
                self.notes = (self.notes + [o.value])[-256:]

    def hand_over_group(self):
        """All that one collection left pending, and how many that is."""
        drop_empty(self.pending)
        if not self.pending:
            return 0
        group = self.pending.pop(0)
        self.to_queue([o for o in group if o.kind == "reference" and o.state == "pending"])
        lined = {o for o in group if o.kind == "cleanable" and o.state == "pending"}
        for o in lined:
            o.state = "lined"
        if lined:
            self.line.append(lined)
        return len(group)

    def gc(self, k, clears):
        self.free(self.mutator(k))
        self.collect(clears)

    def begin(self):
        was, self.cycle = self.cycle, True
        return not was

    def abandon(self):
        was, self.cycle = self.cycle, False
        return was

    def bind(self, k, name, h):
        m = self.mutator(k)
        (o,) = self.named(m, (h, False, None))
        self.free(m)
        if name not in self.names and len(self.names) >= 256:
            raise Refusal(NAMES_FULL)
        self.names[name] = o

    def by_name(self, k, name):
        m = self.mutator(k)
        if name not in self.names:
            raise Refusal(NO_NAME)
        self.free(m)
        return m

    def find(self, k, name):
        m = self.by_name(k, name)
        self.room_for_handle(m)
        return self.give(m, self.names[name])

    def unbind(self, k, name):
        self.by_name(k, name)
        del self.names[name]

    def stat(self, k):
        self.free(self.mutator(k))
        return (len(self.objects), self.held, self.taken, self.ok, self.failed)

    def at(self, k, items, index):
        self.free(self.mutator(k))
        if index >= len(items):
            raise Refusal(IDLE)
        return items[index]


class Differs(Exception):
    pass


class Fuzz:
    """One heap and its oracle under random calls."""

    def __init__(self, library, rng):
        self.library, self.rng, self.heap = library, rng, embed.Struct()
        self.calls, self.refused = 0, 0
        self.limits = (rng.choice([16, 24, 64, 400, 3000]), rng.choice([1, 2, 3]), rng.choice([1, 4, 256]), rng.choice([0, 1, 2, 5]))
        self.top, self.most = rng.choice([6, 12, 40, 250]), rng.choice([8, 30, 120, 250])
        self.tokens = 0
        self.out = set()  # the tokens that the heap has
        if self.library.refheap_open(self.heap, *self.limits):
            raise Differs("open")
        self.oracle = Oracle(*self.limits)
        for k in range(self.limits[1]):
            self.compare("join", (k,), lambda k=k: self.oracle.join(k))

    # ---- One call

    def raw(self, name, *arguments):
        self.calls += 1
        return getattr(self.library, "refheap_" + name)(self.heap, *arguments)

    def compare(self, name, arguments, expected, of=None, read=lambda out: out.value):
        """Calls, and compares the number, and what is told or left."""
        out = of() if of else None
        before = read(out) if of else None
        number = self.raw(name, *arguments, *([byref(out)] if of else []))
        told = read(out) if of else None
        self.last = told
        try:
            want, number_wanted = expected(), 0
        except Refusal as refusal:
            want, number_wanted = before, refusal.args[0]
            self.refused += 1
        if number != number_wanted or (of and told != want):
            raise Differs(f"{name}{arguments}: {number} {told}, and not {number_wanted} {want}")
        return told if of and number == 0 else None

    def handle(self, name, arguments, expected):
        return self.compare(name, arguments, expected, c_uint8)

    def truth(self, name, arguments, expected):
        return self.compare(name, arguments, expected, c_bool)

    def job(self, name, arguments, expected):
        told = self.compare(name, arguments, expected, embed.Job, lambda j: (j.action, j.value, j.is_token))
        if told and told[2]:
            if told[1] not in self.out:
                raise Differs(f"token {told[1]} was given back twice, or never handed in")
            self.out.remove(told[1])
        return told

    # ---- What is random

    def k(self):
        return self.rng.randrange(self.limits[1]) if self.rng.random() < 0.98 else self.rng.randrange(256)

    def h(self, k=0, kind=None):
        handles = self.oracle.mutators[k].handles if k in self.oracle.mutators else {}
        if self.rng.random() < 0.9 and handles:
            fit = [h for h, o in handles.items() if kind is None or o.kind == kind]
            if fit:
                return self.rng.choice(fit)
        return self.rng.randrange(self.top + 2) if self.rng.random() < 0.97 else self.rng.randrange(256)

    def name(self):
        return self.rng.choice([b"a", b"b", b"some_name_9", b"x" * 32])

    def fault(self):
        return self.rng.choice([0, 0, 0, 1, 2, 3, 4, 2**32 - 1])

    # ---- Keeping the oracle's ignorance of order small: of the references that may come to a queue, all but one have a handle of mutator 0

    def hidden(self, without=()):
        mine = {id(o) for h, o in self.oracle.mutators[0].handles.items() if h not in without} if 0 in self.oracle.mutators else set()
        return [o for o in self.oracle.objects if o.kind == "reference" and (o.state == "queued" or (o.queue is not None and o.state != "removed")) and id(o) not in mine]

    def which_reference(self, group):
        """Which of a group mutator 0 was given just now."""
        handles = self.oracle.mutators[0].handles
        out, got = c_bool(), self.last
        for h, o in handles.items():
            if o in group:
                if self.raw("same", 0, got, h, byref(out)):
                    raise Differs("same")
                if out.value:
                    return o
        return next(o for o in group if o not in handles.values())

    # ---- Steps

    def due(self, k):
        """Mostly an end where one is owed, and a drop where handles run out."""
        m = self.oracle.mutators.get(k)
        if m is None or self.rng.random() < 0.15:
            return "join" if m is None and self.rng.random() < 0.5 else None
        if m.call:
            return {"opening": self.rng.choice(["adopt", "adopt", "adopt", "give_up"]), "out": "check_in", "job": "finish"}[m.call[0]]
        if len(m.handles) > self.most:
            return "drop"
        return "take_up" if self.oracle.line and self.rng.random() < 0.05 else None

    def step(self):
        rng, oracle, k = self.rng, self.oracle, self.k()
        what = self.due(k) or rng.choices(list(STEPS), list(STEPS.values()))[0]
        h = self.h(k)
        if what == "new":
            fields, bits = rng.choice([0, 8, 9, 255]) if rng.random() < 0.1 else rng.randrange(4), rng.choice([255, rng.randrange(256)])

            def new():
                if fields > 8:
                    raise Refusal(RANGE)
                return oracle.new(k, Object("plain", fields=[None if bits >> i & 1 else 0 for i in range(fields)], typed=True))
            self.handle("new", (k, fields, bits), new)
        elif what == "array":
            n = rng.choice([0, 1, 5, 70, 4096, 4097])

            def array():
                if not 1 <= n <= 4096:
                    raise Refusal(RANGE)
                return oracle.new(k, Object("plain", fields=[None] * n, typed=False))
            self.handle("array", (k, n), array)
        elif what in ("queue", "cleaner"):
            self.handle(what, (k,), lambda: oracle.new(k, Object(what, groups=[])))
        elif what == "dup":
            self.handle("dup", (k, h), lambda: oracle.dup(k, h))
        elif what == "drop":
            if k == 0 and len(self.hidden({h})) > 1:
                return
            self.compare("drop", (k, h), lambda: oracle.drop(k, h))
        elif what == "same":
            g = self.h(k)
            self.truth("same", (k, h, g), lambda: oracle.same(k, h, g))
        elif what in ("put", "get", "set_int", "int"):
            self.field(what, k, rng.choices([0, 1, 2, 4095, 4096, 65535], [8, 4, 2, 1, 1, 1])[0])
        elif what in ("soft", "weak", "phantom"):
            q = self.h(k, "queue") if rng.random() < 0.6 else 0
            if k != 0:
                q = 0
            self.handle(what, (k, h, q), lambda: oracle.reference(k, what, h, q))
        elif what == "refers":
            r = self.h(k, "reference")
            g = rng.choice([0, h])
            self.truth("refers", (k, r, g), lambda: oracle.refers(k, r, g))
        elif what in ("deref", "clear", "enqueue", "enqueued"):
            r = self.h(k, "reference")
            kind = self.handle if what == "deref" else self.compare if what == "clear" else self.truth
            kind(what, (k, r), lambda: getattr(oracle, what)(k, r))
        elif what in ("poll", "remove"):
            k = 0
            q = self.h(k, "queue")
            self.handle(what, (k, q), lambda: oracle.poll(k, q, self.which_reference, WOULD_WAIT if what == "remove" else 0))
        elif what == "register":
            c, note = self.h(k, "cleaner"), rng.randrange(2**32)
            self.handle("register", (k, c, h, note), lambda: oracle.register(k, c, h, note))
        elif what == "clean":
            c = self.h(k, "cleanable")
            o = oracle.mutators[k].handles.get(c) if k in oracle.mutators else None
            if o and o.kind == "cleanable" and any(o in group and len(group) > 1 for group in oracle.pending + oracle.line):
                return
            self.job("clean", (k, c), lambda: oracle.clean(k, c))
        elif what == "prepare":
            self.compare("prepare", (k,), lambda: oracle.prepare(k))
        elif what == "adopt":
            self.adopt(k)
        elif what == "give_up":
            fault = self.fault()
            self.compare("give_up", (k, fault), lambda: oracle.give_up(k, fault))
        elif what == "check_out":
            g = self.h(k, "guard")
            self.compare("check_out", (k, g), lambda: oracle.check_out(k, g), c_uint64)
        elif what == "check_in":
            self.check_in(k)
        elif what == "stop":
            g = self.h(k, "guard")
            self.job("stop", (k, g), lambda: oracle.stop(k, g))
        elif what == "take_up":
            self.job("take_up", (), lambda: oracle.take_up(lambda lined: next(o for o in lined if o.action == self.last[0])))
        elif what == "finish":
            actions = [(by, action) for action, (by, _) in oracle.jobs.items()]
            by, action = rng.choice(actions) if actions and rng.random() < 0.8 else (rng.choice([k, 255]), rng.randrange(50))
            fault = self.fault()
            self.compare("finish", (by, action, fault), lambda: oracle.finish(by, action, fault))
        elif what in ("gc", "gc_soft"):
            self.compare(what, (k,), lambda: oracle.gc(k, what == "gc_soft"))
        elif what == "hand_over":
            self.hand_over()
        elif what in ("begin", "abandon"):
            self.truth(what, (), getattr(oracle, what))
        elif what == "mark":
            self.mark(rng.choice([0, 1, 5, 64]))
        elif what == "cycle":
            self.cycle()
        elif what == "bind":
            name = self.name()
            self.compare("bind", (k, name, len(name), h), lambda: oracle.bind(k, name, h))
        elif what in ("find", "unbind"):
            name = self.name()
            kind = self.handle if what == "find" else self.compare
            kind(what, (k, name, len(name)), lambda: getattr(oracle, what)(k, name))
        elif what == "no_name":
            name = rng.choice([b"", b"A", b"x" * 33, b"a b", b"a\0"])

            def no_name():
                raise Refusal(RANGE)
            self.handle("find", (k, name, len(name)), no_name)
        elif what == "stat":
            self.compare("stat", (k,), lambda: oracle.stat(k), embed.Counts, lambda c: (c.objects, c.resources, c.taken, c.ok, c.failed))
        elif what == "name":
            i = rng.randrange(5)
            self.compare("name", (k, i), lambda: oracle.at(k, list(oracle.names), i), embed.c_char * 33, lambda c: c.value)
        elif what == "note":
            i = rng.choice([0, 1, 2, 255, 256, 2**63])
            self.compare("note", (k, i), lambda: oracle.at(k, oracle.notes, i), c_uint32)
        elif what == "failure":
            i = rng.choice([0, 1, 2, 255])
            self.compare("failure", (k, i), lambda: oracle.at(k, oracle.faults, i), embed.Failed, lambda f: (f.action, f.fault) if f.action else None)
        elif what == "leave" and (k != 0 or len(self.hidden(set(range(256)))) <= 1):
            self.compare("leave", (k,), lambda: oracle.leave(k))
        elif what == "join":
            self.compare("join", (k,), lambda: oracle.join(k))

    def field(self, what, k, f):
        rng, oracle = self.rng, self.oracle
        o, v, n = self.h(k, "plain"), self.h(k), rng.randrange(-(2**63), 2**63)

        def in_range(then):
            def expected():
                if f > 4095:
                    raise Refusal(RANGE)
                return then()
            return expected
        if what == "put":
            self.compare("put", (k, o, f, v), in_range(lambda: oracle.put(k, o, f, v)))
        elif what == "get":
            self.handle("get", (k, o, f), in_range(lambda: oracle.get(k, o, f)))
        elif what == "set_int":
            self.compare("set_int", (k, o, f, n), in_range(lambda: oracle.set_int(k, o, f, n)))
        else:
            self.compare("int", (k, o, f), in_range(lambda: oracle.int(k, o, f)), c_int64)

    def adopt(self, k):
        self.tokens += 1
        token = self.tokens << 40 | self.rng.randrange(2**40)
        if self.handle("adopt", (k, token), lambda: self.oracle.adopt(k, token)) is not None:
            self.out.add(token)

    def check_in(self, k):
        m, fault = self.oracle.mutators.get(k), self.fault()
        token = m.fence.cleanable.value if m and m.call and m.call[0] == "out" else 7
        self.compare("check_in", (k, token, fault), lambda: self.oracle.check_in(k, token, fault))

    def hand_over(self):
        for _ in range(self.oracle.hand_over_group()):
            if number := self.raw("hand_over"):
                raise Differs(f"hand_over: {number}, and something is pending")
        if not self.oracle.pending and self.raw("hand_over") != IDLE:
            raise Differs("hand_over: nothing is pending")

    def mark(self, budget):
        out = c_bool()
        number = self.raw("mark", budget, byref(out))
        if number != (0 if self.oracle.cycle else IDLE):
            raise Differs(f"mark: {number}")

    def cycle(self):
        """A whole cycle with nothing in between is a collection by the policy."""
        self.truth("abandon", (), self.oracle.abandon)
        self.truth("begin", (), self.oracle.begin)
        out = c_bool()
        while not out.value:
            if self.raw("mark", self.rng.choice([1, 7, 4096]), byref(out)):
                raise Differs("mark")

        def collected():
            self.oracle.collect(False)
            return True
        self.truth("collect", (), collected)
        self.truth("collect", (), lambda: False)


STEPS = {"new": 12, "array": 2, "queue": 3, "cleaner": 2, "dup": 2, "drop": 22, "same": 2, "put": 10, "get": 5, "set_int": 2, "int": 2, "soft": 4, "weak": 6, "phantom": 3,
         "refers": 3, "deref": 5, "clear": 1, "enqueue": 1, "enqueued": 2, "poll": 5, "remove": 2, "register": 4, "clean": 1, "prepare": 3, "adopt": 4, "give_up": 1,
         "check_out": 3, "check_in": 4, "stop": 1, "take_up": 3, "finish": 4, "gc": 2, "gc_soft": 1, "hand_over": 4, "begin": 0.5, "abandon": 0.5, "mark": 1, "cycle": 0.7,
         "bind": 1, "find": 1, "unbind": 1, "no_name": 0.3, "stat": 2, "name": 1, "note": 1, "failure": 1, "leave": 0.3, "join": 0.6}


# Limits (cells, sessions, resources, soft age) and what opens a heap of them, or the first of them that is out of its range.
OPENINGS = {
    (16, 1, 1, 0): 0, (65_536, 64, 256, 1_000): 0,
    (15, 1, 1, 0): BAD_CELLS, (65_537, 1, 1, 0): BAD_CELLS, (16, 0, 1, 0): BAD_SESSIONS, (16, 65, 1, 0): BAD_SESSIONS,
    (16, 1, 0, 0): BAD_RESOURCES, (16, 1, 257, 0): BAD_RESOURCES, (16, 1, 1, 1_001): BAD_SOFT_AGE, (0, 0, 0, 1_001): BAD_CELLS,
    (16, 2**32 - 1, 0, 1_001): BAD_SESSIONS, (16, 1, 0, 1_001): BAD_RESOURCES, (16, 1, 1, 2**32 - 1): BAD_SOFT_AGE, (2**32 - 1, 1, 1, 0): BAD_CELLS,
}


def wrong_openings(library):
    """Openings that are answered otherwise. One that is refused leaves a closed heap closed, and an open one as it is."""
    for limits, due in OPENINGS.items():
        heap = embed.Struct()
        told = library.refheap_open(heap, *limits), library.refheap_join(heap, 0)
        if told != (due, NOT_OPEN if due else 0):
            yield f"an opening with {limits}: {told[0]}, and not {due}; then a join: {told[1]}"
        library.refheap_close(heap)
        kept = library.refheap_open(heap, 16, 1, 1, 0), library.refheap_join(heap, 0)
        told = library.refheap_open(heap, *limits), library.refheap_join(heap, 0)
        if kept != (0, 0) or told != (due, NO_SESSION if due else 0):
            yield f"an opening of an open heap with {limits}: {told[0]}, and not {due}; then a join: {told[1]}"
        library.refheap_close(heap)


def main():
    library = embed.load(sys.argv[1])
    found = list(wrong_openings(library))
    if found:
        print("\n".join(found))
        return 1
    print(f"ok      {len(OPENINGS)} openings: each limit that is out of its range is told")
    calls, seed = int(sys.argv[2]) if len(sys.argv) > 2 else 1_000_000, int(sys.argv[3]) if len(sys.argv) > 3 else 1
    done = refused = heaps = 0
    while done < calls:
        fuzz = Fuzz(library, random.Random(seed))
        try:
            while fuzz.calls < 20_000 and done + fuzz.calls < calls:
                fuzz.step()
        except Differs as differs:
            print(f"seed {seed}, limits {fuzz.limits}, call {fuzz.calls}: {differs}")
            return 1
        done, refused, heaps, seed = done + fuzz.calls, refused + fuzz.refused, heaps + 1, seed + 1
        library.refheap_close(fuzz.heap)
        if library.refheap_gc(fuzz.heap, 0) != NOT_OPEN:
            print("a closed heap collects")
            return 1
    print(f"ok      {done} calls on {heaps} heaps, {refused} refused: the oracle agrees")
    return 0


if __name__ == "__main__":
    sys.exit(main())
