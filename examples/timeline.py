#!/usr/bin/env python3
"""Draws a saved history of refheap as an SVG.

    python3 examples/timeline.py HISTORY > picture.svg
    python3 examples/timeline.py HISTORY --from 1000 --entries 300 > picture.svg

From left to right stand the entries, one beside the other. From top to bottom:
one lane for each seat (a mark for each ask, red where it was refused), then one
lane for each object that lived meanwhile (references, cleanables and guards in
the colours of their states), then one for each file or socket from its open to
its end. A collection is a line through all lanes; what it cleared has a ring.

It needs nothing but Python's standard library and the description of the file
in docs/trace-file.md; it does not judge whether the history is legal
(`refheap audit` does).
"""
import argparse
import struct
import sys
from html import escape

NONE = 0xFFFFFFFF

ASKS = """Join Leave New Put Get SetInt Int Dup Drop Same MakeRef Deref Refers Clear Enqueue Enqueued MakeQueue
Poll Remove MakeCleaner Register Clean Prepare Opened CheckOut CheckIn Close Finish Bind Find Unbind Names Full
Stat Notes Faults HandOver TakeUp Begin Collect Abandon Array""".split()

# The operands of each ask behind its tag, a letter each: b u8, k a field's number, h u16, i i64, n u32, a u64, t text, o outcome, c outcome of a call.
OPERANDS = {
    "Join": "b", "Leave": "b", "New": "bt", "Put": "bbkb", "Get": "bbk", "SetInt": "bbki", "Int": "bbk", "Dup": "bb",
    "Drop": "bb", "Same": "bbb", "MakeRef": "bbbb", "Deref": "bb", "Refers": "bbb", "Clear": "bb", "Enqueue": "bb",
    "Enqueued": "bb", "MakeQueue": "b", "Poll": "bb", "Remove": "bb", "MakeCleaner": "b", "Register": "bbbn", "Clean": "bb",
    "Prepare": "b", "Opened": "bo", "CheckOut": "bb", "CheckIn": "bc", "Close": "bb", "Finish": "bao", "Bind": "btb",
    "Find": "bt", "Unbind": "bt", "Names": "b", "Full": "bb", "Stat": "b", "Notes": "b", "Faults": "b",
    "HandOver": "", "TakeUp": "", "Begin": "", "Collect": "", "Abandon": "", "Array": "bh",
}
OUTCOMES = ["ok", "notfound", "denied", "other"]
KINDS = ["soft", "weak", "phantom"]
REFERENCE_STATES = ["Fresh", "Pending", "Queued", "Removed"]
CLEAN_STATES = ["Armed", "Pending", "Lined", "Spent"]
RESOURCE_STATES = ["Opening", "Idle", "Out", "Closing"]


class Damaged(Exception):
    """The bytes are no saved history."""


# ---- Reading


class Bytes:
    """The bytes that are left."""

    def __init__(self, data):
        self.data = data
        self.place = 0
        self.version = 1

    def take(self, count):
        if len(self.data) - self.place < count:
            raise Damaged("the file ends too early")
        part = self.data[self.place:self.place + count]
        self.place += count
        return part

    def number(self, form):
        return struct.unpack(">" + form, self.take(struct.calcsize(form)))[0]

    def u8(self):
        return self.number("B")

    def u16(self):
        return self.number("H")

    def u32(self):
        return self.number("I")

    def u64(self):
        return self.number("Q")

    def slot(self):
        """A slot, or None."""
        number = self.u32()
        return None if number == NONE else number

    def text(self):
        return self.take(self.u8())

    def list(self, item):
        return [item() for _ in range(self.u32())]

    def work(self):
        """("note", number) or ("resource", rid)."""
        return ("resource" if self.u8() else "note", self.u32())


class Obj:
    """An object: its kind, what it holds, and when it lived."""

    def __init__(self, kind, born, **parts):
        self.kind = kind
        self.born = born
        self.died = None
        self.fields = parts.get("fields", [])
        self.referent = parts.get("referent")
        self.queue = parts.get("queue")
        self.members = parts.get("members", [])
        self.action = parts.get("action")
        self.work = parts.get("work")
        self.rid = parts.get("rid")
        self.cleanable = parts.get("cleanable")
        self.states = [(born, parts["state"])] if "state" in parts else []
        self.cleared = None

    @property
    def state(self):
        return self.states[-1][1]

    def become(self, number, state):
        if not self.states or self.states[-1][1] != state:
            self.states.append((number, state))


class Mutator:
    """A session: which slot each handle stands for, and the slot that its call holds."""

    def __init__(self):
        self.handles = {}
        self.fence = None


def read_object(bytes_, born):
    kind = bytes_.u8()
    if kind == 1:
        fields = [bytes_.slot() if bytes_.u8() else bytes_.number("q") for _ in range(bytes_.u8())]
        return Obj("plain", born, fields=fields)
    if kind == 2:
        sort = KINDS[bytes_.u8()]
        referent, queue = bytes_.slot(), bytes_.slot()
        return Obj(sort, born, referent=referent, queue=queue, state=REFERENCE_STATES[bytes_.u8()])
    if kind == 3:
        return Obj("queue", born, members=bytes_.list(bytes_.u32))
    if kind == 4:
        return Obj("cleaner", born)
    if kind == 5:
        referent, action, work = bytes_.slot(), bytes_.u64(), bytes_.work()
        return Obj("cleanable", born, referent=referent, action=action, work=work, state=CLEAN_STATES[bytes_.u8()])
    if kind == 6:
        return Obj("guard", born, rid=bytes_.u32(), cleanable=bytes_.u32())
    if kind == 7 and bytes_.version > 1:
        return Obj("array", born, fields=[bytes_.slot() for _ in range(bytes_.u16())])
    raise Damaged(f"an object of kind {kind}")


def read_mutator(bytes_):
    if not bytes_.u8():
        return None
    mutator = Mutator()
    for _ in range(bytes_.u32()):
        handle = bytes_.u8()
        mutator.handles[handle] = bytes_.u32()
    mutator.fence = bytes_.slot()
    call = bytes_.u8()
    if call in (1, 2):
        bytes_.u32()
    elif call == 3:
        bytes_.u64()
    return mutator


def read_operand(bytes_, letter):
    if letter == "b":
        return bytes_.u8()
    if letter == "k":
        return bytes_.u16() if bytes_.version > 1 else bytes_.u8()
    if letter == "h":
        return bytes_.u16()
    if letter == "i":
        return bytes_.number("q")
    if letter == "n":
        return bytes_.u32()
    if letter == "a":
        return bytes_.u64()
    if letter == "t":
        return bytes_.text().decode("ascii")
    if letter == "o":
        return OUTCOMES[bytes_.u8()]
    sort = bytes_.u8()
    return bytes_.text() if sort == 0 else bytes_.u8() if sort == 1 else OUTCOMES[bytes_.u8()]


def read_answer(bytes_):
    tag = bytes_.u8()
    readers = {
        0: ("Done", lambda: None), 1: ("Handle", bytes_.u8), 2: ("Truth", bytes_.u8), 3: ("Int", lambda: bytes_.number("q")),
        4: ("Data", bytes_.text), 5: ("Wrote", bytes_.u8), 6: ("Faulted", lambda: OUTCOMES[bytes_.u8()]),
        7: ("Names", lambda: bytes_.list(bytes_.text)), 8: ("Notes", lambda: bytes_.list(bytes_.u32)),
        9: ("Faults", lambda: bytes_.list(lambda: (bytes_.u64(), bytes_.u8()))), 10: ("Stat", lambda: [bytes_.u64() for _ in range(5)]),
        11: ("Job", lambda: (bytes_.u64(), bytes_.work())), 12: ("AlreadyDone", lambda: None), 13: ("Prepared", bytes_.u32),
        14: ("Out", bytes_.u32), 15: ("Handed", bytes_.u8), 16: ("Refused", bytes_.u8),
    }
    if tag not in readers:
        raise Damaged(f"an answer of tag {tag}")
    name, reader = readers[tag]
    return name, reader()


def read_choice(bytes_):
    """What a collection kept and put behind the pending list, or None twice; and the slots of new objects."""
    bits = bytes_.u8()
    kept = pending = None
    if bits & 1:
        kept, pending = set(bytes_.list(bytes_.u32)), bytes_.list(bytes_.u32)
    fresh = [bytes_.u32() for _ in range(bytes_.u8())] if bits & 2 else []
    return kept, pending, fresh


# ---- The history


class History:
    """The image that a file begins with, and what its entries make of it."""

    def __init__(self, data):
        self.bytes = Bytes(data)
        self.events = []
        self.collections = []
        self.resources = {}
        self.ended_resources = []
        self.dead = []
        self.names = {}
        self.image()
        self.count = self.bytes.u64()

    def image(self):
        bytes_ = self.bytes
        if bytes_.take(4) != b"JLRT":
            raise Damaged("this is no saved history")
        bytes_.version = bytes_.u8()
        if bytes_.version not in (1, 2):
            raise Damaged("another version of the file")
        bytes_.u32()
        self.sessions = bytes_.u8()
        bytes_.number("H")
        self.base = self.last = bytes_.u64()
        self.objects = {}
        for _ in range(bytes_.u32()):
            slot = bytes_.u32()
            self.objects[slot] = read_object(bytes_, self.base)
        self.mutators = [read_mutator(bytes_) for _ in range(self.sessions)]
        for _ in range(bytes_.u32()):
            name = bytes_.text().decode("ascii")
            self.names[name] = bytes_.u32()
        self.pending = bytes_.list(bytes_.u32)
        self.line = bytes_.list(bytes_.u32)
        self.jobs = {}
        for _ in range(bytes_.u32()):
            action, work, _by = bytes_.u64(), bytes_.work(), bytes_.u8()
            self.jobs[action] = work
        for _ in range(bytes_.u32()):
            rid, _action, state = bytes_.u32(), bytes_.u64(), RESOURCE_STATES[bytes_.u8()]
            self.resources[rid] = Resource(rid, self.base, state)
        bytes_.list(lambda: (bytes_.u64(), bytes_.u8()))
        bytes_.list(bytes_.u32)
        self.next_action = bytes_.u64()
        for _ in range(3):
            bytes_.u64()

    def entries(self, most):
        """Carries out so many entries."""
        for _ in range(min(self.count, most)):
            seat = self.bytes.u8()
            tag = self.bytes.u8()
            if tag >= len(ASKS) or (ASKS[tag] == "Array" and self.bytes.version == 1):
                raise Damaged(f"an ask of tag {tag}")
            ask = ASKS[tag]
            operands = [read_operand(self.bytes, letter) for letter in OPERANDS[ask]]
            answer = read_answer(self.bytes)
            choice = read_choice(self.bytes)
            self.last += 1
            self.events.append((self.last, seat, ask, operands, answer))
            self.carry_out(ask, operands, answer, choice)

    # ---- What an entry does

    def carry_out(self, ask, operands, answer, choice):
        kept, pending, fresh = choice
        if kept is not None:
            self.collect(kept, pending)
        if answer[0] == "Refused":
            return
        action = getattr(self, "on_" + ask.lower(), None)
        if action:
            action(operands, answer, fresh)

    def collect(self, kept, pending):
        cleared = [slot for slot, o in self.objects.items() if slot in kept and o.referent is not None and o.referent not in kept]
        removed = [slot for slot in self.objects if slot not in kept]
        for slot in cleared:
            self.objects[slot].referent = None
            self.objects[slot].cleared = self.last
        for slot in pending:
            self.objects[slot].become(self.last, "Pending")
        for slot in removed:
            self.remove(slot)
        self.pending += pending
        self.collections.append((self.last, len(removed), len(cleared)))

    def remove(self, slot):
        gone = self.objects.pop(slot)
        gone.died = self.last
        self.dead.append((slot, gone))

    def slot(self, mutator, handle):
        return self.mutators[mutator].handles.get(handle)

    def give(self, mutator, answer, slot):
        """The handle that was answered stands for the slot from now on."""
        if answer[0] == "Handle" and answer[1]:
            self.mutators[mutator].handles[answer[1]] = slot

    def make(self, slot, kind, **parts):
        self.objects[slot] = Obj(kind, self.last, **parts)

    def on_join(self, operands, answer, fresh):
        self.mutators[operands[0]] = Mutator()

    def on_leave(self, operands, answer, fresh):
        self.mutators[operands[0]] = None

    def on_new(self, operands, answer, fresh):
        mutator, layout = operands
        self.make(fresh[0], "plain", fields=[None if letter == "r" else 0 for letter in layout])
        self.give(mutator, answer, fresh[0])

    def on_array(self, operands, answer, fresh):
        self.make(fresh[0], "array", fields=[None] * operands[1])
        self.give(operands[0], answer, fresh[0])

    def on_put(self, operands, answer, fresh):
        mutator, object_, field, value = operands
        self.objects[self.slot(mutator, object_)].fields[field] = self.slot(mutator, value)

    def on_get(self, operands, answer, fresh):
        mutator, object_, field = operands
        self.give(mutator, answer, self.objects[self.slot(mutator, object_)].fields[field])

    def on_setint(self, operands, answer, fresh):
        mutator, object_, field, value = operands
        self.objects[self.slot(mutator, object_)].fields[field] = value

    def on_dup(self, operands, answer, fresh):
        self.give(operands[0], answer, self.slot(*operands))

    def on_drop(self, operands, answer, fresh):
        self.mutators[operands[0]].handles.pop(operands[1], None)

    def on_makeref(self, operands, answer, fresh):
        mutator, kind, referent, queue = operands
        self.make(fresh[0], KINDS[kind], referent=self.slot(mutator, referent), queue=self.slot(mutator, queue), state="Fresh")
        self.give(mutator, answer, fresh[0])

    def on_deref(self, operands, answer, fresh):
        self.give(operands[0], answer, self.objects[self.slot(*operands)].referent)

    def on_clear(self, operands, answer, fresh):
        self.objects[self.slot(*operands)].referent = None

    def on_enqueue(self, operands, answer, fresh):
        slot = self.slot(*operands)
        self.objects[slot].referent = None
        if answer[1]:
            self.queue_up(slot)

    def queue_up(self, slot):
        reference = self.objects[slot]
        self.objects[reference.queue].members.append(slot)
        reference.queue = None
        reference.become(self.last, "Queued")

    def on_makequeue(self, operands, answer, fresh):
        self.make(fresh[0], "queue", members=[])
        self.give(operands[0], answer, fresh[0])

    def on_poll(self, operands, answer, fresh):
        members = self.objects[self.slot(*operands)].members
        if answer[1]:
            member = members.pop(0)
            self.objects[member].become(self.last, "Removed")
            self.give(operands[0], answer, member)

    on_remove = on_poll

    def on_makecleaner(self, operands, answer, fresh):
        self.make(fresh[0], "cleaner")
        self.give(operands[0], answer, fresh[0])

    def on_register(self, operands, answer, fresh):
        mutator, _cleaner, object_, note = operands
        self.make(fresh[0], "cleanable", referent=self.slot(mutator, object_), action=self.next_action, work=("note", note), state="Armed")
        self.next_action += 1
        self.give(mutator, answer, fresh[0])

    def on_prepare(self, operands, answer, fresh):
        guard, cleanable = fresh
        rid = answer[1]
        self.make(guard, "guard", rid=rid, cleanable=cleanable)
        self.make(cleanable, "cleanable", referent=guard, action=self.next_action, work=("resource", rid), state="Armed")
        self.next_action += 1
        self.resources[rid] = Resource(rid, self.last, "Opening")
        self.mutators[operands[0]].fence = guard

    def on_opened(self, operands, answer, fresh):
        mutator, outcome = operands
        guard = self.mutators[mutator].fence
        if outcome == "ok":
            self.resources[self.objects[guard].rid].become(self.last, "Idle")
        else:
            self.end_resource(self.objects[guard].rid)
            self.spend(self.objects[guard].cleanable)
        self.give(mutator, answer, guard)
        self.mutators[mutator].fence = None

    def spend(self, slot):
        self.objects[slot].referent = None
        self.objects[slot].become(self.last, "Spent")

    def end_resource(self, rid):
        resource = self.resources.pop(rid)
        resource.died = self.last
        self.ended_resources.append(resource)

    def on_checkout(self, operands, answer, fresh):
        guard = self.slot(*operands)
        self.resources[answer[1]].become(self.last, "Out")
        self.mutators[operands[0]].fence = guard

    def on_checkin(self, operands, answer, fresh):
        mutator = self.mutators[operands[0]]
        self.resources[self.objects[mutator.fence].rid].become(self.last, "Idle")
        mutator.fence = None

    def take_up(self, slot, answer):
        if answer[0] != "Job":
            return
        action, work = answer[1]
        self.spend(slot)
        self.jobs[action] = work
        if work[0] == "resource":
            self.resources[work[1]].become(self.last, "Closing")

    def on_clean(self, operands, answer, fresh):
        self.take_up(self.slot(*operands), answer)

    def on_close(self, operands, answer, fresh):
        self.take_up(self.objects[self.slot(*operands)].cleanable, answer)

    def on_takeup(self, operands, answer, fresh):
        while self.line:
            slot = self.line.pop(0)
            if self.objects[slot].state == "Lined":
                self.take_up(slot, answer)
                return

    def on_finish(self, operands, answer, fresh):
        work = self.jobs.pop(operands[1], None)
        if work and work[0] == "resource":
            self.end_resource(work[1])

    def on_bind(self, operands, answer, fresh):
        self.names[operands[1]] = self.slot(operands[0], operands[2])

    def on_find(self, operands, answer, fresh):
        self.give(operands[0], answer, self.names[operands[1]])

    def on_unbind(self, operands, answer, fresh):
        self.names.pop(operands[1], None)

    def on_handover(self, operands, answer, fresh):
        if answer == ("Handed", 3):
            return
        slot = self.pending.pop(0)
        if answer == ("Handed", 0):
            self.queue_up(slot)
        elif answer == ("Handed", 1):
            self.objects[slot].become(self.last, "Lined")
            self.line.append(slot)


class Resource:
    """A file or socket, from its open to its end."""

    def __init__(self, rid, born, state):
        self.rid = rid
        self.born = born
        self.died = None
        self.states = [(born, state)]

    def become(self, number, state):
        self.states.append((number, state))


# ---- Drawing

COLOURS = {
    "plain": "#9db4c0", "array": "#7c9aa8", "queue": "#c9ada7", "cleaner": "#b5a7d6", "guard": "#e0b070", "Fresh": "#7fb069", "Pending": "#f4d35e",
    "Queued": "#ee964b", "Removed": "#bbbbbb", "Armed": "#7fb069", "Lined": "#ee964b", "Spent": "#bbbbbb", "Opening": "#f4d35e",
    "Idle": "#7fb069", "Out": "#4f86c6", "Closing": "#ee964b",
}
STEP, LANE, LEFT, TOP = 10, 16, 150, 40


class Picture:
    """Lanes over a stretch of entries."""

    def __init__(self, first, last):
        self.first = first
        self.last = last
        self.lanes = 0
        self.width = 0
        self.parts = []

    def x(self, number):
        return LEFT + (min(max(number, self.first - 1), self.last + 1) - self.first + 1) * STEP

    def y(self):
        return TOP + self.lanes * LANE

    def lane(self, name):
        self.text(4, self.y() + 11, name)
        self.lanes += 1

    def text(self, x, y, words):
        self.parts.append(f'<text x="{x}" y="{y}">{escape(words)}</text>')

    def bar(self, start, end, colour, title):
        width = max(self.x(end) - self.x(start), 2)
        self.parts.append(
            f'<rect x="{self.x(start)}" y="{self.y() + 2}" width="{width}" height="{LANE - 4}" fill="{colour}"><title>{escape(title)}</title></rect>')

    def mark(self, number, colour, title):
        self.parts.append(f'<circle cx="{self.x(number)}" cy="{self.y() + LANE // 2}" r="3.5" fill="{colour}"><title>{escape(title)}</title></circle>')

    def ring(self, number):
        self.parts.append(f'<circle cx="{self.x(number)}" cy="{self.y() + LANE // 2}" r="5" fill="none" stroke="#c1121f" stroke-width="1.5"/>')

    def heading(self, words):
        self.lanes += 1
        self.parts.append(f'<text class="heading" x="4" y="{self.y() + 11}">{escape(words)}</text>')
        self.lanes += 1

    def down(self, number, words):
        x = self.x(number)
        self.parts.insert(0, f'<line x1="{x}" y1="{TOP - 6}" x2="{x}" y2="HEIGHT" stroke="#c1121f" stroke-dasharray="3 3"><title>{escape(words)}</title></line>')
        self.text(x - 8, TOP - 10, "gc")

    def svg(self):
        height = self.y() + LANE
        width = max(self.width, self.x(self.last + 1) + 20)
        body = "\n".join(self.parts).replace("HEIGHT", str(height))
        return (f'<svg xmlns="http://www.w3.org/2000/svg" width="{width}" height="{height}" viewBox="0 0 {width} {height}">\n'
                '<style>text{font:11px sans-serif;fill:#333}.heading{font-weight:bold}</style>\n'
                f'<rect width="{width}" height="{height}" fill="white"/>\n{body}\n</svg>')


def words_of(ask, operands, answer):
    given = " ".join(str(o) for o in operands)
    said = answer[0] if answer[1] is None else f"{answer[0]} {answer[1]}"
    return f"{ask} {given} -> {said}"


def seat_name(seat, sessions):
    return f"session {seat}" if seat < sessions else ["marker", "handler", "cleaner"][seat - sessions] if seat < sessions + 3 else f"seat {seat}"


def draw_seats(picture, history, events):
    for seat in sorted({event[1] for event in events}):
        for number, its, ask, operands, answer in events:
            if its == seat:
                colour = "#c1121f" if answer[0] == "Refused" else "#33658a"
                picture.mark(number, colour, f"{number}: {words_of(ask, operands, answer)}")
        picture.lane(seat_name(seat, history.sessions))


def draw_life(picture, name, thing, colour):
    """A bar in the colours of its states, or in one where it has none."""
    end = thing.died if thing.died is not None else picture.last + 1
    states = thing.states or [(thing.born, colour)]
    for k, (start, state) in enumerate(states):
        until = states[k + 1][0] if k + 1 < len(states) else end
        if until >= picture.first and start <= picture.last:
            picture.bar(start, until, COLOURS[state], f"{name}, {state}: {start} to {until}")


def draw_objects(picture, history, most):
    everything = history.dead + list(history.objects.items())
    shown = [(slot, o) for slot, o in everything if o.born <= picture.last and (o.died is None or o.died >= picture.first)]
    shown.sort(key=lambda pair: (pair[1].born, pair[0]))
    for slot, thing in shown[:most]:
        name = f"{thing.kind} in {slot}"
        draw_life(picture, name, thing, thing.kind)
        if thing.cleared and picture.first <= thing.cleared <= picture.last:
            picture.ring(thing.cleared)
        picture.lane(name)
    if len(shown) > most:
        picture.lane(f"and {len(shown) - most} more")


def draw_resources(picture, history):
    for resource in sorted(history.ended_resources + list(history.resources.values()), key=lambda r: (r.born, r.rid)):
        if resource.born <= picture.last and (resource.died is None or resource.died >= picture.first):
            draw_life(picture, f"file or socket {resource.rid}", resource, "Idle")
            picture.lane(f"file or socket {resource.rid}")


LEGEND = [("Fresh, Armed, Idle", "Fresh"), ("Pending, Opening", "Pending"), ("Queued, Lined, Closing", "Queued"), ("Out", "Out"),
          ("Removed, Spent", "Removed")]


def draw_legend(picture):
    picture.lanes += 1
    x, y = 4, picture.y()
    for words, state in LEGEND:
        picture.parts.append(f'<rect x="{x}" y="{y + 2}" width="12" height="{LANE - 4}" fill="{COLOURS[state]}"/>')
        picture.text(x + 16, y + 11, words)
        x += 24 + 7 * len(words)
    picture.width = max(picture.width, x)
    picture.lanes += 1


def draw(history, first, count, most):
    events = [event for event in history.events if first <= event[0] < first + count]
    if not events:
        raise Damaged(f"there are no entries from {first} on: the history has {history.base + 1} to {history.last}")
    picture = Picture(events[0][0], events[-1][0])
    for number in range(picture.first, picture.last + 1):
        if number % 10 == 0:
            picture.text(picture.x(number) - 6, 14, str(number))
    for number, removed, cleared in history.collections:
        if picture.first <= number <= picture.last:
            picture.down(number, f"{number}: a collection removed {removed} and cleared {cleared}")
    picture.heading("Seats")
    draw_seats(picture, history, events)
    picture.heading("Objects")
    draw_objects(picture, history, most)
    picture.heading("Files and sockets")
    draw_resources(picture, history)
    draw_legend(picture)
    return picture.svg()


def main():
    parser = argparse.ArgumentParser(description="Draws a saved history of refheap as an SVG.")
    parser.add_argument("history", help="the file that --save wrote")
    parser.add_argument("--from", dest="first", type=int, help="the first entry that is drawn (the first of the file)")
    parser.add_argument("--entries", type=int, default=400, help="how many entries are drawn (400)")
    parser.add_argument("--objects", type=int, default=200, help="how many objects are drawn (200)")
    chosen = parser.parse_args()
    try:
        with open(chosen.history, "rb") as file:
            history = History(file.read())
        first = history.base + 1 if chosen.first is None else chosen.first
        history.entries(max(first + chosen.entries - 1 - history.base, 0))
        print(draw(history, first, chosen.entries, chosen.objects))
    except (OSError, Damaged) as fault:
        sys.exit(f"timeline: {fault}")
    except (AttributeError, IndexError, KeyError, TypeError) as fault:
        sys.exit(f"timeline: the entries do not follow from one another: {fault!r}")


if __name__ == "__main__":
    main()
