"""The machine, for checks/decider/decider.py, from docs/specification.md alone: which images are well formed, and which entries are legal.

Asks, answers and works are plain values as the file has them: a number, and a tuple of what follows it. A choice is the lists that were
recorded, each None where the file has none. `load` makes a machine of an image, `is_well_formed` judges it, `step` carries an entry out.
"""
from dataclasses import dataclass, fields
from enum import IntEnum
from typing import Callable, Optional

Ask = IntEnum("Ask", """JOIN LEAVE NEW PUT GET SET_INT INT DUP DROP SAME MAKE_REF DEREF REFERS CLEAR ENQUEUE ENQUEUED MAKE_QUEUE POLL REMOVE
    MAKE_CLEANER REGISTER CLEAN PREPARE OPENED CHECK_OUT CHECK_IN CLOSE FINISH BIND FIND UNBIND NAMES FULL STAT NOTES FAULTS HAND_OVER
    TAKE_UP BEGIN COLLECT ABANDON ARRAY""", start=0)
Answer = IntEnum("Answer", """DONE HANDLE TRUTH INT DATA WROTE FAULTED NAMES NOTES FAULTS STAT JOB ALREADY_DONE PREPARED OUT HANDED
    REFUSED""", start=0)
RefKind = IntEnum("RefKind", "SOFT WEAK PHANTOM", start=0)
RefState = IntEnum("RefState", "FRESH PENDING QUEUED REMOVED", start=0)
CleanState = IntEnum("CleanState", "ARMED PENDING LINED SPENT", start=0)
Life = IntEnum("Life", "OPENING IDLE OUT CLOSING", start=0)
Call = IntEnum("Call", "NONE OPENING OUT JOB", start=0)
Handed = IntEnum("Handed", "QUEUED LINED SKIPPED NOTHING", start=0)


class Why(IntEnum):
    NO_MEMORY, HEAP_FULL, NO_HANDLE, HANDLES_FULL, WRONG_KIND, NO_FIELD, WRONG_TYPE, NULL, NO_NAME, NAMES_FULL = range(1, 11)
    BUSY, CLOSED, NO_SESSION, EXHAUSTED, MALFORMED, TOO_LONG, NOT_OUT, WOULD_WAIT, RESOURCES_FULL = range(11, 20)


CLEANER = 255
HANDLES, NAMES, KEPT_LAST = 250, 256, 256
NO_ACTION = 2**64 - 1
NO_CALL = (Call.NONE, ())
DONE = (Answer.DONE, ())
INTEGER, REFERENCE = 0, 1
ENDS = frozenset({Ask.LEAVE, Ask.OPENED, Ask.CHECK_IN, Ask.FINISH})


# ---- Objects and the machine

@dataclass(slots=True)
class Plain:
    fields: list


@dataclass(slots=True)
class Reference:
    kind: int
    referent: Optional[int]
    queue: Optional[int]
    state: int


@dataclass(slots=True)
class Queue:
    members: list


@dataclass(slots=True)
class Cleaner:
    pass


@dataclass(slots=True)
class Cleanable:
    referent: Optional[int]
    action: int
    work: tuple
    state: int


@dataclass(slots=True)
class Guard:
    place: int
    cleanable: int


@dataclass(slots=True)
class Array:
    elements: list


CLASSES = {1: Plain, 2: Reference, 3: Queue, 4: Cleaner, 5: Cleanable, 6: Guard, 7: Array}
KINDS = {cls: kind for kind, cls in CLASSES.items()}


@dataclass(slots=True)
class Session:
    handles: dict
    fence: Optional[int] = None
    call: tuple = NO_CALL


@dataclass(slots=True)
class Image:
    """What the file says, in its order; lists of tuples."""
    cells: int
    limit: int
    base: int
    objects: list
    sessions: list
    names: list
    pending: list
    line: list
    jobs: list
    resources: list
    faults: list
    notes: list
    counts: tuple


@dataclass(slots=True)
class Machine:
    cells: int
    limit: int
    objects: dict
    sessions: list
    names: dict
    pending: list
    line: list
    jobs: dict          # action: (work, taker)
    resources: dict     # place: (action, life)
    faults: list
    notes: list
    next_action: int
    taken: int
    ok: int
    failed: int
    seen: Optional[set] = None      # in a cycle

    def roots(self) -> set:
        found = {*self.names.values(), *self.pending, *self.line}
        for session in self.sessions:
            if session is not None:
                found.update(session.handles.values())
                if session.fence is not None:
                    found.add(session.fence)
        for slot, thing in self.objects.items():
            if type(thing) is Cleanable and thing.state in (CleanState.ARMED, CleanState.PENDING):
                found.add(slot)
        return found

    def reach(self, starts, soft=()) -> set:
        """What leads from the starts by strong edges, and by soft ones to members of `soft`."""
        found = set(starts)
        todo = list(found)
        while todo:
            thing = self.objects[todo.pop()]
            leads = list(strong_edges(thing))
            if type(thing) is Reference and thing.kind == RefKind.SOFT and thing.referent in soft:
                leads.append(thing.referent)
            fresh = [slot for slot in leads if slot not in found]
            found.update(fresh)
            todo += fresh
        return found

    def collect(self, kept: set) -> list:
        """Keeps these objects alone; gives those that became pending."""
        self.objects = {slot: thing for slot, thing in self.objects.items() if slot in kept}
        self.seen = None
        made = []
        for slot, thing in self.objects.items():
            if type(thing) not in (Reference, Cleanable) or thing.referent is None or thing.referent in kept:
                continue
            thing.referent = None
            if type(thing) is Cleanable and thing.state == CleanState.ARMED:
                thing.state = CleanState.PENDING
                made.append(slot)
            elif type(thing) is Reference and thing.state == RefState.FRESH and thing.queue is not None:
                thing.state = RefState.PENDING
                made.append(slot)
        return made

    def look(self):
        """After an entry of a cycle: what was seen."""
        if self.seen is not None:
            self.seen |= self.reach(self.roots(), self.objects)


def strong_edges(thing):
    kind = type(thing)
    if kind is Plain:
        return [value for sort, (value,) in thing.fields if sort == REFERENCE and value is not None]
    if kind is Array:
        return [value for value in thing.elements if value is not None]
    if kind is Queue:
        return thing.members
    if kind is Reference and thing.state in (RefState.FRESH, RefState.PENDING) and thing.queue is not None:
        return [thing.queue]
    return [thing.cleanable] if kind is Guard else []


def copied(values):
    return [list(value) if type(value) is list else value for value in values]


def load(image: Image) -> Optional[Machine]:
    """The machine; None where two names are alike."""
    if not are_distinct([name for name, _ in image.names]):
        return None
    objects = {slot: CLASSES[kind](*copied(body)) for slot, (kind, body) in image.objects}
    sessions = [Session(dict(body[0]), *body[1:]) if joined else None for joined, body in image.sessions]
    return Machine(image.cells, image.limit, objects, sessions, dict(image.names), list(image.pending), list(image.line), dict(image.jobs),
                   dict(image.resources), list(image.faults), list(image.notes), *image.counts)


def dump(m: Machine, base: int) -> Image:
    values = lambda thing: tuple(copied(getattr(thing, part.name) for part in fields(thing)))
    objects = [(slot, (KINDS[type(thing)], values(thing))) for slot, thing in sorted(m.objects.items(), key=lambda item: item[0])]
    sessions = [(0, ()) if s is None else (1, (sorted(s.handles.items()), s.fence, s.call)) for s in m.sessions]
    return Image(m.cells, m.limit, base, objects, sessions, list(m.names.items()), list(m.pending), list(m.line), sorted(m.jobs.items()),
                 sorted(m.resources.items()), list(m.faults), list(m.notes), (m.next_action, m.taken, m.ok, m.failed))


# ---- Well-formed machines (section 17)

def are_distinct(values: list) -> bool:
    return len(set(values)) == len(values)


def all_of(m: Machine, kind: type) -> list:
    return [(slot, thing) for slot, thing in m.objects.items() if type(thing) is kind]


def are_slots_named(m: Machine) -> bool:
    objects = m.objects
    named = m.roots()
    for thing in objects.values():
        named.update(strong_edges(thing))
        if type(thing) in (Reference, Cleanable) and thing.referent is not None:
            named.add(thing.referent)
    return (all(slot < m.cells for slot in objects) and all(slot in objects for slot in named)
            and all(ref.queue is None or type(objects.get(ref.queue)) is Queue for _, ref in all_of(m, Reference))
            and all(type(objects[guard.cleanable]) is Cleanable for _, guard in all_of(m, Guard)))


def are_references(m: Machine) -> bool:
    members = [slot for _, queue in all_of(m, Queue) for slot in queue.members]
    is_queued = lambda thing: type(thing) is Reference and thing.state == RefState.QUEUED
    if not are_distinct(members) or not all(is_queued(m.objects[slot]) for slot in members):
        return False
    for _, ref in all_of(m, Reference):
        if ref.state != RefState.FRESH and (ref.referent is not None or (ref.queue is not None) != (ref.state == RefState.PENDING)):
            return False
    return True


def are_lists(m: Machine) -> bool:
    refs, cleanables = dict(all_of(m, Reference)), dict(all_of(m, Cleanable))
    pending = {slot for slot, ref in refs.items() if ref.state == RefState.PENDING}
    pending |= {slot for slot, it in cleanables.items() if it.state == CleanState.PENDING}
    lined = {slot for slot, it in cleanables.items() if it.state == CleanState.LINED}
    spent = {slot for slot, it in cleanables.items() if it.state == CleanState.SPENT}
    past = {slot for slot, ref in refs.items() if ref.state in (RefState.QUEUED, RefState.REMOVED)}
    return (are_distinct(m.pending) and are_distinct(m.line)
            and pending <= set(m.pending) <= pending | past | spent and lined <= set(m.line) <= lined | spent)


def are_sessions(m: Machine) -> bool:
    for session in m.sessions:
        if session is not None:
            most = HANDLES - 1 if session.call[0] == Call.OPENING else HANDLES
            if len(session.handles) > most or not all(1 <= handle <= HANDLES for handle in session.handles):
                return False
    return len(m.names) <= NAMES


def are_actions(m: Machine) -> bool:
    cleanables = [it for _, it in all_of(m, Cleanable)]
    unspent = [it.action for it in cleanables if it.state != CleanState.SPENT]
    actions = unspent + list(m.jobs)
    numbers = [it.action for it in cleanables] + list(m.jobs) + [action for action, _ in m.faults]
    return (are_distinct(actions) and all(1 <= action < m.next_action for action in numbers)
            and all(it.referent is None or it.state == CleanState.ARMED for it in cleanables)
            and sum(taker == CLEANER for _, taker in m.jobs.values()) <= 1
            and m.taken == m.ok + m.failed + len(m.jobs) and m.taken + len(unspent) < m.next_action)


def are_works(m: Machine) -> bool:
    """Resources, and the works of unspent cleanables and running jobs, belong together one by one."""
    works = []
    for _, it in all_of(m, Cleanable):
        if it.state != CleanState.SPENT and it.work[0]:
            lives = [Life.IDLE, Life.OPENING, Life.OUT] if it.state == CleanState.ARMED else [Life.IDLE]
            works.append((it.work[1][0], it.action, lives))
    works += [(work[1][0], action, [Life.CLOSING]) for action, (work, _) in m.jobs.items() if work[0]]
    fits = lambda place, action, lives: place in m.resources and m.resources[place][0] == action and m.resources[place][1] in lives
    return sorted(place for place, _, _ in works) == sorted(m.resources) and all(fits(*work) for work in works)


def are_guards(m: Machine) -> bool:
    guards = all_of(m, Guard)
    guarded = [guard.cleanable for _, guard in guards]
    for slot, guard in guards:
        it = m.objects[guard.cleanable]
        own = it.state == CleanState.ARMED and it.referent == slot and it.work == (1, (guard.place,))
        if it.state != CleanState.SPENT and not own:
            return False
    armed = {slot for slot, it in all_of(m, Cleanable) if it.state == CleanState.ARMED and it.work[0]}
    return are_distinct(guarded) and armed <= set(guarded)


def has_its_fence(m: Machine, session: Session) -> bool:
    kind, body = session.call
    if kind not in (Call.OPENING, Call.OUT):
        return session.fence is None
    guard = m.objects.get(session.fence)
    if type(guard) is not Guard or guard.place != body[0] or m.objects[guard.cleanable].state != CleanState.ARMED:
        return False
    return guard.place in m.resources and m.resources[guard.place][1] == (Life.OPENING if kind == Call.OPENING else Life.OUT)


def are_calls(m: Machine) -> bool:
    joined = [(number, session) for number, session in enumerate(m.sessions) if session is not None]
    calls = [session.call for _, session in joined if session.call[0] in (Call.OPENING, Call.OUT)]
    due = [(Call.OPENING if life == Life.OPENING else Call.OUT, (place,)) for place, (_, life) in m.resources.items()
           if life in (Life.OPENING, Life.OUT)]
    jobs = [(number, session.call[1][0]) for number, session in joined if session.call[0] == Call.JOB]
    owed = [(taker, action) for action, (_, taker) in m.jobs.items() if taker != CLEANER]
    return all(has_its_fence(m, session) for _, session in joined) and sorted(calls) == sorted(due) and sorted(jobs) == sorted(owed)


def is_being_opened(m: Machine, guard: Guard) -> bool:
    return m.objects[guard.cleanable].state != CleanState.SPENT and m.resources[guard.place][1] == Life.OPENING


def are_private(m: Machine) -> bool:
    hidden = {slot for slot, it in all_of(m, Cleanable) if it.work[0]}
    hidden |= {slot for slot, guard in all_of(m, Guard) if is_being_opened(m, guard)}
    named = set(m.names.values())
    for session in m.sessions:
        if session is not None:
            named.update(session.handles.values())
    for thing in m.objects.values():
        if type(thing) in (Plain, Array):
            named.update(strong_edges(thing))
        elif type(thing) is Reference:
            named.add(thing.referent)
    return not hidden & named


def is_well_formed(m: Machine) -> bool:
    parts = (are_slots_named, are_references, are_lists, are_sessions, are_actions, are_works, are_guards, are_calls, are_private)
    return all(part(m) for part in parts) and len(m.faults) <= KEPT_LAST and len(m.notes) <= KEPT_LAST


# ---- One ask: its refusals (section 13), what it does, and its answer (section 14)

def truth(value: bool) -> tuple:
    return Answer.TRUTH, (int(value),)


def refused(why: Why) -> tuple:
    return Answer.REFUSED, (why,)


@dataclass(slots=True)
class Turn:
    """An ask on its way: the checks give a reason or None, the acts carry it out and give the answer."""
    m: Machine
    ask: int
    args: tuple
    session: Optional[Session]
    fresh: Optional[list] = None
    given: tuple = DONE     # the answer that the entry has: it tells `Prepare` its place, and `Collect` whether

    def slot(self, place: int = 1) -> Optional[int]:
        return self.session.handles.get(self.args[place])

    def thing(self, place: int = 1):
        return self.m.objects[self.slot(place)]

    def guarded(self) -> Cleanable:
        return self.m.objects[self.thing().cleanable]

    # What it would give: a slot or None

    def got(self):
        thing, k = self.thing(), self.args[2]
        return thing.elements[k] if type(thing) is Array else thing.fields[k][1][0]

    def referent(self):
        return None if self.thing().kind == RefKind.PHANTOM else self.thing().referent

    def front(self):
        return next(iter(self.thing().members), None)

    # Checks

    def reference_field(self, sort=REFERENCE):
        thing, k = self.thing(), self.args[2]
        if k >= len(thing.elements if type(thing) is Array else thing.fields):
            return Why.NO_FIELD
        return Why.WRONG_TYPE if type(thing) is Plain and thing.fields[k][0] != sort else None

    def integer_field(self):
        return self.reference_field(INTEGER)

    def a_name(self):
        return None if self.args[1] in self.m.names else Why.NO_NAME

    def still_open(self):
        return Why.CLOSED if self.guarded().state == CleanState.SPENT else None

    def idle(self):
        return None if self.session.call is NO_CALL or self.session.call == NO_CALL else Why.BUSY

    def idle_guard(self):
        is_out = self.guarded().state != CleanState.SPENT and self.m.resources[self.thing().place][1] == Life.OUT
        return Why.BUSY if is_out else self.idle()

    def idle_cleaner(self):
        return Why.BUSY if any(taker == CLEANER for _, taker in self.m.jobs.values()) else None

    def opens(self):
        return None if self.session.call[0] == Call.OPENING else Why.NOT_OUT

    def has_out(self):
        return None if self.session.call[0] == Call.OUT else Why.NOT_OUT

    def has_job(self):
        by, action, _ = self.args
        return None if action in self.m.jobs and self.m.jobs[action][1] == by else Why.NOT_OUT

    def a_member(self):
        return Why.WOULD_WAIT if self.front() is None else None

    def a_handle(self):
        return Why.HANDLES_FULL if len(self.session.handles) >= HANDLES else None

    def handle_for_field(self):
        return None if self.got() is None else self.a_handle()

    def handle_for_referent(self):
        return None if self.referent() is None else self.a_handle()

    def handle_for_front(self):
        return None if self.front() is None else self.a_handle()

    def room_for_name(self):
        return Why.NAMES_FULL if self.args[1] not in self.m.names and len(self.m.names) >= NAMES else None

    def room_for_resource(self):
        return Why.RESOURCES_FULL if len(self.m.resources) >= self.m.limit else None

    def an_action(self):
        return Why.EXHAUSTED if self.m.next_action >= NO_ACTION else None

    def refusal(self) -> Optional[Why]:
        """The first reason in the page's order, but for HeapFull and NoMemory."""
        args, session, rule = self.args, self.session, RULES[self.ask]
        if self.ask == Ask.JOIN:
            return Why.NO_SESSION if session is not None or args[0] >= len(self.m.sessions) else None
        if args and session is None and not (self.ask == Ask.FINISH and args[0] == CLEANER):
            return Why.NO_SESSION
        for operand in rule.operands:
            if args[operand.place] and args[operand.place] not in session.handles:
                return Why.NO_HANDLE
        for operand in rule.operands:
            if not args[operand.place] and not operand.null:
                return Why.NULL
        for operand in rule.operands:
            if operand.kinds and args[operand.place] and type(self.thing(operand.place)) not in operand.kinds:
                return Why.WRONG_KIND
        for check in rule.checks:
            why = check(self)
            if why is not None:
                return why
        return None

    # Acts

    def give(self, slot):
        handle = 0
        if slot is not None:
            handle = next(number for number in range(1, HANDLES + 1) if number not in self.session.handles)
            self.session.handles[handle] = slot
        return Answer.HANDLE, (handle,)

    def make(self, thing):
        self.m.objects[self.fresh[0]] = thing
        return self.give(self.fresh[0])

    def join(self):
        self.m.sessions[self.args[0]] = Session({})
        return DONE

    def leave(self):
        self.m.sessions[self.args[0]] = None
        return DONE

    def new(self):
        return self.make(Plain([(REFERENCE, (None,)) if letter == ord("r") else (INTEGER, (0,)) for letter in self.args[1]]))

    def put(self):
        thing, k, value = self.thing(), self.args[2], self.slot(3)
        if type(thing) is Array:
            thing.elements[k] = value
        else:
            thing.fields[k] = (REFERENCE, (value,))
        return DONE

    def set_int(self):
        self.thing().fields[self.args[2]] = (INTEGER, (self.args[3],))
        return DONE

    def drop(self):
        del self.session.handles[self.args[1]]
        return DONE

    def clear(self):
        self.thing().referent = None
        return DONE

    def to_queue(self, slot):
        ref = self.m.objects[slot]
        self.m.objects[ref.queue].members.append(slot)
        ref.queue, ref.state = None, RefState.QUEUED

    def enqueue(self):
        ref = self.thing()
        ref.referent = None
        is_taken = ref.state in (RefState.FRESH, RefState.PENDING) and ref.queue is not None
        if is_taken:
            self.to_queue(self.slot())
        return truth(is_taken)

    def poll(self):
        slot = self.front()
        if slot is not None:
            self.thing().members.pop(0)
            self.m.objects[slot].state = RefState.REMOVED
        return self.give(slot)

    def new_action(self):
        self.m.next_action += 1
        return self.m.next_action - 1

    def register(self):
        return self.make(Cleanable(self.slot(2), self.new_action(), (0, (self.args[3],)), CleanState.ARMED))

    def take_up(self, it, taker):
        if it.state == CleanState.SPENT:
            return Answer.ALREADY_DONE, ()
        m = self.m
        it.state, it.referent = CleanState.SPENT, None
        m.jobs[it.action] = (it.work, taker)
        m.taken += 1
        if it.work[0]:
            m.resources[it.work[1][0]] = (it.action, Life.CLOSING)
        if taker != CLEANER:
            self.session.call = (Call.JOB, (it.action,))
        return Answer.JOB, (it.action, it.work)

    def prepare(self):
        m, (guard, cleanable) = self.m, self.fresh
        if self.given[0] != Answer.PREPARED or self.given[1][0] in m.resources:
            return None
        place, action = self.given[1][0], self.new_action()
        m.objects[guard] = Guard(place, cleanable)
        m.objects[cleanable] = Cleanable(guard, action, (1, (place,)), CleanState.ARMED)
        m.resources[place] = (action, Life.OPENING)
        self.session.fence, self.session.call = guard, (Call.OPENING, (place,))
        return Answer.PREPARED, (place,)

    def end_call(self):
        session, resources = self.session, self.m.resources
        guard, place = session.fence, session.call[1][0]
        resources[place] = (resources[place][0], Life.IDLE)
        session.fence, session.call = None, NO_CALL
        return guard, place

    def opened(self):
        guard, place = self.end_call()
        if not self.args[1]:
            return self.give(guard)
        del self.m.resources[place]
        it = self.m.objects[self.m.objects[guard].cleanable]
        it.state, it.referent = CleanState.SPENT, None
        return Answer.FAULTED, (self.args[1],)

    def check_out(self):
        place = self.thing().place
        self.m.resources[place] = (self.m.resources[place][0], Life.OUT)
        self.session.fence, self.session.call = self.slot(), (Call.OUT, (place,))
        return Answer.OUT, (place,)

    def check_in(self):
        self.end_call()
        sort, body = self.args[1]
        return (Answer.DATA, Answer.WROTE, Answer.FAULTED)[sort], body

    def finish(self):
        m, (by, action, outcome) = self.m, self.args
        (sort, (number,)), _ = m.jobs.pop(action)
        if sort:
            del m.resources[number]
        if by != CLEANER:
            self.session.call = NO_CALL
        if outcome:
            m.failed += 1
            m.faults = [*m.faults, (action, outcome)][-KEPT_LAST:]
            return Answer.FAULTED, (outcome,)
        m.ok += 1
        if not sort:
            m.notes = [*m.notes, number][-KEPT_LAST:]
        return DONE

    def bind(self):
        self.m.names[self.args[1]] = self.slot(2)
        return DONE

    def unbind(self):
        del self.m.names[self.args[1]]
        return DONE

    def stat(self):
        return Answer.STAT, (len(self.m.objects), len(self.m.resources), self.m.taken, self.m.ok, self.m.failed)

    def hand_over(self):
        m, handed = self.m, Handed.NOTHING
        if m.pending:
            slot, handed = m.pending.pop(0), Handed.SKIPPED
            thing = m.objects[slot]
            if type(thing) is Reference and thing.state == RefState.PENDING:
                self.to_queue(slot)
                handed = Handed.QUEUED
            elif type(thing) is Cleanable and thing.state == CleanState.PENDING:
                thing.state, handed = CleanState.LINED, Handed.LINED
                m.line.append(slot)
        return Answer.HANDED, (handed,)

    def from_line(self):
        while self.m.line:
            it = self.m.objects[self.m.line.pop(0)]
            if it.state == CleanState.LINED:
                return self.take_up(it, CLEANER)
        return Answer.HANDED, (Handed.NOTHING,)

    def begin(self):
        was_none = self.m.seen is None
        self.m.seen = set() if was_none else self.m.seen
        return truth(was_none)

    def abandon(self):
        was_open, self.m.seen = self.m.seen is not None, None
        return truth(was_open)

    # Collections (section 10)

    def is_crowded(self) -> bool:
        cells = RULES[self.ask].cells
        return cells > 0 and len(self.m.objects) + cells > self.m.cells

    def is_heap_full(self) -> bool:
        return self.is_crowded() and len(self.m.reach(self.m.roots())) + RULES[self.ask].cells > self.m.cells

    def has_collection(self) -> bool:
        return self.ask == Ask.FULL or self.ask == Ask.COLLECT and self.given == truth(True) or self.is_crowded()

    def may_keep(self, kept: set) -> bool:
        m = self.m
        if self.ask == Ask.COLLECT:
            return m.seen is not None and m.roots() <= kept <= m.seen and m.reach(kept) == kept
        return m.reach(m.roots(), kept if self.ask == Ask.FULL and self.args[1] == 0 else ()) == kept

    def is_collection(self, kept: Optional[list], pended: Optional[list]) -> bool:
        """Whether there is a collection exactly where one is due, and an allowed one; it is carried out."""
        if not self.has_collection():
            return kept is None
        if kept is None or not self.may_keep(set(kept)) or sorted(self.m.collect(set(kept))) != sorted(pended):
            return False
        self.m.pending += pended
        return True

    def is_fresh(self) -> bool:
        cells, fresh, m = RULES[self.ask].cells, self.fresh, self.m
        if cells == 0 or fresh is None:
            return cells == 0 and fresh is None
        return len(fresh) == cells == len(set(fresh)) and all(slot < m.cells and slot not in m.objects for slot in fresh)


@dataclass(frozen=True, slots=True)
class Operand:
    """A handle, by its place among the arguments; whether it may be null, and which kinds it may have (none: any)."""
    place: int
    kinds: tuple = ()
    null: bool = False


@dataclass(frozen=True, slots=True)
class Rule:
    act: Callable
    checks: tuple = ()
    operands: tuple = ()
    cells: int = 0


def rule(act, *checks, of=(), cells=0):
    return Rule(act, checks, of, cells)


T = Turn
REF, QUEUE, GUARD, HOLDER, FIELDED = (Operand(1, kinds) for kinds in ((Reference,), (Queue,), (Guard,), (Plain, Array), (Plain,)))
ONE, TWO, ONE_OR_NULL, TWO_OR_NULL = Operand(1), Operand(2), Operand(1, null=True), Operand(2, null=True)
RULES = {
    Ask.JOIN: rule(T.join),
    Ask.LEAVE: rule(T.leave, T.idle),
    Ask.NEW: rule(T.new, T.idle, T.a_handle, cells=1),
    Ask.PUT: rule(T.put, T.reference_field, T.idle, of=(HOLDER, Operand(3, null=True))),
    Ask.GET: rule(lambda t: t.give(t.got()), T.reference_field, T.idle, T.handle_for_field, of=(HOLDER,)),
    Ask.SET_INT: rule(T.set_int, T.integer_field, T.idle, of=(FIELDED,)),
    Ask.INT: rule(lambda t: (Answer.INT, (t.got(),)), T.integer_field, T.idle, of=(FIELDED,)),
    Ask.DUP: rule(lambda t: t.give(t.slot()), T.idle, T.a_handle, of=(ONE,)),
    Ask.DROP: rule(T.drop, T.idle, of=(ONE,)),
    Ask.SAME: rule(lambda t: truth(t.slot() == t.slot(2)), T.idle, of=(ONE_OR_NULL, TWO_OR_NULL)),
    Ask.MAKE_REF: rule(lambda t: t.make(Reference(t.args[1], t.slot(2), t.slot(3), RefState.FRESH)), T.idle, T.a_handle,
                       of=(TWO, Operand(3, (Queue,), null=True)), cells=1),
    Ask.DEREF: rule(lambda t: t.give(t.referent()), T.idle, T.handle_for_referent, of=(REF,)),
    Ask.REFERS: rule(lambda t: truth(t.thing().referent == t.slot(2)), T.idle, of=(REF, TWO_OR_NULL)),
    Ask.CLEAR: rule(T.clear, T.idle, of=(REF,)),
    Ask.ENQUEUE: rule(T.enqueue, T.idle, of=(REF,)),
    Ask.ENQUEUED: rule(lambda t: truth(t.thing().state == RefState.QUEUED), T.idle, of=(REF,)),
    Ask.MAKE_QUEUE: rule(lambda t: t.make(Queue([])), T.idle, T.a_handle, cells=1),
    Ask.POLL: rule(T.poll, T.idle, T.handle_for_front, of=(QUEUE,)),
    Ask.REMOVE: rule(T.poll, T.idle, T.a_member, T.a_handle, of=(QUEUE,)),
    Ask.MAKE_CLEANER: rule(lambda t: t.make(Cleaner()), T.idle, T.a_handle, cells=1),
    Ask.REGISTER: rule(T.register, T.idle, T.a_handle, T.an_action, of=(Operand(1, (Cleaner,)), TWO), cells=1),
    Ask.CLEAN: rule(lambda t: t.take_up(t.thing(), t.args[0]), T.idle, of=(Operand(1, (Cleanable,)),)),
    Ask.PREPARE: rule(T.prepare, T.idle, T.a_handle, T.room_for_resource, T.an_action, cells=2),
    Ask.OPENED: rule(T.opened, T.opens),
    Ask.CHECK_OUT: rule(T.check_out, T.still_open, T.idle_guard, of=(GUARD,)),
    Ask.CHECK_IN: rule(T.check_in, T.has_out),
    Ask.CLOSE: rule(lambda t: t.take_up(t.guarded(), t.args[0]), T.idle_guard, of=(GUARD,)),
    Ask.FINISH: rule(T.finish, T.has_job),
    Ask.BIND: rule(T.bind, T.idle, T.room_for_name, of=(TWO,)),
    Ask.FIND: rule(lambda t: t.give(t.m.names[t.args[1]]), T.a_name, T.idle, T.a_handle),
    Ask.UNBIND: rule(T.unbind, T.a_name, T.idle),
    Ask.NAMES: rule(lambda t: (Answer.NAMES, (list(t.m.names),)), T.idle),
    Ask.FULL: rule(lambda t: DONE, T.idle),
    Ask.STAT: rule(T.stat, T.idle),
    Ask.NOTES: rule(lambda t: (Answer.NOTES, (t.m.notes,)), T.idle),
    Ask.FAULTS: rule(lambda t: (Answer.FAULTS, (t.m.faults,)), T.idle),
    Ask.HAND_OVER: rule(T.hand_over),
    Ask.TAKE_UP: rule(T.from_line, T.idle_cleaner),
    Ask.BEGIN: rule(T.begin),
    Ask.COLLECT: rule(lambda t: t.given if t.given[0] == Answer.TRUTH else None),
    Ask.ABANDON: rule(T.abandon),
    Ask.ARRAY: rule(lambda t: t.make(Array([None] * t.args[1])), T.idle, T.a_handle, cells=1),
}


# ---- Entries (sections 15 and 16)

def turn(m: Machine, ask: tuple, given: tuple) -> Turn:
    number, args = ask
    return Turn(m, number, args, m.sessions[args[0]] if args and args[0] < len(m.sessions) else None, None, given)


def step(m: Machine, ask: tuple, answer: tuple, kept: Optional[list], pended: Optional[list], fresh: Optional[list]) -> bool:
    """Whether the entry is legal; the machine becomes the next one."""
    t = turn(m, ask, answer)
    if answer == refused(Why.NO_MEMORY):
        return t.ask not in ENDS and kept is None and fresh is None
    why = t.refusal()
    if why is not None:
        return answer == refused(why) and kept is None and fresh is None
    is_full = t.is_heap_full()
    if not t.is_collection(kept, pended):
        return False
    if is_full:
        return answer == refused(Why.HEAP_FULL) and fresh is None
    t.fresh = fresh
    if not t.is_fresh() or RULES[t.ask].act(t) != answer:
        return False
    m.look()
    return True
