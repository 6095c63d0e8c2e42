"""What the API fixes: the objects of one script, and what each step answers.

A step is a tuple of an operation and its operands (script.py lists them). Objects stand in slots, named by words.
Three policies say which soft references to softly reachable objects a collection clears: `keep` none, `clear` all,
`age` those that were neither made nor read since the last collection. The API allows each of these sets; `is_allowed`
says whether it allows another one.
"""
NOTHING = "-"
REFERENCES = ("soft", "weak", "phantom")
POLICIES = ("keep", "clear", "age")


class Invalid(Exception):
    """The step cannot be played: an operand is null or of another kind, or the order in a queue decides."""


class Doubt(Exception):
    """What follows depends on links between members of a queue, which a Java virtual machine may have."""


class Thing:
    """An object of the script."""

    def __init__(self, kind, number, label):
        self.kind, self.number, self.label = kind, number, label
        self.fields = []
        self.referent = self.queue = None
        self.state = "fresh"
        self.used = 0
        self.members = []
        self.action = self.held = None

    def strong(self):
        """What it holds strongly."""
        if self.queue is not None:
            yield self.queue
        for other in self.fields + self.members:
            if other is not None:
                yield other


class Expected:
    """The state of one script, and what its steps answer."""

    def __init__(self, policy):
        self.policy = policy
        self.slots, self.things, self.labels = {}, [], {}
        self.armed, self.counts = [], []
        self.clock = 0
        self.ran, self.softly, self.kept, self.kept_before = [], [], set(), 0

    # ---- Operands

    def thing(self, slot, *kinds):
        found = self.slots.get(slot)
        if found is None or kinds and found.kind not in kinds:
            raise Invalid(slot)
        return found

    def perhaps(self, slot, *kinds):
        return None if slot == NOTHING else self.thing(slot, *kinds)

    def field(self, slot, at):
        holder = self.thing(slot, "plain", "array")
        if not 0 <= at < len(holder.fields):
            raise Invalid(slot)
        return holder

    def make(self, slot, kind):
        again = self.labels[slot] = self.labels.get(slot, 0) + 1
        made = Thing(kind, len(self.things), slot if again == 1 else f"{slot}{again}")
        self.things.append(made)
        self.slots[slot] = made
        made.used = self.clock
        return made

    def named(self, thing):
        """How an answer names an object; cleaners and cleanables by their kind alone."""
        if thing is None:
            return NOTHING
        return thing.kind if thing.kind in ("cleaner", "cleanable") else thing.label

    # ---- Steps

    def step(self, step):
        """Plays a step. Its answer, or none."""
        operation, *operands = step
        return getattr(self, "do_" + operation)(*operands)

    def do_obj(self, slot, count):
        self.make(slot, "plain").fields = [None] * count

    def do_arr(self, slot, count):
        self.make(slot, "array").fields = [None] * count

    def do_put(self, slot, at, value):
        self.field(slot, at).fields[at] = self.perhaps(value)

    def do_get(self, to, slot, at):
        found = self.slots[to] = self.field(slot, at).fields[at]
        return self.named(found)

    def do_copy(self, to, slot):
        self.slots[to] = self.thing(slot)

    def do_drop(self, slot):
        self.thing(slot)
        self.slots[slot] = None

    def do_same(self, one, other):
        return yes(self.thing(one) is self.thing(other))

    def refer(self, kind, slot, to, queue):
        referent, queue = self.thing(to), self.perhaps(queue, "queue")
        made = self.make(slot, kind)
        made.referent, made.queue = referent, queue

    def do_soft(self, *operands):
        self.refer("soft", *operands)

    def do_weak(self, *operands):
        self.refer("weak", *operands)

    def do_phantom(self, *operands):
        self.refer("phantom", *operands)

    def do_ref(self, to, slot):
        reference = self.thing(slot, *REFERENCES)
        found = None if reference.kind == "phantom" else reference.referent
        if found is not None:
            reference.used = self.clock
        self.slots[to] = found
        return self.named(found)

    def do_refers(self, slot, other):
        return yes(self.thing(slot, *REFERENCES).referent is self.perhaps(other))

    def do_clear(self, slot):
        self.thing(slot, *REFERENCES).referent = None

    def do_enqueue(self, slot):
        reference = self.thing(slot, *REFERENCES)
        reference.referent = None
        return yes(self.is_enqueued_now(reference))

    def is_enqueued_now(self, reference):
        """Puts a reference into its queue, once. Whether it was put there."""
        if reference.queue is None:
            return False
        reference.queue.members.append(reference)
        reference.queue, reference.state = None, "queued"
        return True

    def do_enqueued(self, slot):
        return yes(self.thing(slot, *REFERENCES).state == "queued")

    def do_queue(self, slot):
        self.make(slot, "queue")

    def do_poll(self, to, slot):
        queue = self.thing(slot, "queue")
        if len(queue.members) > 1:
            raise Invalid(slot)
        found = self.taken(queue)
        self.slots[to] = found[0] if found else None
        return self.named(self.slots[to])

    def taken(self, queue):
        """All that is in the queue, which is out of it then."""
        found, queue.members = queue.members, []
        for reference in found:
            reference.state = "removed"
        return found

    def do_drain(self, slot):
        return as_set(each.label for each in self.taken(self.thing(slot, "queue")))

    def do_cleaner(self, slot):
        self.make(slot, "cleaner")

    def do_register(self, slot, cleaner, to, held):
        self.thing(cleaner, "cleaner")
        referent, held = self.thing(to), self.perhaps(held)
        made = self.make(slot, "cleanable")
        made.referent, made.held, made.action = referent, held, len(self.counts)
        self.counts.append(0)
        self.armed.append(made)

    def do_clean(self, slot):
        self.spend(self.thing(slot, "cleanable"))

    def spend(self, cleanable):
        """Runs the action, unless it has run. Whether it did."""
        if cleanable not in self.armed:
            return False
        self.armed.remove(cleanable)
        self.counts[cleanable.action] += 1
        cleanable.referent = cleanable.held = None
        return True

    def do_actions(self):
        return as_set(f"{action}:{count}" for action, count in enumerate(self.counts))

    def do_look(self):
        """Of each reference in a slot, by slots: whether it was cleared, and whether it is in its queue."""
        return ",".join(slot + bits(found.referent is None, found.state == "queued")
                        for slot, found in self.looked_at())

    def looked_at(self):
        full = [(slot, found) for slot, found in sorted(self.slots.items()) if found is not None]
        return [(slot, found) for slot, found in full if found.kind in REFERENCES]

    # ---- Collections

    def roots(self):
        return [*self.slots.values(), *self.armed, *(each.held for each in self.armed)]

    def reached(self, follows):
        """What is reached by strong edges, and by the referents of references that `follows` says."""
        reached, grey = set(), [each for each in self.roots() if each is not None]
        while grey:
            thing = grey.pop()
            if thing in reached:
                continue
            reached.add(thing)
            grey.extend(thing.strong())
            if thing.kind in REFERENCES and thing.referent is not None and follows(thing):
                grey.append(thing.referent)
        return reached

    def follows(self, reference):
        """Whether this collection keeps the referent of a reference."""
        if reference.kind != "soft" or self.policy == "clear":
            return False
        return self.policy == "keep" or reference.used == self.clock

    def do_gc(self):
        """Collects as often as it changes anything; by `age` once, since the second time more is old."""
        self.ran, self.softly = [], []
        while self.collect() and self.policy != "age":
            continue
        if self.policy == "age":
            return as_set(each.label for each in self.kept if each.kind == "soft" and each.referent is None)
        return None

    def do_oom(self):
        """Collects, then clears all. The VM may do that more than once, so no later pass may clear a soft reference."""
        self.do_gc()
        before, policy, self.policy = self.ran, self.policy, "clear"
        self.kept_before = len(before)
        self.do_gc()
        if any(self.softly[1:]):
            raise Doubt("oom")
        self.policy, self.ran = policy, [*before, *self.ran]

    def collect(self):
        """One collection. Whether anything changed."""
        kept = self.kept = self.reached(self.follows)
        self.clock += 1
        self.doubt(kept)
        changed, ran, softly = False, [], 0
        for thing in self.things:
            if thing in kept and thing.kind in REFERENCES and self.is_cleared(thing, kept):
                thing.referent = None
                self.is_enqueued_now(thing)
                changed, softly = True, softly + (thing.kind == "soft")
        for cleanable in [each for each in self.armed if each.referent not in kept]:
            self.spend(cleanable)
            ran.append(cleanable.action)
        self.ran.append(ran)
        self.softly.append(softly)
        return changed or bool(ran)

    def is_cleared(self, reference, kept):
        return reference.referent is not None and reference.referent not in kept

    def doubt(self, kept):
        """Whether links between members of a queue that is gone could keep a member to which something refers."""
        watched = {each.referent for each in kept if each.kind in (*REFERENCES, "cleanable")}
        for queue in self.things:
            if queue.kind != "queue" or queue in kept or len(queue.members) < 2:
                continue
            if kept & set(queue.members) and (set(queue.members) - kept) & watched:
                raise Doubt(queue.label)

    def is_allowed(self, cleared):
        """Whether a collection may have cleared just these soft references, told by an answer of `gc`."""
        labels = set(cleared[1:-1].split(","))
        kept = self.reached(lambda reference: reference.kind == "soft" and reference.label not in labels)
        now = [each for each in kept if each.kind == "soft" and each.label in labels]
        return all(each.referent not in kept for each in now)


class Came(str):
    """The references that came from a queue, as a set; beside it their order."""

    @classmethod
    def of(cls, names):
        came = cls(as_set(names))
        came.order = list(names)
        return came


def yes(holds):
    return "yes" if holds else "no"


def bits(*holds):
    return "".join(str(int(each)) for each in holds)


def as_set(words):
    return "{" + ",".join(sorted(words)) + "}"
