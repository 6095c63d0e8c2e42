"""Scripts: how they are written, read and made at random.

- `obj a n`, `arr a n`: makes an object with n reference fields, or an array of n elements, in slot a.
- `put a k b`, `get a b k`: writes field k of a; reads field k of b into a, and answers what.
- `copy a b`, `drop a`, `same a b`: copies a slot; empties it; compares two.
- `soft a b q`, `weak a b q`, `phantom a b q`: makes a reference to what is in b, with the queue in q.
- `ref a r`, `refers r b`: calls `get` and puts what comes into a; calls `refersTo`.
- `clear r`, `enqueue r`, `enqueued r`: calls `clear`, `enqueue`, `isEnqueued`.
- `queue q`: makes a queue.
- `poll a q`, `drain q`: polls it once, if it has at most one member; polls it until it is empty.
- `cleaner c`, `register k c b h`: makes a cleaner; registers an action of b, which holds what is in h.
- `clean k`, `actions`: calls `clean`; answers which actions ran how often.
- `look`: answers `refersTo(null)` and `isEnqueued` of each reference in a slot.
- `gc`: collects; by `age` it answers which soft references are cleared.
- `oom`: takes all memory until the VM throws an OutOfMemoryError.

`-` is null. A file of scripts has for each a line `# SENTENCE`, perhaps with ` | ` and a case of it behind, with
`[keep]`, `[clear]` or `[age]` in it if the script is of one policy, and its steps, with ` = ANSWER` if one is due.
"""
import random
import re

from expected import NOTHING, POLICIES, REFERENCES, Doubt, Expected, Invalid

NUMBERS = {"obj": (1,), "arr": (1,), "put": (1,), "get": (2,)}
COLLECTIONS = ("gc", "oom")
SLOTS = "abcdefghijkl"
MOST_MEMBERS, MOST_ACTIONS, MOST_CLEANERS = 5, 6, 2
END = (("gc",), ("look",), ("actions",))


class Script:
    """A name, a policy, steps, and the answers that its author gave, at their steps."""

    def __init__(self, name, policy, steps, given=()):
        self.name, self.policy, self.steps, self.given = name, policy, tuple(steps), dict(given)

    def __str__(self):
        return "\n".join([f"# [{self.policy}] {self.name}", *(" ".join(map(str, step)) for step in self.steps)])

    def answers(self, expected=Expected):
        """What each step answers, as far as it can be played, and how many passes each collection takes."""
        model, answers, passes = expected(self.policy), [], []
        for step in self.steps:
            try:
                answers.append(model.step(step))
            except (Invalid, Doubt):
                break
            if step[0] in COLLECTIONS:
                passes.append(len(model.ran))
        return answers, passes

    def model(self):
        """The state that its steps lead to."""
        model = Expected(self.policy)
        for step in self.steps:
            model.step(step)
        return model

    def is_full(self):
        return ("oom",) in self.steps

    def is_whole(self):
        return len(self.answers()[0]) == len(self.steps)


def read_step(words):
    operation, *operands = words
    at = NUMBERS.get(operation, ())
    return (operation, *(int(word) if place in at else word for place, word in enumerate(operands)))


def read_scripts(path):
    """The scripts of a file, once for each policy that they are of."""
    with open(path, encoding="utf-8") as file:
        text = file.read()
    for part in re.split(r"^# ", text, flags=re.M)[1:]:
        name, *lines = part.strip().splitlines()
        policy = re.search(r"\[(\w+)\] ", name)
        steps, given = [], {}
        for line in filter(None, (line.split("//")[0].strip() for line in lines)):
            step, _, answer = line.partition(" = ")
            if answer:
                given[len(steps)] = answer
            steps.append(read_step(step.split()))
        name = name.replace(policy[0], "") if policy else name
        for each in [policy[1]] if policy else POLICIES:
            yield Script(name, each, (*steps, *(END[1:] if ("oom",) in steps else END)), given)


# ---- Random scripts

WEIGHTS = {
    "obj": 10, "arr": 3, "put": 20, "get": 5, "copy": 4, "drop": 16, "soft": 8, "weak": 9, "phantom": 7, "queue": 4,
    "cleaner": 3, "register": 9, "clean": 1, "ref": 5, "refers": 5, "clear": 2, "enqueue": 3, "enqueued": 3, "poll": 3,
    "drain": 2, "same": 2, "gc": 6, "actions": 1,
}
KINDS = {"poll": ("queue",), "drain": ("queue",), "clean": ("cleanable",),
         **dict.fromkeys(("refers", "clear", "enqueue", "enqueued"), REFERENCES)}


class Maker:
    """Makes one random script, by the state that its steps lead to."""

    def __init__(self, seed, policy, end="gc"):
        self.random = random.Random(seed)
        self.policy, self.end = policy, end
        self.model = Expected(policy)
        self.steps = []
        self.weights = dict(WEIGHTS)
        if self.random.random() < 0.6:
            self.weights["cleaner"] = self.weights["register"] = 0

    def slot(self):
        """Where something new goes: rather to an empty slot."""
        empty = [slot for slot in SLOTS if self.model.slots.get(slot) is None]
        return self.random.choice(empty if empty and self.random.random() < 0.6 else SLOTS)

    def full(self, *kinds):
        """A slot that holds something, of these kinds if any are named; or none."""
        full = [slot for slot in SLOTS if self.model.slots.get(slot) is not None]
        found = [slot for slot in full if not kinds or self.model.slots[slot].kind in kinds]
        return self.random.choice(found) if found else NOTHING

    def maybe(self, *kinds):
        return self.full(*kinds) if self.random.random() < 0.75 else NOTHING

    def place(self):
        slot = self.full("plain", "array")
        if slot == NOTHING:
            raise Invalid
        fields = len(self.model.slots[slot].fields)
        return slot, self.random.randrange(fields) if fields else 0

    def operands(self, operation):
        if operation in ("obj", "arr"):
            return self.slot(), self.random.randint(operation == "arr", 4)
        if operation == "put":
            return *self.place(), self.full() if self.random.random() < 0.8 else NOTHING
        if operation == "get":
            return self.slot(), *self.place()
        if operation in REFERENCES:
            return self.slot(), self.full(), self.maybe("queue")
        if operation == "register":
            held = self.random.random() < 0.4
            return self.slot(), self.full("cleaner"), self.full(), self.full() if held else NOTHING
        return self.simple(operation)

    def simple(self, operation):
        if operation in ("queue", "cleaner"):
            return (self.slot(),)
        if operation in ("copy", "ref", "poll"):
            return self.slot(), self.full(*{"ref": REFERENCES, "poll": ("queue",)}.get(operation, ()))
        if operation == "refers":
            return self.full(*REFERENCES), self.maybe()
        if operation == "same":
            return self.full(), self.full()
        return () if operation in ("gc", "actions") else (self.full(*KINDS.get(operation, ())),)

    def is_too_much(self, operation, operands):
        if operation == "register":
            return len(self.model.counts) >= MOST_ACTIONS
        if operation == "cleaner":
            return sum(thing.kind == "cleaner" for thing in self.model.things) >= MOST_CLEANERS
        return operation == "drain" and len(self.model.thing(*operands).members) > MOST_MEMBERS

    def add(self, operation, *operands):
        step = (operation, *operands)
        self.model.step(step)
        self.steps.append(step)

    def script(self, name, count):
        names, weights = list(self.weights), list(self.weights.values())
        try:
            while len(self.steps) < count - 3:
                operation = self.random.choices(names, weights)[0]
                try:
                    operands = self.operands(operation)
                    if self.is_too_much(operation, operands):
                        continue
                    self.add(operation, *operands)
                    if operation == "gc":
                        self.add("look")
                except Invalid:
                    continue
            for step in ((self.end,), *END[1:]):
                self.add(*step)
        except Doubt:
            pass
        return Script(name, self.policy, self.steps)


def random_script(seed, policy, end="gc"):
    """A script of 5 to 200 steps. The same seed makes the same script."""
    count = random.Random(f"{seed} length").randint(5, 200)
    return Maker(f"{seed} {policy}", policy, end).script(f"random {seed}", count)
