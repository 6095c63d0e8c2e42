"""Plays a script on refheap: its lines, and what their replies say.

Handles are known beforehand, since a new one is the lowest free. To tell which object a handle names, a plain object
has its number in an integer field, and an array, reference or queue that will be asked for has a phantom reference
without a queue, which stands in one array with the others. They change nothing that the script could see.
"""
import subprocess

from expected import NOTHING, Came, Doubt, Expected, Invalid, as_set, bits

LIST, PATIENCE = 1, 300
SOFT_AGES = {"keep": 1000, "clear": 1000, "age": 1}


class Lines:
    """The lines of one script, the replies that are due, and how the answer of each step is read off them."""

    def __init__(self, script, wanted=None):
        """Knows the objects that are `wanted`, by their numbers; where none are told, those that turn out to be."""
        self.wanted = Lines(script, ()).asked if wanted is None else wanted
        self.asked = set()
        self.model = Expected(script.policy)
        self.lines, self.due, self.readers = [], [], []
        self.handles, self.held = {}, {}
        self.used = set()
        self.ask("array 4096", self.take())
        for step in script.steps:
            start = len(self.lines)
            try:
                reader = self.translate(*step)
            except (Invalid, Doubt):
                break
            self.readers.append((start, len(self.lines), reader))

    # ---- Lines and handles

    def ask(self, line, due=None):
        """Adds a line, with the reply that is due where it is no answer. Its place."""
        self.lines.append(line)
        self.due.append(due if due is None or isinstance(due, str) else f"= {due}")
        return len(self.lines) - 1

    def take(self):
        handle = next(number for number in range(1, 251) if number not in self.used)
        self.used.add(handle)
        return handle

    def give(self, handle):
        if handle:
            self.ask(f"drop {handle}", "ok")
            self.used.remove(handle)

    def at(self, slot):
        return 0 if slot == NOTHING else self.handles.get(slot, 0)

    def stand(self, slot, handle):
        """Puts a handle into a slot, and gives the one there up."""
        self.give(self.at(slot))
        self.handles[slot] = handle

    def know(self, handle, number):
        """Remembers an object by a phantom reference."""
        known = self.take()
        self.ask(f"phantom {handle} 0", known)
        self.ask(f"put {LIST} {number} {known}", "ok")
        self.give(known)

    # ---- Which object a handle names

    def naming(self, handle, thing):
        """Asks which object it is. A function of the replies, for its name."""
        if thing.kind in ("cleaner", "cleanable"):
            return lambda replies: thing.kind
        if thing.kind == "plain":
            place = self.ask(f"int {handle} {len(thing.fields)}")
            return lambda replies: thing.label if replies[place] == f"int {thing.number}" else replies[place]
        place = self.is_known(handle, thing)
        return lambda replies: thing.label if replies[place] == "yes" else "another"

    def is_known(self, handle, thing):
        self.asked.add(thing.number)
        known = self.take()
        self.ask(f"get {LIST} {thing.number}", known)
        place = self.ask(f"refers {known} {handle}")
        self.give(known)
        return place

    def found(self, slot, line, thing):
        """A line that gives an object, or null, into a slot."""
        if thing is None:
            place = self.ask(line)
            self.stand(slot, 0)
            return lambda replies: NOTHING if replies[place] == "= 0" else "something"
        handle = self.take()
        place = self.ask(line)
        name = self.naming(handle, thing)
        self.stand(slot, handle)
        nothing = {"= 0": NOTHING}
        return lambda replies: (name(replies) if replies[place] == f"= {handle}"
                                else nothing.get(replies[place], replies[place]))

    # ---- Steps

    def translate(self, operation, *operands):
        return getattr(self, "do_" + operation, self.simple)(operation, *operands)

    def make(self, line, operation, slot, *operands):
        """A line that makes an object in a slot."""
        made = len(self.model.things)
        self.model.step((operation, slot, *operands))
        handle = self.take()
        self.ask(line, handle)
        thing = self.model.things[made]
        if thing.kind == "plain":
            self.ask(f"setint {handle} {len(thing.fields)} {made}", "ok")
        elif made in self.wanted:
            self.know(handle, made)
        self.stand(slot, handle)

    def do_obj(self, operation, slot, count):
        self.make(f"new {'r' * count}i", operation, slot, count)

    def do_arr(self, operation, slot, count):
        self.make(f"array {count}", operation, slot, count)

    def do_queue(self, operation, slot):
        self.make("queue", operation, slot)

    def do_cleaner(self, operation, slot):
        self.make("cleaner", operation, slot)

    def do_soft(self, operation, slot, to, queue):
        self.make(f"{operation} {self.at(to)} {self.at(queue)}", operation, slot, to, queue)

    do_weak = do_phantom = do_soft

    def do_register(self, operation, slot, cleaner, to, held):
        action = len(self.model.counts)
        line = f"register {self.at(cleaner)} {self.at(to)} {action}"
        if held != NOTHING:
            self.held[action] = self.take()
            self.ask(f"dup {self.at(held)}", self.held[action])
        self.make(line, operation, slot, cleaner, to, held)

    def do_put(self, operation, slot, at, value):
        self.model.step((operation, slot, at, value))
        self.ask(f"put {self.at(slot)} {at} {self.at(value)}", "ok")

    def do_get(self, operation, to, slot, at):
        line = f"get {self.at(slot)} {at}"
        self.model.step((operation, to, slot, at))
        return self.found(to, line, self.model.slots[to])

    def do_ref(self, operation, to, slot):
        line = f"deref {self.at(slot)}"
        self.model.step((operation, to, slot))
        return self.found(to, line, self.model.slots[to])

    def do_poll(self, operation, to, slot):
        line = f"poll {self.at(slot)}"
        self.model.step((operation, to, slot))
        return self.found(to, line, self.model.slots[to])

    def do_copy(self, operation, to, slot):
        self.model.step((operation, to, slot))
        handle = self.take()
        self.ask(f"dup {self.at(slot)}", handle)
        self.stand(to, handle)

    def do_drop(self, operation, slot):
        self.model.step((operation, slot))
        self.stand(slot, 0)

    def simple(self, operation, *slots):
        """A step that is one line, whose reply is the answer, if there is one."""
        answer = self.model.step((operation, *slots))
        place = self.ask(" ".join([operation, *(str(self.at(slot)) for slot in slots)]), None if answer else "ok")
        if operation == "clean":
            self.free([self.model.slots[slots[0]].action])
        return (lambda replies: replies[place]) if answer else None

    def free(self, ran):
        """What actions that ran held is given up."""
        for action in ran:
            self.give(self.held.pop(action, 0))

    def do_drain(self, operation, slot):
        queue = self.at(slot)
        members = list(self.model.thing(slot, "queue").members)
        self.model.step((operation, slot))
        handles = [self.take() for _ in members]
        polls = [self.ask(f"poll {queue}") for _ in (*members, None)]
        places = {(handle, member): self.is_known(handle, member) for handle in handles for member in members}
        for handle in handles:
            self.give(handle)

        def answer(replies):
            came = [replies[place] for place in polls if replies[place] != "= 0"]
            if len(came) > len(members):
                return "too many"
            names = [[member.label for member in members if replies[places[handle, member]] == "yes"]
                     for handle in handles[:len(came)]]
            return Came.of([name for each in names for name in each or ["another"]])
        return answer

    def do_actions(self, operation):
        self.model.step((operation,))
        actions, place = range(len(self.model.counts)), self.ask("notes")
        return lambda replies: as_set(f"{action}:{replies[place].split()[1:].count(str(action))}" for action in actions)

    def do_look(self, operation):
        self.model.step((operation,))
        asked = []
        for slot, _ in self.model.looked_at():
            asked.append((slot, self.ask(f"refers {self.at(slot)} 0"), self.ask(f"enqueued {self.at(slot)}")))
        return lambda replies: ",".join(slot + bits(replies[one] == "yes", replies[other] == "yes")
                                        for slot, one, other in asked)

    def do_gc(self, operation):
        """As many collections as the step takes; what actions that ran held goes between them, as there."""
        answer = self.model.step((operation,))
        for number, ran in enumerate(self.model.ran):
            clears = self.model.policy == "clear" or operation == "oom" and number >= self.model.kept_before
            self.ask("gc soft" if clears else "gc", "ok")
            self.free(ran)
        return (lambda replies: answer) if answer else None

    do_oom = do_gc


def play(program, script):
    """What refheap answers to each step of a script. The last answer is a reply that is not due, if there is one."""
    lines = Lines(script)
    age = str(SOFT_AGES[script.policy])
    words = [program, "run", "--cells", "1024", "--soft-age", age, "--no-files"]
    text = "\n".join([*lines.lines, "bye", ""])
    replies = subprocess.run(words, input=text, capture_output=True, text=True, timeout=PATIENCE).stdout.splitlines()
    answers = []
    for start, end, reader in lines.readers:
        for place in range(start, end):
            if lines.due[place] is not None and replies[place:place + 1] != [lines.due[place]]:
                return [*answers, f"{lines.lines[place]}: {replies[place:place + 1]} in place of {lines.due[place]}"]
        answers.append(reader(replies) if reader else None)
    return answers
