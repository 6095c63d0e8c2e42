"""The worked sessions of crates/jlr_program_rows by calls of the heap in this process, and random ones by calls and by `refheap run`.

    python3 checks/embed_rows.py librefheap.so [PROGRAM]

A session that opens files has its own way in the rows and is left out; so is a line that is no command, since no call can say it."""
import os
import random
import re
import subprocess
import sys
from ctypes import byref, c_bool, c_char, c_int64, c_uint8, c_uint32

here = os.path.dirname(os.path.abspath(__file__))
sys.path.insert(0, os.path.join(here, "..", "examples"))
import embed  # noqa: E402

ROWS = os.path.join(here, "..", "crates", "jlr_program_rows", "src", "tests", "sessions")
FAULTS = {1: "notfound", 2: "denied", 3: "other"}


class Session:
    """A heap with mutator 0, which settles after each command, as `refheap run` does."""

    def __init__(self, library, cells=16, soft_age=4):
        self.library, self.heap, self.known = library, embed.Struct(), {}
        assert self.call("open", cells, 1, 16, soft_age) == 0 and self.call("join", 0) == 0

    def call(self, name, *arguments):
        return getattr(self.library, "refheap_" + name)(self.heap, *arguments)

    def asked(self, of, told, name, *arguments):
        out = of()
        number = self.call(name, 0, *arguments, byref(out))
        return f"! {number}" if number else told(out)

    def items(self, name, of, told):
        words, out = ["list"], of()
        while (number := self.call(name, 0, len(words) - 1, byref(out))) == 0:
            words.append(told(out))
        return " ".join(words) if number == embed.IDLE else f"! {number}"

    def answer(self, line):
        verb, *words = line.split(" ")
        handle = lambda out: f"= {out.value}"
        truth = lambda out: "yes" if out.value else "no"
        numbers = [int(w) for w in words if re.fullmatch(r"-?\d+", w)]
        if verb == "new":
            layout = words[0].replace("-", "")
            return self.asked(c_uint8, handle, "new", len(layout), sum((kind == "r") << i for i, kind in enumerate(layout)))
        if verb in ("array", "queue", "cleaner", "dup", "soft", "weak", "phantom", "deref", "poll", "remove", "get", "register"):
            return self.asked(c_uint8, handle, verb, *numbers)
        if verb in ("same", "refers", "enqueue", "enqueued"):
            return self.asked(c_bool, truth, verb, *numbers)
        if verb == "int":
            return self.asked(c_int64, lambda out: f"int {out.value}", verb, *numbers)
        if verb == "clean":
            return self.clean(*numbers)
        if verb == "find":
            return self.asked(c_uint8, handle, "find", words[0].encode(), len(words[0]))
        if verb == "stat":
            return self.asked(embed.Counts, lambda c: f"stat {c.objects} {c.resources} {c.taken} {c.ok} {c.failed}", "stat")
        if verb == "names":
            return self.items("name", c_char * 33, lambda out: out.value.decode())
        if verb == "notes":
            return self.items("note", c_uint32, lambda out: str(out.value))
        if verb == "faults":
            return self.items("failure", embed.Failed, lambda out: f"{out.action}:{FAULTS[out.fault]}")
        if verb in ("bind", "unbind"):
            number = self.call(verb, 0, words[0].encode(), len(words[0]), *numbers)
        else:
            number = self.call({"gc": "gc_soft" if words else "gc", "setint": "set_int", "bye": "leave"}.get(verb, verb), 0, *numbers)
        return f"! {number}" if number else "ok"

    def clean(self, cleanable):
        job = embed.Job()
        number = self.call("clean", 0, cleanable, byref(job))
        if number == 0:
            number = self.call("finish", 0, job.action, 0)
        return "ok" if number in (0, embed.IDLE) else f"! {number}"

    def settle(self):
        job = embed.Job()
        while self.call("hand_over") == 0:
            pass
        while self.call("take_up", byref(job)) == 0:
            assert self.call("finish", embed.CLEANER, job.action, 0) == 0

    def played(self, lines):
        for line in lines:
            yield self.answer(line)
            self.settle()
        self.library.refheap_close(self.heap)


def lines_of(text):
    for line in text.split("; ") if text else ():
        if repeated := re.fullmatch(r"(\d+) to (\d+): (.*)", line):
            for number in range(int(repeated[1]), int(repeated[2]) + 1):
                for each in repeated[3].split(" / "):
                    yield each.replace("{}", str(number), 1)
        else:
            yield line


def rows():
    """The sessions of the rows, each with its setting and its lists of answers."""
    for name in ("objects", "arrays", "integers", "references", "cleaners", "names"):
        with open(os.path.join(ROWS, name + ".rt")) as file:
            waiting = None
            for line in (line.strip() for line in re.search(r'SESSIONS: &str = "(.*?)"', file.read(), re.S)[1].split("\n")):
                if line.startswith("->"):
                    setting, _, commands = waiting.rpartition("|")
                    yield waiting, dict(s.strip().split(" ", 1) for s in setting.split(",") if s.strip()), list(lines_of(commands.strip())), [
                        list(lines_of(answers.strip())) for answers in line[2:].split(" or ")]
                elif line and not line.startswith("#") and not line.endswith(":"):
                    waiting = line


def play_rows(library):
    played = left_out = wrong = answers = 0
    for row, setting, commands, wanted in rows():
        if set(setting) - {"soft_age", "ends"} or any(c.split(" ")[0] in ("open", "connect", "read", "write", "close") for c in commands):
            left_out += 1
            continue
        # (a line that is no command is answered 15 in the rows)
        says = [c for c, w in zip(commands, wanted[0]) if w != "! 15" and c != "bye"]
        wanted = [[w for c, w in zip(commands, each) if w != "! 15" and c != "bye"] for each in wanted]
        told = list(Session(library, 16, int(setting.get("soft_age", 4))).played(says))
        played, answers = played + 1, answers + len(told)
        if told not in wanted:
            wrong += 1
            print("row:", row, "\n  told:", "; ".join(told), "\n  wanted:", "; ".join(wanted[0]))
    print("WRONG  " if wrong else "ok     ", f"{played} worked sessions, {answers} answers, {wrong} wrong; {left_out} of files left out")
    return wrong


def script(rng, count):
    top = rng.choice([8, 30, 250])
    h = lambda: rng.randrange(top)
    for _ in range(count):
        verb = rng.choice("new new array dup drop drop drop put get setint int soft weak phantom deref refers same clear enqueue enqueued queue poll remove cleaner register "
                          "clean gc gcsoft bind find unbind names stat faults".split())
        operands = {"new": [rng.choice(["-", "r", "rr", "ri", "iirr"])], "array": [rng.choice([1, 7])], "put": [h(), rng.randrange(4), h()], "get": [h(), rng.randrange(4)],
                    "setint": [h(), rng.randrange(3), rng.randrange(-9, 9)], "int": [h(), rng.randrange(3)], "refers": [h(), h()], "same": [h(), h()],
                    "register": [h(), h(), rng.randrange(2**32)], "bind": [rng.choice("abc"), h()], "find": [rng.choice("abc")], "unbind": [rng.choice("abc")]}
        if verb in ("soft", "weak", "phantom"):
            operands[verb] = [h(), rng.choice([0, h()])]
        one = ("dup", "drop", "deref", "clear", "enqueue", "enqueued", "poll", "remove", "clean")
        yield "gc soft" if verb == "gcsoft" else " ".join(map(str, [verb, *(operands.get(verb) or ([h()] if verb in one else []))]))


def play_random(library, program, sessions=40, count=1500):
    wrong = answers = refused = 0
    for seed in range(sessions):
        rng = random.Random(seed)
        cells, age = rng.choice([16, 64, 1024]), rng.choice([0, 1, 3])
        commands = [*script(rng, count), "notes"]
        told = subprocess.run([program, "run", "--cells", str(cells), "--soft-age", str(age)], input="".join(c + "\n" for c in commands), capture_output=True,
                              text=True, check=False).stdout.split("\n")[:-1]
        for command, by_program, by_call in zip(commands, told, Session(library, cells, age).played(commands), strict=True):
            answers, refused = answers + 1, refused + by_call.startswith("!")
            if by_program != by_call:
                wrong += 1
                print(f"seed {seed}: {command}: the program {by_program}, the call {by_call}")
                break
    print("WRONG  " if wrong else "ok     ", f"{sessions} random sessions, {answers} answers, {refused} of them refusals, {wrong} sessions differ from refheap run")
    return wrong


def main():
    library = embed.load(sys.argv[1])
    wrong = play_rows(library)
    if len(sys.argv) > 2:
        wrong += play_random(library, sys.argv[2])
    return 1 if wrong else 0


if __name__ == "__main__":
    sys.exit(main())
