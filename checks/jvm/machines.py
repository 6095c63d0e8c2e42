"""Java virtual machines: which are there, which collectors they have, and what they answer to scripts."""
import os
import re
import shutil
import subprocess

from expected import NOTHING, Came, Expected, as_set
from script import COLLECTIONS

HERE = os.path.dirname(os.path.abspath(__file__))
COLLECTORS = ("Serial", "Parallel", "G1", "Z", "Shenandoah")
OPERATIONS = ("obj", "arr", "put", "get", "copy", "drop", "same", "soft", "weak", "phantom", "ref", "refers", "clear",
              "enqueue", "enqueued", "queue", "poll", "drain", "cleaner", "register", "clean", "actions", "look",
              *COLLECTIONS)
POLICIES = {"keep": 0, "clear": 1, "age": 2}
# For how many milliseconds a soft reference is kept for each free megabyte: for ever, or not after the next collection.
SOFT_AGES = {"keep": 10_000_000, "clear": 0, "age": 0}
SPARE_PASSES, PATIENCE = 2, 300


class Failed(Exception):
    """The virtual machine did not play the scripts."""


class Slow(Failed):
    """It did not end in time."""


class Machine:
    """One Java virtual machine with one of its collectors."""

    def __init__(self, java, folder, collector):
        self.java, self.folder, self.collector = java, folder, collector

    def words(self, policy, megabytes):
        heap = [f"-Xms{megabytes}m", f"-Xmx{megabytes}m", "-Xss256k", "-XX:MetaspaceSize=64m",
                "-XX:+IgnoreUnrecognizedVMOptions", "-XX:-UseGCOverheadLimit"]
        if megabytes > 100 and self.collector in ("Serial", "Parallel", "G1"):
            heap.append(f"-Xmn{megabytes // 2}m")
        heap += {"Z": ["-XX:-ZProactive"], "Parallel": ["-XX:-ScavengeBeforeFullGC"]}.get(self.collector, [])
        return [self.java, *heap, f"-XX:+Use{self.collector}GC", f"-XX:SoftRefLRUPolicyMSPerMB={SOFT_AGES[policy]}",
                "--add-opens", "java.base/java.lang.ref=ALL-UNNAMED", "-cp", self.folder, "Player"]

    def play(self, scripts, megabytes=1024, passes=None):
        """What the scripts, all of one policy, answer.

        Beside it how often a collection came that none asked for, how often one had to be asked for again, and how
        often what a collection owes was not done in time.
        """
        policy = scripts[0].policy
        text = "\n".join([f"{POLICIES[policy]} {len(scripts)}", *map(numbers, scripts), rounds(scripts), ""])
        try:
            words = self.words(policy, megabytes)
            ended = subprocess.run(words, input=text, capture_output=True, text=True, timeout=PATIENCE)
        except subprocess.TimeoutExpired:
            raise Slow(f"{self.collector}: no end after {PATIENCE} s") from None
        *lines, end = ended.stdout.splitlines() or [""]
        if ended.returncode or not end.startswith("end ") or len(lines) != len(scripts):
            said = f"{len(lines)} lines: {ended.stdout[-200:]} {ended.stderr[-500:]}"
            raise Failed(f"{self.collector}: status {ended.returncode}, {said}")
        return [answers(*pair) for pair in zip(scripts, lines)], [int(word) for word in end.split()[1:]]


def slots_of(script):
    """The slots that a script names, in order."""
    return sorted({word for step in script.steps for word in step[1:] if isinstance(word, str)} - {NOTHING})


def numbers(script):
    """A script as the numbers that Player.java reads."""
    slots = {NOTHING: -1, **{slot: number for number, slot in enumerate(slots_of(script))}}
    text = [str(len(script.steps))]
    for operation, *operands in script.steps:
        places = [word if isinstance(word, int) else slots[word] for word in operands]
        text.append(" ".join(map(str, (OPERATIONS.index(operation), *places, *[0] * (4 - len(places))))))
    return "\n".join(text)


def rounds(scripts):
    """How many passes each round of collections takes: more than any script needs, or one if the age counts.

    The round that fills the heap comes last.
    """
    passes, full = [], []
    for script in scripts:
        kinds = [step[0] for step in script.steps if step[0] in COLLECTIONS]
        for number, (needs, kind) in enumerate(zip(script.answers()[1], kinds)):
            if kind == "oom":
                full.append(needs)
                continue
            passes += [0] * (number + 1 - len(passes))
            passes[number] = max(passes[number], needs)
    spare = 0 if scripts[0].policy == "age" else SPARE_PASSES
    return " ".join(str(needs + spare) for needs in (*passes, *([max(full)] if full else [])))


def answers(script, line):
    """The answers of a line of Player.java, one for each step, in the words of the script."""
    whole, model, tokens, found = script.model(), Expected(script.policy), iter(line.split()), []
    slots = slots_of(script)
    for step in script.steps:
        if model.step(step) is None:
            found.append(None)
        elif step[0] == "gc":
            found.append(of_kept(next(tokens, "nothing"), model))
        else:
            found.append(worded(next(tokens, "nothing"), whole, slots))
    return found


def of_kept(token, model):
    """The cleared soft references, without those that the script cannot reach, which the VM may reclaim later."""
    labels = {each.label for each in model.kept}
    return as_set(set(worded(token, model, ())[1:-1].split(",")) & labels)


def worded(token, model, slots):
    """One answer in the words of a script."""
    items = token[1:-1].strip(",").split(",") if token[1:-1].strip(",") else []
    if token[0] in "{[":
        return Came.of([model.things[int(item)].label for item in items])
    if token[0] == "<":
        return as_set(items)
    if token[0] == "(":
        return ",".join(slots[int(slot)] + bits for slot, bits in (item.split(":") for item in items))
    if not re.fullmatch(r"-?\d+", token):
        return token
    return {-1: NOTHING, -2: "cleaner", -3: "cleanable"}.get(int(token)) or model.things[int(token)].label


def compiled(java, folder):
    """Compiles Player.java by the javac beside a java. The folder of its classes."""
    javac = os.path.join(os.path.dirname(os.path.realpath(java)), "javac")
    target = os.path.join(folder, re.sub(r"\W", "_", java))
    javac = javac if os.path.exists(javac) else "javac"
    subprocess.run([javac, "-d", target, os.path.join(HERE, "Player.java")], check=True, timeout=PATIENCE)
    return target


def version(java):
    """What a java says of itself, in one line."""
    said = subprocess.run([java, "-version"], capture_output=True, text=True, timeout=PATIENCE).stderr.splitlines()
    return said[1].strip() if len(said) > 1 else "".join(said)


def has_collector(java, name):
    words = [java, f"-XX:+Use{name}GC", "-version"]
    return subprocess.run(words, capture_output=True, timeout=PATIENCE).returncode == 0


def collectors_of(java):
    return [each for each in COLLECTORS if has_collector(java, each)]


def found_java():
    return shutil.which("java")
