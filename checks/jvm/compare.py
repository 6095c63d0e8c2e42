"""Compares what refheap, a virtual machine and the expectations answer to scripts, and cuts down those that differ."""
import heap
import machines
from expected import Doubt, Expected, Invalid
from script import Script

TRIES, PATIENCE = 3, 10
PIECES = (16, 8, 4, 2, 1)
SOFTLY = Script("softly", "keep", [("obj", "a", 0), ("soft", "s", "a", "-"), ("drop", "a"), ("gc",),
                                   ("refers", "s", "-")])


class Found:
    """What came of the scripts of one kind on one machine."""

    def __init__(self):
        self.answers = self.open = self.drained = self.reversed = 0
        self.disturbed = self.slow = self.late = 0
        self.different = []

    def __str__(self):
        said = f"{self.answers} answers compared, {len(self.different)} scripts differ"
        if self.drained:
            said += f", {self.reversed} of {self.drained} queues of several came in another order"
        if self.open:
            said += f", {self.open} ended at another set of soft references that may be cleared"
        if self.disturbed:
            said += f", {self.disturbed} batches were disturbed by a collection that none asked for"
        if self.slow:
            said += f", {self.slow} batches did not end in time and were played again"
        if self.late:
            said += f", {self.late} collections left something undone for {PATIENCE} s"
        return said


def keeps_soft(machine):
    """Whether System.gc() leaves soft references that its options say are to be kept."""
    return machine.play([SOFTLY])[0][0][-1] == "no"


def batch(scripts, of_machine, of_heap, found):
    """Compares scripts of one policy."""
    for script, theirs, ours in zip(scripts, of_machine, of_heap):
        at = difference(script, theirs, ours, found)
        if at is not None:
            found.different.append(script)


def played(machine, scripts, megabytes, found):
    """The answers of a batch. It is played again if a collection came that none asked for, or it did not end in time.

    Such a collection changes what may be answered.
    """
    for left in reversed(range(TRIES)):
        try:
            answers, (disturbed, _, late) = machine.play(scripts, megabytes)
        except machines.Slow:
            found.slow += 1
            if not left:
                raise
            continue
        found.late += late
        if not disturbed or not left:
            found.disturbed += bool(disturbed)
            return answers
    raise machines.Failed(machine.collector)


def difference(script, theirs, ours, found):
    """The first step at which the three answers are not alike, or none."""
    due = script.answers()[0]
    for at, answer in enumerate(due):
        if ours[at:at + 1] != [answer]:
            return at
        if theirs[at] != answer:
            if is_choice(script, at) and before(script, at).is_allowed(theirs[at]):
                found.open += 1
                return None
            return at
        if script.given.get(at, answer) != answer:
            return at
        found.answers += answer is not None
        if script.steps[at][0] == "drain" and len(theirs[at].order) > 1:
            found.drained += 1
            found.reversed += theirs[at].order != ours[at].order
    return None


def is_choice(script, at):
    return script.policy == "age" and script.steps[at][0] == "gc"


def before(script, at):
    """The state before a step."""
    model = Expected(script.policy)
    for step in script.steps[:at]:
        model.step(step)
    return model


def differing(machine, scripts, program, megabytes):
    """Of these scripts the shortest that differs, or none."""
    theirs = machine.play(scripts, megabytes)[0] if scripts else []
    wrong = [script for script, answers in zip(scripts, theirs)
             if difference(script, answers, heap.play(program, script), Found()) is not None]
    return min(wrong, key=lambda script: len(script.steps), default=None)


def is_playable(script):
    try:
        return bool(script.steps) and script.is_whole()
    except (Invalid, Doubt):
        return False


def shrunk(machine, script, program, megabytes):
    """Cuts steps out of a script while it still differs. Its text, with the three answers to its last step."""
    for piece in PIECES:
        while True:
            cut = [Script(script.name, script.policy, script.steps[:at] + script.steps[at + piece:])
                   for at in range(len(script.steps) - piece + 1)]
            shorter = differing(machine, [each for each in cut if is_playable(each)], program, megabytes)
            if shorter is None:
                break
            script = shorter
    return told(machine, script, program, megabytes)


def told(machine, script, program, megabytes):
    """A script with what refheap, the machine and the expectations answer."""
    theirs, ours, due = machine.play([script], megabytes)[0][0], heap.play(program, script), script.answers()[0]
    lines = [str(script).split("\n", maxsplit=1)[0]]
    for at, step in enumerate(script.steps):
        line = " ".join(map(str, step))
        if due[at] is not None or ours[at:at + 1] != [due[at]]:
            said = ours[at] if at < len(ours) else "nothing"
            differ = f"   expected {due[at]}, refheap {said}, {machine.collector} {theirs[at]}"
            line += f" = {due[at]}" if said == theirs[at] == due[at] else differ
        lines.append(line)
    return "\n".join(lines)
