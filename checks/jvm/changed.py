"""Expectations that are changed on purpose, to see that a script finds each."""
from expected import Expected, yes


class WeakKept(Expected):
    """A weak reference to what is weakly reachable is kept."""

    def is_cleared(self, reference, kept):
        return reference.kind != "weak" and super().is_cleared(reference, kept)


class EnqueuedAgain(Expected):
    """A reference that is in its queue is enqueued a second time."""

    def do_enqueue(self, slot):
        reference = self.thing(slot, "soft", "weak", "phantom")
        return yes(super().do_enqueue(slot) == "yes" or reference.state == "queued")


class PhantomEarly(Expected):
    """A phantom reference to what is softly reachable is cleared."""

    def is_cleared(self, reference, kept):
        if reference.kind == "phantom" and reference.referent is not None:
            return reference.referent not in self.reached(lambda other: False)
        return super().is_cleared(reference, kept)


class OneAtATime(Expected):
    """Of the references that a collection clears only one is."""

    def collect(self):
        self.cleared = None
        return super().collect()

    def is_cleared(self, reference, kept):
        if not super().is_cleared(reference, kept):
            return False
        self.cleared = self.cleared or reference
        return reference is self.cleared


class ClearEnqueues(Expected):
    """`clear` puts a reference into its queue."""

    def do_clear(self, slot):
        reference = self.thing(slot, "soft", "weak", "phantom")
        super().do_clear(slot)
        self.is_enqueued_now(reference)


class ComesTwice(Expected):
    """A reference stays in the queue that it was polled from."""

    def taken(self, queue):
        found = super().taken(queue)
        queue.members = list(found)
        return found


class ForgottenQueue(Expected):
    """A cleared reference does not come into its queue."""

    def is_enqueued_now(self, reference):
        return False


class PhantomGot(Expected):
    """`get` of a phantom reference gives its referent."""

    def do_ref(self, to, slot):
        reference = self.thing(slot, "soft", "weak", "phantom")
        found = self.slots[to] = reference.referent
        return self.named(found)


class ActionAgain(Expected):
    """`clean` runs an action that has run."""

    def do_clean(self, slot):
        if not self.spend(self.thing(slot, "cleanable")):
            self.counts[self.thing(slot, "cleanable").action] += 1


class ActionEarly(Expected):
    """An action runs at the next collection, whether its object is reachable or not."""

    def collect(self):
        for each in self.armed:
            each.referent = None
        return super().collect()


class SoftSplit(Expected):
    """A soft reference is cleared though its referent is reachable by another that is kept."""

    def is_cleared(self, reference, kept):
        return super().is_cleared(reference, kept) or reference.kind == "soft" and not self.is_new(reference)

    def is_new(self, reference):
        return self.policy != "age" or reference.used == self.clock - 1 or reference.referent is None


class UnreachableTold(Expected):
    """A reference comes into its queue though it is unreachable itself."""

    def collect(self):
        changed = super().collect()
        for thing in self.things:
            if thing not in self.kept and thing.queue in self.kept and self.is_cleared(thing, self.kept):
                thing.referent = None
                changed = self.is_enqueued_now(thing) or changed
        return changed


CHANGES = (WeakKept, EnqueuedAgain, PhantomEarly, OneAtATime, ClearEnqueues, ComesTwice, ForgottenQueue, PhantomGot,
           ActionAgain, ActionEarly, SoftSplit, UnreachableTold)
