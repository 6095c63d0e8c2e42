"""The heap in this process, by ctypes: a Heap with Python's objects behind its handles, and a page of examples.

    python3 embed.py [librefheap.so]

The library is librefheap.so beside this file, or what the environment names as REFHEAP_LIBRARY. It is loaded by PyDLL, which keeps the interpreter's lock
during a call: one call on a heap at a time is all that it asks."""
import os
import sys
from ctypes import POINTER, PyDLL, Structure, byref, c_bool, c_char, c_char_p, c_int64, c_size_t, c_uint8, c_uint16, c_uint32, c_uint64, c_void_p

NAMES = {1: "no memory", 2: "heap full", 3: "no handle", 4: "handles full", 5: "wrong kind", 6: "no field", 7: "wrong type", 8: "null", 9: "no name",
         10: "names full", 11: "busy", 12: "guard closed", 13: "no session", 14: "exhausted", 17: "not out", 18: "would wait", 19: "resources full",
         32: "not open", 33: "range", 34: "idle", 35: "cells", 36: "sessions", 37: "resources", 38: "soft age"}
IDLE, CLEANER = 34, 255


class Struct(Structure):
    _fields_ = [("at", c_void_p)]


class Job(Structure):
    _fields_ = [("action", c_uint64), ("value", c_uint64), ("is_token", c_bool)]


class Counts(Structure):
    _fields_ = [(name, c_uint64) for name in ("objects", "resources", "taken", "ok", "failed")]


class Failed(Structure):
    _fields_ = [("action", c_uint64), ("fault", c_uint32)]


_u8, _h, _b, _job = c_uint8, POINTER(c_uint8), POINTER(c_bool), POINTER(Job)
CALLS = {
    "open": (c_uint32, c_uint32, c_uint32, c_uint32), "close": (), "join": (_u8,), "leave": (_u8,),
    "new": (_u8, _u8, _u8, _h), "array": (_u8, c_uint16, _h), "dup": (_u8, _u8, _h), "drop": (_u8, _u8), "same": (_u8, _u8, _u8, _b),
    "put": (_u8, _u8, c_uint16, _u8), "get": (_u8, _u8, c_uint16, _h), "set_int": (_u8, _u8, c_uint16, c_int64), "int": (_u8, _u8, c_uint16, POINTER(c_int64)),
    "soft": (_u8, _u8, _u8, _h), "weak": (_u8, _u8, _u8, _h), "phantom": (_u8, _u8, _u8, _h), "deref": (_u8, _u8, _h), "refers": (_u8, _u8, _u8, _b),
    "clear": (_u8, _u8), "enqueue": (_u8, _u8, _b), "enqueued": (_u8, _u8, _b), "queue": (_u8, _h), "poll": (_u8, _u8, _h), "remove": (_u8, _u8, _h),
    "cleaner": (_u8, _h), "register": (_u8, _u8, _u8, c_uint32, _h), "clean": (_u8, _u8, _job), "prepare": (_u8,), "adopt": (_u8, c_uint64, _h),
    "give_up": (_u8, c_uint32), "check_out": (_u8, _u8, POINTER(c_uint64)), "check_in": (_u8, c_uint64, c_uint32), "stop": (_u8, _u8, _job),
    "take_up": (_job,), "finish": (_u8, c_uint64, c_uint32), "gc": (_u8,), "gc_soft": (_u8,), "hand_over": (), "begin": (_b,), "mark": (c_uint32, _b),
    "collect": (_b,), "abandon": (_b,), "bind": (_u8, c_char_p, c_size_t, _u8), "find": (_u8, c_char_p, c_size_t, _h), "unbind": (_u8, c_char_p, c_size_t),
    "stat": (_u8, POINTER(Counts)), "name": (_u8, c_size_t, POINTER(c_char * 33)), "note": (_u8, c_size_t, POINTER(c_uint32)),
    "failure": (_u8, c_size_t, POINTER(Failed)),
}


def load(path=None):
    """The library, with the types of its calls."""
    library = PyDLL(path or os.environ.get("REFHEAP_LIBRARY") or os.path.join(os.path.dirname(os.path.abspath(__file__)), "librefheap.so"))
    for name, types in CALLS.items():
        call = getattr(library, "refheap_" + name)
        call.argtypes, call.restype = (POINTER(Struct), *types), None if name == "close" else c_uint32
    return library


class Refused(Exception):
    """A call returned a number other than 0."""

    def __init__(self, call, number):
        super().__init__(f"{call}: {NAMES.get(number, number)}")
        self.number = number


class Heap:
    """A heap with one mutator. Objects are handles, small numbers; drop each that you were given. Cleaning actions are closures."""

    def __init__(self, library, cells=1024, resources=64, soft_age=2):
        self.library, self.heap, self.actions, self.things, self.last = library, Struct(), {}, {}, 0
        self.do("open", cells, 1, resources, soft_age)
        self.do("join", 0)
        self.cleaner = self.give("cleaner", 0)

    def do(self, call, *arguments):
        """One call that has to return 0."""
        number = getattr(self.library, "refheap_" + call)(self.heap, *arguments)
        if number:
            raise Refused(call, number)

    def give(self, call, *arguments, of=c_uint8):
        """The same for a call that gives something."""
        out = of()
        self.do(call, *arguments, byref(out))
        return out.value

    def new(self, fields=0, references=255):
        return self.give("new", 0, fields, references)

    def queue(self):
        return self.give("queue", 0)

    def weak(self, referent, queue=0):
        return self.give("weak", 0, referent, queue)

    def soft(self, referent, queue=0):
        return self.give("soft", 0, referent, queue)

    def deref(self, reference):
        return self.give("deref", 0, reference)

    def poll(self, queue):
        return self.give("poll", 0, queue)

    def drop(self, handle):
        self.do("drop", 0, handle)

    def guard(self, opened):
        """A guard for what `opened()` gives, which has a `close`."""
        self.do("prepare", 0)
        try:
            thing = opened()
        except OSError:
            self.do("give_up", 0, 3)
            raise
        self.last += 1
        self.things[self.last] = thing
        return self.give("adopt", 0, self.last)

    def borrowed(self, guard, use):
        """What `use` makes of a guard's thing."""
        token = self.give("check_out", 0, guard, of=c_uint64)
        try:
            return use(self.things[token])
        finally:
            self.do("check_in", 0, token, 0)

    def on_death(self, handle, action):
        """`action()` is called by a later `collect`, once the object is reclaimed. A handle for its cleanable."""
        self.last += 1
        self.actions[self.last] = action
        return self.give("register", 0, self.cleaner, handle, self.last)

    def collect(self, soft=False):
        """A full collection, and all that follows it."""
        self.do("gc_soft" if soft else "gc", 0)
        while self.library.refheap_hand_over(self.heap) == 0:
            pass
        job = Job()
        while self.library.refheap_take_up(self.heap, byref(job)) == 0:
            fault = 0
            try:
                self.things.pop(job.value).close() if job.is_token else self.actions.pop(job.value)()
            except Exception:
                fault = 3
            self.do("finish", CLEANER, job.action, fault)

    def close(self):
        self.library.refheap_close(self.heap)


def main():
    heap, log = Heap(load(*sys.argv[1:2])), []
    thing, queue = heap.new(), heap.queue()
    weak = heap.weak(thing, queue)
    heap.on_death(thing, lambda: log.append("died"))
    heap.drop(heap.deref(weak))
    heap.collect()
    print("held:", log, heap.poll(queue))
    heap.drop(thing)
    heap.collect()
    print("dropped:", log, heap.deref(weak), heap.poll(queue) != 0)
    file = heap.guard(lambda: open(os.devnull, "rb"))
    print("read:", heap.borrowed(file, lambda f: f.read(4)), "open:", len(heap.things))
    heap.drop(file)
    heap.collect()
    print("forgotten: open:", len(heap.things))
    try:
        heap.deref(200)
    except Refused as refused:
        print("refused:", refused)
    heap.close()


if __name__ == "__main__":
    main()
