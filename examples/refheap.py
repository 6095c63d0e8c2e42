"""A client of `refheap serve`: each command is a method, and a refusal or a fault is an exception with words.

    with Client("DIR/heap", seconds=10) as heap:       # tries for ten seconds to connect
        entry = heap.new("r")
        held = heap.soft(entry)
        heap.drop(entry)

`ahead` sends any number of lines before it reads, and returns their replies as text. After a ConnectionError,
`reconnect` begins a new session, without handles. `renew` moves handles to a new session, before the 1,000,000 lines of
one are used up. `Server(program, total)` is a server of your own, for a test or an example."""
import os
import secrets
import select
import shutil
import socket
import subprocess
import sys
import tempfile
import time
from collections import deque

NAMES = {
    1: "no memory", 2: "heap full", 3: "no such handle", 4: "handles full", 5: "wrong kind", 6: "no such field", 7: "wrong type",
    8: "null", 9: "no such name", 10: "names full", 11: "busy", 12: "closed", 13: "no session", 14: "numbers exhausted",
    15: "malformed", 16: "too long", 17: "not out", 18: "queue empty", 19: "resources full",
}


class Refused(Exception):
    """The heap did not do it; nothing has changed, but that after 2 the heap was collected."""

    def __init__(self, number, line=""):
        super().__init__(f"{line + ': ' if line else ''}{number} {NAMES.get(number, 'unknown')}")
        self.number = number


class Fault(Exception):
    """A call on a file or a socket failed: `notfound`, `denied` or `other`."""


class Client:
    """One session. A handle is a number, 0 is null. `lines` counts what was sent: the 1,000,000th ends the session."""

    def __init__(self, path, seconds=0):
        self.path = path
        self.reconnect(seconds)

    def reconnect(self, seconds=0):
        """Connects, and retries for this number of seconds while nobody listens. The session begins with its first reply."""
        until = time.monotonic() + seconds
        self.lines, self.unread, self.arrived = 0, b"", deque()
        while True:
            self.socket = socket.socket(socket.AF_UNIX)
            try:
                return self.socket.connect(self.path)
            except (FileNotFoundError, ConnectionRefusedError):
                self.socket.close()
                if time.monotonic() >= until:
                    raise
                time.sleep(0.01)

    def renew(self, *handles):
        """Begins a new session, and returns new handles for the objects of these. A named array holds them meanwhile."""
        name, held = f"renew_{secrets.token_hex(8)}", self.array(max(1, len(handles)))
        for number, handle in enumerate(handles):
            self.put(held, number, handle)
        self.bind(name, held)
        self.close_session()
        self.reconnect()
        held = self.find(name)
        self.unbind(name)
        renewed = [self.get(held, number) for number in range(len(handles))]
        self.drop(held)
        return renewed

    def __enter__(self):
        return self

    def __exit__(self, *_):
        self.close_session()

    def ahead(self, *lines):
        """Sends all lines and returns their replies. It reads while it writes, so the two sides never both wait."""
        if any("\n" in line for line in lines):
            raise ValueError("a line has no line end within")
        data, sent = memoryview("".join(line + "\n" for line in lines).encode()), 0
        self.lines += len(lines)
        try:
            while sent < len(data):
                sent += self._send_or_receive(data[sent:sent + 65_536])
            while len(self.arrived) < len(lines):
                self._receive()
        except BaseException:
            self.socket.close()  # Replies that were not read would be taken for those of later lines.
            raise
        return [self.arrived.popleft().decode() for _ in lines]

    def _send_or_receive(self, data):
        poll = select.poll()
        poll.register(self.socket, select.POLLIN | select.POLLOUT)
        ready = poll.poll()[0][1]
        if ready & ~select.POLLOUT:
            self._receive()
        try:
            return self.socket.send(data, socket.MSG_DONTWAIT) if ready & select.POLLOUT else 0
        except BrokenPipeError:
            return len(data)  # The session is over; what was answered before can still be read.

    def _receive(self):
        data = self.socket.recv(65_536)
        if not data:
            raise ConnectionError("the server ended the session")
        *whole, self.unread = (self.unread + data).split(b"\n")
        self.arrived.extend(whole)

    def ask(self, line):
        """Sends one line and gives its reply: None for ok, a bool, a number, bytes, or a list of words."""
        return read_reply(self.ahead(line)[0], line)

    def new(self, layout="-"):
        return self.ask(f"new {layout}")

    def write_all(self, guard, data):
        """Writes all of the data, 200 bytes a line; a short write is continued."""
        while data:
            taken = self.write(guard, data[:200])
            if taken == 0:
                raise Fault("nothing was taken")
            data = data[taken:]

    def read_all(self, guard):
        """All bytes up to the end."""
        return b"".join(iter(lambda: self.read(guard, 200), b""))

    def close_session(self):
        """Says bye, and closes the connection."""
        try:
            self.ahead("bye")
        except OSError:
            pass
        self.socket.close()


def read_reply(reply, line=""):
    word, _, rest = reply.partition(" ")
    if word == "!":
        raise Refused(int(rest), line)
    if word == "fault":
        raise Fault(rest)
    if word in ("=", "int", "wrote"):
        return int(rest)
    if word in ("yes", "no"):
        return word == "yes"
    if word == "data":
        return bytes.fromhex(rest)
    if word in ("list", "stat"):
        return rest.split()
    return b"" if word == "end" else None


def _command(name):
    spelled = lambda word: word.hex() if isinstance(word, bytes) else str(word)
    return lambda self, *words: self.ask(" ".join([name, *map(spelled, words)]))


for _name in ("array put get setint int dup drop same deref refers clear enqueue enqueued queue poll remove cleaner "
              "register clean open connect read write close bind find unbind names gc stat notes faults").split():
    setattr(Client, _name, _command(_name))
for _name in ("soft", "weak", "phantom"):
    setattr(Client, _name, (lambda name: lambda self, handle, queue=0: self.ask(f"{name} {handle} {queue}"))(_name))


class Server:
    """A server of its own, on a socket in a folder of its own; it ends once `total` clients were served."""

    def __init__(self, program, total, *options):
        self.folder = tempfile.TemporaryDirectory()
        self.path = os.path.join(self.folder.name, "socket")
        words = [program, "serve", "--socket", self.path, "--total", str(total), *options]
        self.process = subprocess.Popen(words, stdout=subprocess.PIPE, text=True)
        while not os.path.exists(self.path):
            if self.process.poll() is not None:
                raise RuntimeError("the server did not start")
            time.sleep(0.01)

    def client(self):
        return Client(self.path, seconds=10)

    def end(self):
        """Waits until the server ends. Returns its exit status, its clients, and the entries of its history."""
        served, entries = [int(line.split()[1]) for line in self.process.communicate()[0].splitlines()]
        self.folder.cleanup()
        return self.process.returncode, served, entries


def program_of(words):
    """Returns the program that a command line names; without one, prints a sentence and exits."""
    if len(words) != 2:
        sys.exit(f"usage: python3 {words[0]} PROGRAM, a refheap: crates/refheap/out/refheap, or refheap-unproved there")
    program = shutil.which(words[1])
    if program is None:
        sys.exit(f"{words[0]}: {words[1]} is no program that can be started; `make` or `make quick` builds one")
    return os.path.abspath(program)
