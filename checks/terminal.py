#!/usr/bin/env python3
"""Tries the program as a person at a terminal meets it, on pseudo-terminals and pipes: the client of a server, the manual of the commands,
the figures of a history, how far a long audit is, verdicts as JSON, and the reasons that are told where a file or a socket cannot be used.

    checks/terminal.py PROGRAM

At the end it says how many microseconds the client adds to a request, and how long `commands` and `version` take to start.
"""
import json
import os
import pty
import select
import signal
import socket
import subprocess
import sys
import tempfile
import time

WRONG = []
NO_FILE = "there is no such file or folder: check the path\n"
MISSING = "refheap: " + NO_FILE


def wants(what, got, due):
    if got == due:
        print("ok     ", what)
    else:
        WRONG.append(what)
        print("WRONG  ", what, "\n  got", repr(got), "\n  due", repr(due))


def run(program, words, given=b"", folder=None):
    ended = subprocess.run([program, *words], input=given, capture_output=True, cwd=folder, timeout=60)
    return ended.returncode, ended.stdout.decode(), ended.stderr.decode()


class Server:
    """A server in a folder, for so many clients."""

    def __init__(self, program, folder, total, words=()):
        self.path = os.path.join(folder, "heap")
        self.process = subprocess.Popen([program, "serve", "--socket", self.path, "--total", str(total), *words],
                                        stdout=subprocess.PIPE, stderr=subprocess.PIPE, cwd=folder)
        for _ in range(500):
            if os.path.exists(self.path):
                return
            time.sleep(0.01)
        raise SystemExit("no server")

    def ended(self):
        out, said = self.process.communicate(timeout=60)
        return self.process.returncode, out.decode(), said.decode()


class Terminal:
    """A program at a pseudo-terminal."""

    def __init__(self, words, folder):
        self.process, self.place = pty.fork()
        if self.process == 0:
            os.chdir(folder)
            os.execv(words[0], words)
        self.shown = b""

    def until(self, text, seconds=20):
        """What is shown up to this text, or to the end."""
        end = time.monotonic() + seconds
        while text not in self.shown and time.monotonic() < end:
            if select.select([self.place], [], [], 0.1)[0]:
                try:
                    got = os.read(self.place, 65536)
                except OSError:
                    break
                if not got:
                    break
                self.shown += got
        before, found, self.shown = self.shown.partition(text)
        return (before + found).decode().replace("\r\n", "\n")

    def types(self, text):
        os.write(self.place, text.encode())

    def ended(self):
        said = self.until(b"\0", 20)
        status = os.waitstatus_to_exitcode(os.waitpid(self.process, 0)[1])
        os.close(self.place)
        return status, said


def at_terminal(program, folder):
    """A person at the client: what is typed, and what is shown."""
    server = Server(program, folder, 3)
    terminal = Terminal([program, "client", server.path], folder)
    rows = [
        ("new r", "= 1\n"),
        ("get 7 0", "! 3  no such handle\n"),
        ("gett", "! 15  no such command\n"),
        ("soft 1 0", "= 2\n"),
        (".nothing", "no such word of the client; `help` lists them\n"),
        (".save script", ""),
        (".save none/script", "cannot save none/script\n" + NO_FILE),
        ("help nothing", "no such command; `help` lists them\n"),
        ("stat", "stat 2 0 0 0 0\n"),
    ]
    terminal.until(b"> ")
    for typed, due in rows:
        terminal.types(typed + "\n")
        shown = terminal.until(b"> ")
        wants(f"at a terminal: {typed}", shown, f"{typed}\n{due}> ")
    terminal.types("help weak\n")
    shown = terminal.until(b"> ")
    wants("help of a command", shown.startswith("help weak\nweak h q\n  makes a weak reference") and "no such handle" in shown, True)
    terminal.types("help\n")
    shown = terminal.until(b"\n> ")
    wants("help", all(word in shown for word in [".save FILE", ".quit", "put h k v", "gc soft"]), True)
    terminal.types("bye\n")
    wants("bye ends it", terminal.ended(), (0, "bye\nok\n"))
    with open(os.path.join(folder, "script"), encoding="ascii") as file:
        wants("the script is what went to the server", file.read(), "new r\nget 7 0\ngett\nsoft 1 0\n")
    for word, shown in [(".quit\n", ".quit\n"), ("\x04", "\n")]:
        terminal = Terminal([program, "client", server.path], folder)
        terminal.until(b"> ")
        terminal.types(word)
        status, said = terminal.ended()
        wants(f"{word!r} ends it", (status, said.replace("^D\b\b", "")), (0, shown))
    wants("the server ends", server.ended()[0], 0)
    server = Server(program, folder, 1, ["--control", "control"])
    terminal = Terminal([program, "client", server.path], folder)
    terminal.until(b"> ")
    terminal.types("new -\n")
    wants("a session of which the server will end", terminal.until(b"> "), "new -\n= 1\n> ")
    wants("the server is stopped", (run(program, ["stop", "control"], folder=folder), server.ended()[0]), ((0, "", ""), 0))
    terminal.types("stat\n")
    wants("at a terminal: the server has ended", terminal.ended(), (0, "stat\nthe server has ended the session\n"))


def from_pipe(program, folder):
    """The client between pipes: bytes in and out."""
    server = Server(program, folder, 6)
    client = lambda given: run(program, ["client", server.path], given, folder)
    wants("a script", client(b"new -\nget 1 0\nbye\n"), (0, "= 1\n! 6\nok\n", ""))
    wants("the end of the input", client(b"new -\n"), (0, "= 1\n", ""))
    wants("a line without its end", client(b"new -\nbye"), (0, "= 1\n! 15\n", ""))
    wants("no line is for the client", client(b"help\n.quit\n"), (0, "! 15\n! 15\n", ""))
    lines = 200_000
    wants("many lines", client(b"same 0 0\n" * lines), (0, "yes\n" * lines, ""))
    with open(os.path.join(folder, "script"), "w", encoding="ascii") as file:
        file.write("new -\nbye\n")
    with open(os.path.join(folder, "script"), "rb") as file:
        ended = subprocess.run([program, "client", server.path], stdin=file, capture_output=True, timeout=60)
    wants("a script from a file", (ended.returncode, ended.stdout), (0, b"= 1\nok\n"))
    wants("the server ends then", server.ended()[0], 0)
    open_input = subprocess.Popen([program, "client", os.path.join(folder, "none")], stdin=subprocess.PIPE, stderr=subprocess.PIPE)
    said = open_input.communicate()[1].decode()
    wants("nobody there", (open_input.returncode, said), (1, f"refheap: cannot connect to {folder}/none\n" + MISSING))
    server = Server(program, folder, 1)
    left = subprocess.Popen([program, "client", server.path], stdin=subprocess.PIPE, stdout=subprocess.PIPE)
    left.stdin.write(b"bye\n")
    left.stdin.flush()
    wants("it ends with the server, also where its input stays open", (left.wait(timeout=20), left.stdout.read()), (0, b"ok\n"))
    left.stdin.close()
    server.ended()


def shown_at(place):
    """All that is shown at a pseudo-terminal whose other side is closed."""
    shown = b""
    try:
        while got := os.read(place, 65536):
            shown += got
    except OSError:
        pass
    return shown.decode().replace("\r\n", "\n")


def from_pipe_to_terminal(program, folder):
    """The client whose input is a pipe, and whose output is a terminal: the replies alone are shown, and no line is for the client."""
    server = Server(program, folder, 1)
    place, other = pty.openpty()
    client = subprocess.Popen([program, "client", server.path], stdin=subprocess.PIPE, stdout=other, stderr=subprocess.PIPE)
    os.close(other)
    said = client.communicate(b"new -\nhelp\n.quit\nget 7 0\nbye\n", timeout=60)[1]
    wants("a script to a terminal", (client.returncode, said, shown_at(place)), (0, b"", "= 1\n! 15\n! 15\n! 3\nok\n"))
    os.close(place)
    server.ended()


def fill(pipe):
    """Writes to a pipe until for half a second nothing more is taken."""
    os.set_blocking(pipe.fileno(), False)
    while select.select([], [pipe], [], 0.5)[1]:
        os.write(pipe.fileno(), b"same 0 0\n" * 400)


def killed(program, folder):
    """A server that is killed while it has not read all that the client sent: the replies cannot be read."""
    server = Server(program, folder, 1)
    pipe = subprocess.PIPE
    client = subprocess.Popen([program, "client", server.path], stdin=pipe, stdout=pipe, stderr=pipe, bufsize=0)
    client.stdin.write(b"new -\n")
    wants("a session of which the server will be killed", client.stdout.readline(), b"= 1\n")
    server.process.send_signal(signal.SIGSTOP)
    os.waitpid(server.process.pid, os.WUNTRACED)  # each of its threads has stopped
    fill(client.stdin)
    wants("the client waits", client.poll(), None)
    server.process.kill()
    replies, said = client.communicate(timeout=20)
    wants("a client whose server is killed", (client.returncode, replies, said), (1, b"", b"refheap: read failed\n"))
    server.ended()


def manual(program, folder):
    status, text, said = run(program, ["commands"])
    lines = text.splitlines()
    wants("the table", (status, said, lines[0].split(), lines[38].split()), (0, "", ["Command", "Reply", "Refused"], ["bye", "ok"]))
    wants("a line of it", lines[3].split(), "put h k v ok 13 3 8 5 6 7 11".split())
    page = run(program, ["commands", "weak"])
    wants("a page", (page[0], page[1].splitlines()[0], "example  weak 1 0" in page[1]), (0, "weak h q", True))
    wants("both kinds of collection", [line for line in run(program, ["commands", "gc"])[1].splitlines() if not line.startswith(" ")], ["gc", "gc soft"])
    status, text, said = run(program, ["commands", "walk"])
    wants("no such page", (status, text, "there is no such command" in said), (2, "", True))
    examples = [line.split("example  ")[1] for line in "".join(run(program, ["commands", word])[1] for word in words_of(lines)).splitlines()
                if "example  " in line]
    replies = run(program, ["run"], "".join(f"{line}\n" for line in examples if line != "bye").encode(), folder)[1].splitlines()
    wants("each example is a command", (len(examples), [reply for reply in replies if reply in ("! 15", "! 16")]), (38, []))


def words_of(lines):
    """The first words of the table's lines, each once."""
    return dict.fromkeys(line.split()[0] for line in lines[1:39])


def greeting(program, folder):
    terminal = Terminal([program, "run"], folder)
    shown = terminal.until(b"them\r\n")
    wants("a session at a terminal says how to leave", shown, "refheap: one command a line, `bye` ends; `refheap commands` lists them\n")
    terminal.types("bye\n")
    wants("it ends", terminal.ended(), (0, "bye\nok\n"))
    wants("elsewhere nothing is said", run(program, ["run"], b"bye\n"), (0, "ok\n", ""))


SESSION = b"""queue
new r
weak 2 1
soft 2 0
drop 2
gc
gc soft
poll 1
cleaner
open w file
drop 6
gc
close 9
array 3
"""


def of_session(program, lines, folder):
    """The figures of the history of a session of these lines."""
    run(program, ["run", "--cells", "16", "--save", "other"], lines.encode(), folder)
    return run(program, ["stats", "--json", "other"], folder=folder)[1]


def figures(program, folder):
    status, _, said = run(program, ["run", "--cells", "16", "--save", "history"], SESSION, folder)
    wants("a session is saved", (status, said), (0, ""))
    status, text, said = run(program, ["stats", "--json", "history"], folder=folder)
    wants("figures as JSON", (status, said), (0, ""))
    told = json.loads(text)
    entries = json.loads(run(program, ["audit", "--json", "history"], folder=folder)[1])
    wants("the verdict as JSON", entries, {"legal": True, "entries": told["entries"], "before": 0, "version": 2})
    asks = told["asks"]["0"]
    wants("asks", (asks["queue"], asks["gc"], asks["gc soft"], asks["poll"], asks["array"], asks["all"] >= 16), (1, 2, 1, 1, 1, True))
    wants("all asks", sum(seat["all"] for seat in told["asks"].values()), told["entries"])
    each = told["each"]
    wants("collections", (told["collections"], len(each)), (3, 3))
    wants("the first keeps the soft reference's referent", [each[0][name] for name in ("freed", "soft_kept", "soft_cleared", "weak_cleared")], [0, 1, 0, 0])
    wants("the second clears both", [each[1][name] for name in ("freed", "soft_kept", "soft_cleared", "weak_cleared")], [1, 0, 1, 1])
    wants("the queue had one", told["longest_queue"], 1)
    wants("one file was open, and its action ended well", (told["most_open"], told["actions"]["ok"]), (1, 1))
    last = told["objects"][-1]
    wants("objects at the end", [last[name] for name in ("array", "soft", "weak", "queue", "cleaner")], [1, 1, 1, 1, 1])
    lines = ["queue", "new -", "phantom 2 0", "weak 2 1", "enqueue 4", "drop 2", "gc", "open w /dev/null", "close 2"]
    more = json.loads(of_session(program, "".join(line + "\n" for line in lines), folder))
    first, actions = more["each"][0], more["actions"]
    cleared = ("freed", "weak_cleared", "phantom_cleared")
    wants("a phantom is no weak reference", [first[name] for name in cleared], [1, 0, 1])
    wants("what was enqueued counts", more["longest_queue"], 1)
    wants("what cannot be synced is another fault", (actions["denied"], actions["other"]), (0, 1))
    for name in ("freed", "soft_kept", "soft_cleared", "weak_cleared", "phantom_cleared"):
        wants(f"all that were {name} is the sum of each", told["all"][name], sum(one[name] for one in each))
    status, text, said = run(program, ["stats", "history"], folder=folder)
    lines = text.splitlines()
    wants("figures as a table", (status, said, lines[1].split()[0], "Collections" in text, "soft references cleared" in text), (0, "", "after", True, True))
    path = os.path.join(folder, "history")
    with open(path, "r+b") as file:
        file.seek(-3, os.SEEK_END)
        file.write(b"\1")
    verdict = run(program, ["audit", "--json", "--explain", "history"], folder=folder)
    wants("an illegal one as JSON", (verdict[0], json.loads(verdict[1])["legal"], verdict[2]), (3, False, ""))
    wants("its figures have its status", run(program, ["stats", "history"], folder=folder)[0], 3)


MANY = 1_100


def many_collections(program, folder):
    """All collections count, and the first thousand are told one by one."""
    told = json.loads(of_session(program, "gc\n" * MANY, folder))
    each = told["each"]
    wants(f"{MANY} collections", (told["collections"], len(each), told["asks"]["0"]["gc"]), (MANY, 1_000, MANY))
    # The first entry is that of the join.
    wants("their entries", [one["entry"] for one in each[:2] + each[-1:]], [2, 3, 1_001])


LONG = 250_000
# The front of a history of so many entries, in version 2, from an empty heap; and an entry that is legal there: `stat` of who has not joined.
FRONT = bytes.fromhex("4a4c5254 02 00000010 01 0010 0000000000000000 00000000 00" + "00000000" * 7 + "0000000000000001" + "00" * 24) + LONG.to_bytes(8, "big")
ENTRY = bytes.fromhex("00 2100 100d 00")


def progress(program, folder):
    """On a terminal the standard error says how far a long audit is; elsewhere nothing."""
    with open(os.path.join(folder, "long"), "wb") as file:
        file.write(FRONT + ENTRY * LONG)
    verdict = f"legal {LONG} version 2\n"
    for words in (["audit", "long"], ["audit", "--explain", "long"]):
        status, shown = Terminal([program, *words], folder).ended()
        far = [line for line in shown.splitlines() if "%" in line]
        wants(f"how far `{' '.join(words)}` is", (status, [[share for share in ("40 %", "80 %") if share in line] for line in far], shown.endswith(verdict)),
              (0, [["40 %"], ["80 %"]], True))
        wants(f"elsewhere `{' '.join(words)}` says the verdict alone", run(program, words, folder=folder), (0, verdict, ""))


def reasons(program, folder):
    there = lambda name: os.path.join(folder, name)
    line = lambda reason: f"refheap: {reason}\n"
    save = lambda path: run(program, ["run", "--save", path], b"new -\n", folder)
    wants("a save into no folder is told at the start", save("none/saved"), (1, "", line("cannot save none/saved") + MISSING))
    os.mkdir(there("folder"))
    wants("a save to a folder", save("folder"), (1, "", line("cannot save folder") + line("it is a folder: name a file")))
    wants("no new file is left", [name for name in os.listdir(folder) if ".new" in name], [])
    listen = lambda path: run(program, ["serve", "--socket", path, "--total", "1"], folder=folder)
    with open(there("taken"), "w", encoding="ascii"):
        pass
    taken = line("it is in use: remove it if no server runs there, or name another path")
    wants("a taken socket", listen("taken"), (1, "", line("cannot listen on taken") + taken))
    wants("a socket in no folder", listen("none/heap"), (1, "", line("cannot listen on none/heap") + MISSING))
    long = "x" * 108
    told = line("the name is empty or too long: a name has at most 255 bytes, a socket's path 107, and 103 with a mode")
    wants("a socket with too long a name", listen(long), (1, "", line(f"cannot listen on {long}") + told))
    wants("a server whose history cannot be saved does not begin",
          run(program, ["serve", "--socket", "heap2", "--total", "1", "--save", "none/saved"], folder=folder),
          (1, "", line("cannot save none/saved") + MISSING))
    wants("no file to audit", run(program, ["audit", "none"], folder=folder), (1, "", line("cannot read none") + MISSING))
    wants("a folder to audit", run(program, ["audit", "folder"], folder=folder), (1, "", line("cannot read folder") + line("it is a folder: name a file")))
    if os.getuid() != 0:
        os.chmod(there("folder"), 0o500)
        denied = line("permission is denied: check the rights of the file and of its folder")
        wants("a save where nothing may be made", save("folder/saved"), (1, "", line("cannot save folder/saved") + denied))


def asked_and_answered(send, receive, count):
    """The seconds of so many requests, each sent when the last was answered."""
    begun = time.perf_counter()
    for _ in range(count):
        send(b"same 0 0\n")
        receive()
    return time.perf_counter() - begun


def speed(program, folder):
    """What the client adds to a request: one by one, and many ahead; and how long short commands take."""
    server = Server(program, folder, 4)
    count = 20_000
    direct = socket.socket(socket.AF_UNIX)
    direct.connect(server.path)
    client = subprocess.Popen([program, "client", server.path], stdin=subprocess.PIPE, stdout=subprocess.PIPE, bufsize=0)
    alone, through = [], []
    for _ in range(3):
        alone.append(asked_and_answered(direct.sendall, lambda: direct.recv(64), count))
        through.append(asked_and_answered(client.stdin.write, lambda: client.stdout.read(64), count))
    direct.close()
    client.stdin.close()
    client.wait(timeout=20)
    lines = 300_000
    ahead = []
    for words in (["client", server.path], ["client", server.path]):
        begun = time.perf_counter()
        run(program, words, b"same 0 0\n" * lines)
        ahead.append(time.perf_counter() - begun)
    server.ended()
    added = (min(through) - min(alone)) / count * 1e6
    print(f"one by one the client adds {added:.1f} microseconds to {min(alone) / count * 1e6:.1f}; sent ahead a request takes {min(ahead) / lines * 1e6:.2f}")
    for word in ["commands", "version"]:
        times = []
        for _ in range(20):
            begun = time.perf_counter()
            run(program, [word])
            times.append(time.perf_counter() - begun)
        print(f"{word}: {min(times) * 1e3:.1f} ms")


def main():
    program = os.path.abspath(sys.argv[1])
    clients = [at_terminal, from_pipe, from_pipe_to_terminal, killed]
    for part in [*clients, manual, greeting, figures, many_collections, progress, reasons, speed]:
        with tempfile.TemporaryDirectory() as folder:
            part(program, folder)
    sys.exit(1 if WRONG else 0)


if __name__ == "__main__":
    if len(sys.argv) < 2:
        sys.exit(__doc__)
    main()
