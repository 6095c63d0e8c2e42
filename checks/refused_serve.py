#!/usr/bin/env python3
"""Runs the worked sessions of refused.py as those of a server's one client, and audits of what was saved, again and again, each time with
another allocation refused: the first, the second, and so on, until a run makes fewer.

    checks/refused_serve.py [PROGRAM]

A server whose allocation is refused before it has a client ends with status 5, with status 1 where a thread cannot be started, or with
status 2 while the words of the command line are read; no client has a reply then. Otherwise at most one command is refused, with `! 1`. It
has changed nothing: it is sent a second time, and all replies are as with ample memory. What is handed over and what is cleaned comes in the
end, also where it is a step of a loop that was refused: a command that only looks is sent until it is answered so. Then the server closes
with status 0 and a history that is legal. Where there is no memory for the save, or for the two lines at the end, it ends with status 5; in
the second case the history is saved.

An audit tells the verdict that it has with ample memory, or ends with status 5, or 2 while the words of the command line are read.
"""
import os
import socket
import subprocess
import sys
import tempfile
import time

sys.path.insert(0, os.path.dirname(os.path.abspath(__file__)))
from refused import SAID, SESSIONS, Session, Wrong, library_in, named_program, told  # noqa: E402

# Commands that change nothing as long as they are answered otherwise than in the end.
LOOKS = ("poll", "enqueued", "notes", "faults", "stat")
SECONDS = 20
GONE, ELSEWHERE = "in the join", "in a loop or without a trace"


class Gone(Exception):
    """The server sent nothing more."""


class Ended:
    """How a process ended."""

    def __init__(self, process):
        try:
            out, errors = process.communicate(timeout=SECONDS)
        except subprocess.TimeoutExpired:
            process.kill()
            process.communicate()
            raise Wrong("it did not end") from None
        lines = errors.decode().splitlines()
        self.out = out.decode().splitlines()
        self.was_refused = SAID in lines
        self.errors = [line for line in lines if line != SAID]
        self.status = process.returncode

    def check(self, condition, what):
        if not condition:
            raise Wrong(f"{what}: status {self.status}, {self.out}, {self.errors}")


def started(words, folder, library, number):
    environment = dict(os.environ, LD_PRELOAD=library, REFUSED=str(number))
    return subprocess.Popen(words, cwd=folder, env=environment, stdin=subprocess.DEVNULL, stdout=subprocess.PIPE, stderr=subprocess.PIPE)


def connected(process, path):
    """A connection to a server, or none where it ended before it had a client."""
    while process.poll() is None:
        stream = socket.socket(socket.AF_UNIX)
        stream.settimeout(SECONDS)
        try:
            stream.connect(path)
            return stream
        except OSError:
            stream.close()
            time.sleep(0.001)
    return None


class Talk:
    """A client's session, of whose commands one at most is refused because memory ran out."""

    def __init__(self, stream):
        self.stream = stream
        self.replies = stream.makefile("rb")
        self.refused = 0

    def asked(self, line):
        try:
            self.stream.sendall(line)
            if not line.endswith(b"\n"):
                self.stream.shutdown(socket.SHUT_WR)
            reply = self.replies.readline()
        except ConnectionError:
            reply = b""
        if not reply.endswith(b"\n"):
            raise Gone
        return reply[:-1].decode()

    def answered(self, line):
        """The reply to a line, which is sent once more where it is refused."""
        reply = self.asked(line)
        if reply == "! 1":
            self.refused += 1
            reply = self.asked(line)
        return reply

    def goes(self, command, answer, end="\n"):
        """Sends a command, if need be until it is answered so."""
        line = (command + end).encode()
        reply = self.answered(line)
        late = time.monotonic() + SECONDS
        while reply != answer and command.split(" ")[0] in LOOKS and time.monotonic() < late:
            time.sleep(0.001)
            reply = self.answered(line)
        if reply != answer or self.refused > 1:
            raise Wrong(f"{command}: {reply} in place of {answer}, {self.refused} refused")

    def goes_all(self, session):
        for command, answer in zip(session.commands[:-1], session.answers[:-1]):
            self.goes(command, answer)
        self.goes(session.commands[-1], session.answers[-1], session.last)
        if session.last:
            self.goes("bye", "ok")


class Marks(Session):
    """Objects are made and dropped, and nobody asks for a collection, until there are fewer than before."""

    def __init__(self):
        super().__init__("--cells 64", "", "")
        self.name = "the marker goes on"


def goes_until_marked(talk):
    most, late = 0, time.monotonic() + SECONDS
    while time.monotonic() < late:
        talk.goes("new -", "= 1")
        talk.goes("drop 1", "ok")
        objects = int(talk.answered(b"stat\n").split()[1])
        if objects < most:
            talk.goes("bye", "ok")
            return
        most = objects
    raise Wrong("nothing was collected")


def talked(stream, session):
    """What became of a session: where it was refused something."""
    talk = Talk(stream)
    try:
        if isinstance(session, Marks):
            goes_until_marked(talk)
        else:
            talk.goes_all(session)
    except Gone:
        return GONE
    return "in a command" if talk.refused else ELSEWHERE


def is_legal(program, file):
    verdict = subprocess.run([program, "audit", file], stdout=subprocess.PIPE)
    return verdict.returncode == 0 and verdict.stdout.startswith(b"legal ")


# A client that cannot be watched is let go, and counted.
LET_GO = ["refheap: 1 of the accepts failed"]
ACCEPT = "in its accept"


def check_unserved(ended):
    """Checks the end of a server that had no client."""
    ended.check(ended.out == [], "no client was served")
    if ended.status == 5:
        ended.check(ended.errors == ["refheap: no memory"], "no memory")
    elif ended.status == 1:
        ended.check(ended.errors[:1] == ["refheap: cannot listen on socket"], "no threads")
    else:
        ended.check(ended.status == 2, "a bad command line")
    return "before it served"


def check_closed(program, ended, folder):
    """Checks the end of a server that had its client. What was refused there, if it was there."""
    saved = os.path.join(folder, "saved")
    if ended.status == 0:
        ended.check(len(ended.out) == 2 and ended.out[0] == "served 1" and ended.out[1].startswith("entries "), "the lines at the end")
        ended.check(ended.errors in ([], LET_GO) and is_legal(program, saved), "the close")
        return ACCEPT if ended.errors else None
    ended.check(ended.status == 5 and ended.errors == ["refheap: no memory"], "a close without memory")
    if ended.out == []:
        ended.check(is_legal(program, saved), "what is saved where the lines are refused")
        return "in the lines at the end"
    ended.check(len(ended.out) == 2 and not os.path.exists(saved), "a save without memory")
    return "in the save"


def served(program, library, session, number):
    """Serves a session with an allocation refused. Where it was, or none."""
    with tempfile.TemporaryDirectory() as folder:
        path = os.path.join(folder, "socket")
        words = [program, "serve", "--socket", "socket", "--total", "1", "--sessions", "1", "--save", "saved"] + session.options
        process = started(words, folder, library, number)
        try:
            stream = connected(process, path)
            place = GONE
            if stream:
                with stream:
                    place = talked(stream, session)
            ended = Ended(process)
        finally:
            process.kill()
        if place == GONE and ended.status != 0:
            place = check_unserved(ended)
        else:
            place = check_closed(program, ended, folder) or place
            ended.check((place in (GONE, ACCEPT)) == ("entries 0" in ended.out), "a session that ended at once")
        ended.check(not os.path.exists(path), "the socket is left")
        ended.check(ended.was_refused or place == ELSEWHERE, "with ample memory")
        return place if ended.was_refused else None


def counted(tried):
    """How often each kind of place was met, the number of the refused allocation counting up."""
    places = {}
    number = 1
    while True:
        try:
            place = tried(number)
        except Wrong as wrong:
            raise Wrong(f"allocation {number}: {wrong}") from None
        if place is None:
            return places
        places[place] = places.get(place, 0) + 1
        number += 1


def save(program, folder, session):
    """The history of a session in a file."""
    file = os.path.join(folder, "saved")
    subprocess.run([program, "run", "--save", file] + session.options, input=session.text(session.commands), cwd=folder,
                   check=session.status == 0, stdout=subprocess.DEVNULL, stderr=subprocess.DEVNULL)
    return file


def audited(program, library, words, wanted, number):
    """Audits a file with an allocation refused. Where it was, or none."""
    ended = Ended(started([program, "audit"] + words, None, library, number))
    if ended.status in (2, 5):
        ended.check(ended.was_refused and ended.out in ([], wanted.out[:1]), "no verdict but the right one")
        ended.check(ended.status == 2 or ended.errors == ["refheap: no memory"], "no memory")
        return "before the verdict" if ended.out == [] else "after the verdict"
    ended.check(ended.status == wanted.status and ended.out == wanted.out, "the verdict")
    return "without a trace" if ended.was_refused else None


def audits(program, library, words):
    wanted = Ended(subprocess.Popen([program, "audit"] + words, stdout=subprocess.PIPE, stderr=subprocess.PIPE))
    wanted.check(wanted.status in (0, 3), "with ample memory")
    return counted(lambda number: audited(program, library, words, wanted, number))


def make_illegal(file):
    """The mutator that leaves at the end is another one."""
    with open(file, "r+b") as saved:
        saved.seek(-3, os.SEEK_END)
        saved.write(b"\x01")


def main():
    program = named_program()
    failed = False
    with tempfile.TemporaryDirectory() as folder:
        library = library_in(folder)
        for session in [session for session in SESSIONS if not session.alone] + [Marks()]:
            failed |= told("serve " + session.name, lambda: counted(lambda number: served(program, library, session, number)))
        for session in SESSIONS:
            file = save(program, folder, session)
            failed |= told("audit " + session.name, lambda: audits(program, library, [file]))
        file = save(program, folder, SESSIONS[0])
        make_illegal(file)
        failed |= told("audit --explain of an illegal one", lambda: audits(program, library, ["--explain", file]))
    sys.exit(failed)


if __name__ == "__main__":
    main()
