#!/usr/bin/env python3
"""Replays what README.md and docs/protocol.md show of the program: each command with its reply.

    checks/transcripts.py PROGRAM [PAGE..]

PROGRAM is a refheap, proved or not. A fenced block is replayed if its first word is one of these:

    session COMMAND   Each line has a command for the session that COMMAND starts, its reply and a remark, two spaces
                      apart.
    clients COMMAND   The same for a server that COMMAND starts. The line begins with the name of a client. `...` in
                      place of a reply says that the client waits; in place of a command it stands for that reply.
    console           Lines after `$ ` are commands of the shell, lines after `> ` their input, all others what they
                      print. The printed line `...` stands for any lines.

The remark "(N = A to B)" repeats a line for each N; "(after a moment)" allows ten seconds until the reply is right. In
a COMMAND and in the shell, `refheap` is PROGRAM, and so is any program in crates/refheap/out/. Other blocks are not
run: those marked sh build or install something. Each `make TARGET` of a page has to be in the Makefile. Ends with
status 1 if a reply differs.
"""
import os
import re
import shlex
import shutil
import signal
import socket
import subprocess
import sys
import tempfile
import time

ROOT = os.path.dirname(os.path.dirname(os.path.abspath(__file__)))
PAGES = ("README.md", "docs/protocol.md")
BLOCK = re.compile(r"^```([^\n]+)\n(.*?)^```$", re.M | re.S)
SECONDS = 60


class Wrong(Exception):
    """What differs."""


def blocks_of(page):
    """The fenced blocks of a page: line, kind, the rest of its first line, and text."""
    with open(os.path.join(ROOT, page), encoding="utf-8") as file:
        text = file.read()
    for found in BLOCK.finditer(text):
        kind, _, rest = found[1].partition(" ")
        yield text.count("\n", 0, found.start()) + 1, kind, rest, found[2]


def rows_of(text, columns):
    """The columns of each line of a transcript, and at most one remark."""
    for line in text.splitlines():
        if line.strip():
            row = re.split(r"\s{2,}", line.strip(), maxsplit=columns)
            if len(row) < columns:
                raise Wrong(f"`{line}` has no reply")
            yield row


def steps_of(line, reply, remark):
    """A line with its reply, or several: "(N = 1 to 3)" stands for three, each with its number in place of N."""
    counted = re.match(r"\(N = (\d+) to (\d+)\)", remark)
    if not counted:
        return [(line, reply)]
    numbers = range(int(counted[1]), int(counted[2]) + 1)
    return [(re.sub(r"\bN\b|(?<=_)N\b", str(n), line), re.sub(r"\bN\b", str(n), reply)) for n in numbers]


def expect(line, got, due):
    if got != due:
        raise Wrong(f"`{line}` is answered `{got}`; the page says `{due}`")


class Client:
    """One connection, whose replies come with a limit of time."""

    def __init__(self, path):
        self.stream = socket.socket(socket.AF_UNIX)
        self.stream.settimeout(SECONDS)
        self.stream.connect(path)
        self.replies = self.stream.makefile("rb")

    def send(self, line):
        self.stream.sendall(line.encode() + b"\n")

    def reply(self):
        return self.replies.readline().decode().rstrip("\n")

    def ask(self, line):
        self.send(line)
        return self.reply()


def words_of(command, program):
    """A command with the program in it, and for a command of make, as its variable PROGRAM."""
    words = [program if word == "refheap" else word for word in shlex.split(command)]
    return [*words, "-s", "-C", ROOT, f"PROGRAM={program}"] if words[0] == "make" else words


def replay_session(command, text, program, folder):
    """A session of its own: all lines go in at once."""
    steps = [step for line, reply, *remark in rows_of(text, 2) for step in steps_of(line, reply, " ".join(remark))]
    given = "".join(line + "\n" for line, _ in steps)
    words = words_of(command, program)
    ran = subprocess.run(words, input=given, capture_output=True, text=True, cwd=folder, timeout=SECONDS, check=False)
    replies = ran.stdout.splitlines()
    for (line, due), got in zip(steps, replies):
        expect(line, got, due)
    if len(replies) != len(steps) or ran.returncode:
        raise Wrong(f"{len(replies)} replies to {len(steps)} lines, status {ran.returncode}: {ran.stderr}")
    return len(steps)


def asked_again(client, line, due):
    """The reply to a line that is sent until the reply is the due one, or ten seconds have gone."""
    until = time.monotonic() + 10
    while (got := client.ask(line)) != due and time.monotonic() < until:
        time.sleep(0.01)
    return got


def replay_row(clients, path, row):
    """One line of one client."""
    name, line, due, *remark = row
    remark = " ".join(remark)
    if name not in clients:
        clients[name] = Client(path)
    client = clients[name]
    if line == "...":
        expect("...", client.reply(), due)
    elif due == "...":
        client.send(line)
    elif remark.startswith("(after a moment)"):
        expect(line, asked_again(client, line, due), due)
    else:
        for one, reply in steps_of(line, due, remark):
            expect(one, client.ask(one), reply)


def replay_clients(command, text, program, folder):
    """A server, with a client for each name in the first column."""
    path, clients, rows = os.path.join(folder, "heap"), {}, list(rows_of(text, 3))
    names = {row[0] for row in rows}
    words = [*words_of(command, program), "--socket", path, "--total", str(len(names))]
    with subprocess.Popen(words, stdout=subprocess.PIPE, stderr=subprocess.PIPE, cwd=folder) as server:
        try:
            until = time.monotonic() + SECONDS
            while not os.path.exists(path) and server.poll() is None and time.monotonic() < until:
                time.sleep(0.01)
            for row in rows:
                replay_row(clients, path, row)
            for client in clients.values():
                client.ask("bye")
            expect(command, server.wait(SECONDS), 0)
        finally:
            server.kill()
    return len(rows)


def script_of(text, program):
    """A console block as a script of the shell, and what it is to print. After a command in the background it waits."""
    script, due, given = [], [], None
    lines = text.splitlines()
    for number, line in enumerate(lines):
        if line.startswith("$ "):
            command = re.sub(r"\bcrates/refheap/out/[\w-]+", shlex.quote(program), line[2:])
            following = [it for it in lines[number + 1:number + 2] if it.startswith("> ")]
            script.append(command + (" <<'END'" if following else ""))
            script += ["sleep 1"] if re.search(r"&\s*(#.*)?$", command) else []
            given = following
        elif line.startswith("> ") and given is not None:
            script.append(line[2:])
            if not any(it.startswith("> ") for it in rest_of_input(lines, number)):
                script.append("END")
        else:
            due.append(line)
    return "\n".join(script) + "\nwait\n", due


def rest_of_input(lines, number):
    """The lines after this one, up to the next command."""
    rest = lines[number + 1:]
    return rest[:next((at for at, line in enumerate(rest) if line.startswith("$ ")), len(rest))]


def replay_console(_, text, program, folder):
    """Commands of the shell, in the top folder, with the program on the PATH."""
    os.symlink(program, os.path.join(folder, "refheap"))
    script, due = script_of(text, program)
    environment = {**os.environ, "PATH": folder + os.pathsep + os.environ["PATH"], "TMPDIR": folder}
    with subprocess.Popen(["bash", "-e", "-c", script], cwd=ROOT, env=environment, stdin=subprocess.DEVNULL, text=True,
                          stdout=subprocess.PIPE, stderr=subprocess.STDOUT, start_new_session=True) as shell:
        try:
            said, _ = shell.communicate(timeout=600)
        finally:
            try:
                os.killpg(shell.pid, signal.SIGKILL)
            except ProcessLookupError:
                pass
    pattern = "".join(r"(?:.*\n)*" if line == "..." else re.escape(line) + "\n" for line in due)
    if shell.returncode or not re.fullmatch(pattern, said):
        raise Wrong(f"status {shell.returncode}, and it prints\n{said}")
    return text.count("$ ")


def check_targets(page):
    """The targets of make that a page names: each has to be in the Makefile."""
    with open(os.path.join(ROOT, page), encoding="utf-8") as file:
        targets = sorted(set(re.findall(r"(?:^|`)make ([a-z]+)", file.read(), re.M)))
    for target in targets:
        if subprocess.run(["make", "-C", ROOT, "-n", target], capture_output=True, check=False).returncode:
            raise Wrong(f"the Makefile has no target {target}")
    return len(targets)


KINDS = {"session": replay_session, "clients": replay_clients, "console": replay_console}


def replay(kind, rest, text, program):
    """One block, in a folder of its own."""
    with tempfile.TemporaryDirectory() as folder:
        return KINDS[kind](rest, text, program, folder)


def main():
    if "--help" in sys.argv[1:]:
        print(__doc__)
        return 0
    if len(sys.argv) < 2 or not shutil.which(sys.argv[1]):
        sys.exit("usage: checks/transcripts.py PROGRAM [PAGE..]")
    program, failed, replayed = os.path.abspath(shutil.which(sys.argv[1])), 0, 0
    for page in sys.argv[2:] or PAGES:
        tried = [(f"{page} targets of make", check_targets, (page,))]
        for number, kind, rest, text in blocks_of(page):
            if kind in KINDS:
                tried.append((f"{page}:{number} {kind}", replay, (kind, rest, text, program)))
        for name, check, given in tried:
            try:
                print(f"ok      {name}: {check(*given)} commands", flush=True)
                replayed += check is replay
            except (Wrong, OSError, ValueError, subprocess.TimeoutExpired) as fault:
                failed += 1
                print(f"WRONG   {name}: {fault}", flush=True)
    return 1 if failed or not replayed else 0


if __name__ == "__main__":
    sys.exit(main())
