#!/usr/bin/env python3
"""Runs the worked sessions on the built program again and again, each time with another of its allocations refused: the first, the second,
and so on, until a run makes fewer.

    checks/refused.py [PROGRAM]

A run whose allocation is refused before the session ends with status 5, or with status 2 while the words of the command line are read, and
has no reply. Otherwise the replies are those of ample memory up to the command in which the allocation is refused, or in whose settling.
Then the session is run once more:

- a command that is refused with `! 1` is sent a second time. It has changed nothing, so all that follows is as with ample memory;
- after a settling that was cut short comes a command that does nothing. The settling that follows its reply does what was left, so all that
  follows is as with ample memory.

Then sessions that are saved, over an older file and where none is. A run that ends as its session does, or whose join is refused, has saved a
legal history. Any other ends with status 5 and `no memory`, or with status 2, and what stood there stays, byte for byte.
"""
import argparse
import os
import subprocess
import sys
import tempfile

HERE = os.path.dirname(os.path.abspath(__file__))
SAID = "one allocation was refused"
TOLD = "refheap: "
NOTHING, DONE_NOTHING = "same 0 0", "yes"


def words(text):
    """What `; ` parts. `3 to 5: dup 1 / drop {}` stands for `dup 1; drop 3; dup 1; drop 4; dup 1; drop 5`."""
    parts = []
    for part in text.split("; "):
        numbers, is_range, lines = part.partition(": ")
        if is_range:
            first, last = (int(number) for number in numbers.split(" to "))
            parts += [line.replace("{}", str(number)) for number in range(first, last + 1) for line in lines.split(" / ")]
        else:
            parts.append(part)
    return parts


class Session:
    """A worked session: options, commands, and the replies that the description of the protocol gives them."""

    def __init__(self, options, commands, answers, last="\n", status=0, alone=False):
        self.options = options.split()
        self.name = f"{options} {commands}".strip()[:60]
        self.commands = words(commands)
        self.answers = words(answers)
        self.last = last
        self.status = status
        self.alone = alone

    def text(self, commands):
        """The bytes of commands, the last of which may be unfinished."""
        return ("\n".join(commands) + self.last).encode()


# Where a session is `alone` its replies are not those of a server: that collects by itself.
SESSIONS = [
    Session("", "new -; weak 1 0; drop 1; gc; deref 2", "= 1; = 2; ok; ok; = 0"),
    Session("", "queue; new -; weak 2 1; drop 2; gc; enqueued 3; poll 1; same 2 3; poll 1; enqueue 3",
            "= 1; = 2; = 3; ok; ok; yes; = 2; yes; = 0; no"),
    Session("", "new -; weak 1 0; weak 1 0; drop 1; gc; deref 2; deref 3", "= 1; = 2; = 3; ok; ok; = 0; = 0"),
    Session("", "new r; new -; put 1 0 2; soft 1 0; soft 2 0; drop 1; drop 2; gc; deref 3; deref 4; drop 1; drop 2; gc soft; deref 3; deref 4",
            "= 1; = 2; ok; = 3; = 4; ok; ok; ok; = 1; = 2; ok; ok; ok; = 0; = 0"),
    Session("", "queue; new r; weak 2 1; put 2 0 3; drop 3; drop 2; gc; poll 1", "= 1; = 2; = 3; ok; ok; ok; ok; = 0"),
    Session("", "queue; new -; weak 2 1; clear 3; drop 2; gc; poll 1; enqueued 3; enqueue 3; poll 1; enqueue 3",
            "= 1; = 2; = 3; ok; ok; ok; = 0; no; yes; = 2; no"),
    Session("", "new -; phantom 1 0; deref 2; refers 2 1; refers 2 0; drop 1; gc; refers 2 0", "= 1; = 2; = 0; yes; no; ok; ok; yes"),
    Session("--cells 16", "1 to 16: new -; new -; drop 1; new -", "1 to 16: = {}; ! 2; ok; = 1"),
    Session("--cells 16", "1 to 8: new - / soft 1 0 / drop 1; new -; 2 to 9: deref {}; stat",
            "2 to 9: = 1 / = {} / ok; = 1; 2 to 9: = 0; stat 9 0 0 0 0", alone=True),
    Session("", "cleaner; new -; register 1 2 7; drop 2; gc; notes; clean 3; notes", "= 1; = 2; = 3; ok; ok; list 7; ok; list 7"),
    Session("", "open r /nowhere/x; stat; open w row; write 1 00ff; drop 1; gc; open r row; read 1 200; read 1 200; stat",
            "fault notfound; stat 2 0 0 0 0; = 1; wrote 2; ok; ok; = 1; data 00ff; end; stat 3 1 1 1 0"),
    # A device file cannot be synced, so its end is a fault.
    Session("", "open w /dev/null; cleaner; new -; register 2 3 9; drop 1; gc; faults; drop 3; gc; notes; stat",
            "= 1; = 2; = 3; = 4; ok; ok; list 1:other; ok; ok; list 9; stat 2 0 2 1 1"),
    Session("", "; ".join(["x" * 512, "x" * 513, "put 1", "", "gc"]), "! 15; ! 16; ! 15; ! 15; ! 15", last="", status=4),
    Session("", "get 9 0; dup 0; new ri; poll 1; get 1 2; get 1 1; setint 1 0 5; find x; queue; remove 2; weak 0 2; weak 1 1; "
            "setint 1 1 -9223372036854775808; int 1 1; setint 1 1 9223372036854775808",
            "! 3; ! 8; = 1; ! 5; ! 6; ! 7; ! 7; ! 9; = 2; ! 18; ! 8; ! 5; ok; int -9223372036854775808; ! 15", alone=True),
    Session("", "open w f; close 1; read 1 5; close 1; stat", "= 1; ok; ! 12; ok; stat 2 0 1 1 0"),
    Session("", "open w f; close 1; open w g; read 1 5", "= 1; ok; = 2; ! 12"),
    Session("--resources 1", "open w f; open w g", "= 1; ! 19"),
    Session("", "new -; bind b 1; bind a 1; bind b 1; names; drop 1; gc; find a; unbind b; names",
            "= 1; ok; ok; ok; list b a; ok; ok; = 1; ok; list a"),
    Session("", "new -; 1 to 256: bind n{} 1; bind m 1; bind n7 1", "= 1; 1 to 256: ok; ! 10; ok"),
    Session("", "new -; 1 to 249: dup 1; dup 1; new -; weak 1 0; same 1 250", "1 to 250: = {}; ! 4; ! 4; ! 4; yes"),
    Session("--soft-age 1", "new -; soft 1 0; drop 1; gc; gc; deref 2", "= 1; = 2; ok; ok; ok; = 0"),
    Session("--soft-age 1", "new -; soft 1 0; drop 1; gc; deref 2; drop 1; gc; deref 2", "= 1; = 2; ok; ok; = 1; ok; ok; = 1"),
    Session("--trace 64", "1 to 70: stat", "1 to 70: stat 0 0 0 0 0"),
    Session("", "open w a; open w b; open w c; drop 2; gc; faults; stat", "= 1; = 2; = 3; ok; ok; list; stat 5 2 1 1 0"),
    # Queues, names, files and notes in numbers, so that what holds them grows several times.
    Session("", "queue; new -; 1 to 40: weak 2 1; 3 to 42: enqueue {}; 1 to 40: poll 1 / drop 43; poll 1",
            "= 1; = 2; 3 to 42: = {}; 1 to 40: yes; 1 to 40: = 43 / ok; = 0"),
    Session("", "new -; 10 to 49: bind n{} 1; names", "= 1; 10 to 49: ok; list " + " ".join(f"n{number}" for number in range(10, 50))),
    Session("--resources 64", "1 to 40: open w f{}; close 7; stat", "1 to 40: = {}; ok; stat 80 39 1 1 0"),
    Session("", "cleaner; new -; 1 to 40: register 1 2 {}; drop 2; gc; stat", "1 to 42: = {}; ok; ok; stat 41 0 40 40 0"),
    Session("", "queue; new -; 1 to 40: weak 2 1; drop 2; gc; 1 to 40: poll 1 / drop 2; poll 1",
            "= 1; = 2; 3 to 42: = {}; ok; ok; 1 to 40: = 2 / ok; = 0"),
]
SAVED = [
    Session("--cells 16 --save saved", "new -; weak 1 0; drop 1; gc; deref 2", "= 1; = 2; ok; ok; = 0"),
    Session("--cells 16 --save saved", "new -; same 0 0", "= 1; ! 15", last="", status=4),
    Session("--cells 64 --trace 64 --save saved", "array 40; bind a 1; 1 to 70: stat", "= 1; ok; 1 to 70: stat 1 0 0 0 0"),
]
OLDER = b"older"


class Wrong(Exception):
    """What a run answered that it should not."""


class Run:
    """What a run of the program said: its replies, how many of them went out before the refused allocation, what it told, and its status."""

    def __init__(self, program, library, folder, session, commands, number):
        environment = dict(os.environ, LD_PRELOAD=library, REFUSED=str(number))
        ended = subprocess.run([program, "run"] + session.options, input=session.text(commands), cwd=folder, env=environment,
                               stdout=subprocess.PIPE, stderr=subprocess.STDOUT)
        lines = ended.stdout.decode().splitlines()
        self.was_refused = SAID in lines
        self.before = lines.index(SAID) if self.was_refused else len(lines)
        self.replies = [line for line in lines if line != SAID and not line.startswith(TOLD)]
        self.told = [line for line in lines if line.startswith(TOLD)]
        self.status = ended.returncode


def check(condition, what, run):
    if not condition:
        raise Wrong(f"{what}: status {run.status}, {run.replies}")


def check_once_more(again, session, place, command, answer, what):
    """Runs the session again with a command more, and expects one reply more."""
    run = again(session.commands[:place] + [command] + session.commands[place:])
    check(run.status == session.status and run.replies == session.answers[:place] + [answer] + session.answers[place:], what, run)


def check_refused(run, again, session):
    """Checks a run in which an allocation was refused. Gives the kind of the place where it was."""
    answers = session.answers
    if run.status in (2, 5):
        check(run.before == 0 and not set(run.replies) & set(answers), "before the session", run)
        return "before the session"
    place = run.before
    check(run.status == session.status and run.replies[:place] == answers[:place], "the replies before it", run)
    if place < len(answers) and run.replies[place] == "! 1":
        check_once_more(again, session, place, session.commands[place], "! 1", "a command that was refused")
        return "in a command"
    if run.replies == answers:
        return "without a trace"
    check_once_more(again, session, place, NOTHING, DONE_NOTHING, "a settling that was cut short")
    return "in a settling"


def try_session(program, library, session):
    """Refuses each allocation of a session in turn. Gives how often each kind of place was met."""
    places = {}
    number = 0
    while True:
        number += 1

        def again(commands):
            with tempfile.TemporaryDirectory() as folder:
                return Run(program, library, folder, session, commands, number)

        run = again(session.commands)
        if not run.was_refused:
            check(run.status == session.status and run.replies == session.answers, "with ample memory", run)
            return places
        try:
            place = check_refused(run, again, session)
        except Wrong as wrong:
            raise Wrong(f"allocation {number}: {wrong}") from None
        places[place] = places.get(place, 0) + 1


def contents_of(folder):
    """The files of a folder."""
    files = {}
    for name in os.listdir(folder):
        with open(os.path.join(folder, name), "rb") as file:
            files[name] = file.read()
    return files


def check_saved(program, folder, run, session, before):
    """Checks what a run left where it was to save. Gives the kind of the place where an allocation was refused."""
    is_joined = run.told != [TOLD + "not joined"]
    if run.status == session.status or not is_joined:
        check(list(contents_of(folder)) == ["saved"], "what is left in the folder", run)
        verdict = subprocess.run([program, "audit", "saved"], cwd=folder, stdout=subprocess.PIPE, stderr=subprocess.STDOUT)
        check(verdict.returncode == 0 and verdict.stdout.startswith(b"legal "), f"what is saved is {verdict.stdout}", run)
        return "and it is saved" if is_joined else "in the join"
    check(run.status == 2 or (run.status, run.told) == (5, [TOLD + "no memory"]), f"it told {run.told}", run)
    check(contents_of(folder) == before, "what stood there", run)
    check(run.status == 5 or not run.before, "after the command line was read", run)
    return "in the save" if run.replies == session.answers else "before the session"


def try_saved(program, library, session, before):
    """Refuses each allocation of a session that is saved in turn. Gives how often each kind of place was met."""
    places = {}
    number = 0
    while True:
        number += 1
        with tempfile.TemporaryDirectory() as folder:
            for name, data in before.items():
                with open(os.path.join(folder, name), "wb") as file:
                    file.write(data)
            run = Run(program, library, folder, session, session.commands, number)
            try:
                place = check_saved(program, folder, run, session, before)
            except Wrong as wrong:
                raise Wrong(f"allocation {number}: {wrong}") from None
        if not run.was_refused:
            check(run.status == session.status and run.replies == session.answers, "with ample memory", run)
            return places
        places[place] = places.get(place, 0) + 1


def library_in(folder):
    """The library that refuses allocations, built in a folder."""
    library = os.path.join(folder, "refuses.so")
    subprocess.run(["cc", "-shared", "-fPIC", "-O1", "-o", library, os.path.join(HERE, "refuse.c")], check=True)
    return library


def told(name, tried):
    """Says what came of a case. Whether it went wrong."""
    try:
        print("ok     ", name, "--", ", ".join(f"{count} {place}" for place, count in sorted(tried().items())), flush=True)
    except Wrong as wrong:
        print("WRONG  ", name, "--", wrong, flush=True)
        return True
    return False


def named_program():
    """The program that the command line names, or else the one that is built here."""
    parser = argparse.ArgumentParser()
    parser.add_argument("program", nargs="?", default=os.path.join(HERE, "../crates/refheap/out/refheap"))
    return os.path.abspath(parser.parse_args().program)


def main():
    program = named_program()
    failed = False
    with tempfile.TemporaryDirectory() as folder:
        library = library_in(folder)
        for session in SESSIONS:
            failed |= told(session.name, lambda: try_session(program, library, session))
        for session in SAVED:
            for name, before in ("over nothing", {}), ("over an older file", {"saved": OLDER}):
                failed |= told(f"{session.name}, {name}", lambda: try_saved(program, library, session, before))
    sys.exit(failed)


if __name__ == "__main__":
    main()
