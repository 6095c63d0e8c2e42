#!/usr/bin/env python3
"""Sends signals that a terminal or a person sends to a session under way (SIGSTOP and SIGCONT, SIGWINCH), while it waits for a line, while it
answers, and while its output is full: the replies are those without signals.

    checks/signals.py PROGRAM
"""
import os
import signal
import subprocess
import sys
import threading
import time

ROUNDS = 40
LINES = 20_000


def batter(process, pause, done):
    """Stops and continues a process, and tells it that a window changed, until it is done."""
    while not done.is_set() and process.poll() is None:
        for number in (signal.SIGSTOP, signal.SIGCONT, signal.SIGWINCH):
            try:
                process.send_signal(number)
            except ProcessLookupError:
                return
            time.sleep(pause)


def start(program):
    return subprocess.Popen([program, "run", "--cells", "16"], stdin=subprocess.PIPE, stdout=subprocess.PIPE, stderr=subprocess.PIPE)


def while_it_waits(program):
    """Each line is sent while the session waits, with signals between."""
    process = start(program)
    replies = []
    for number in range(ROUNDS):
        process.send_signal(signal.SIGSTOP)
        process.send_signal(signal.SIGCONT)
        process.send_signal(signal.SIGWINCH)
        process.stdin.write(b"new -\n" if number == 0 else b"dup 1\n")
        process.stdin.flush()
        replies.append(process.stdout.readline())
    process.stdin.close()
    left = process.stdout.read()
    return process.wait(), b"".join(replies) + left, process.stderr.read()


def while_it_answers(program, slow):
    """All lines are sent at once; replies are taken at once, or slowly, so that the output is full in between."""
    process = start(program)
    done = threading.Event()
    helper = threading.Thread(target=batter, args=(process, 0.0005, done))
    writer = threading.Thread(target=lambda: (process.stdin.write(b"same 0 0\n" * LINES), process.stdin.close()))
    helper.start()
    writer.start()
    replies = b""
    while True:
        piece = process.stdout.read1(65_536)
        if not piece:
            break
        replies += piece
        if slow:
            time.sleep(0.05)
    writer.join()
    done.set()
    helper.join()
    return process.wait(), replies, process.stderr.read()


def main():
    program = os.path.abspath(sys.argv[1])
    handles = b"".join(b"= %d\n" % (number + 1) for number in range(ROUNDS))
    cases = [
        ("signals while it waits for a line", while_it_waits(program), (0, handles, b"")),
        ("signals while it answers", while_it_answers(program, False), (0, b"yes\n" * LINES, b"")),
        ("signals while its output is full", while_it_answers(program, True), (0, b"yes\n" * LINES, b"")),
    ]
    failed = False
    for what, got, due in cases:
        if got == due:
            print("ok     ", what)
        else:
            failed = True
            print("WRONG  ", what, "status", got[0], "replies", len(got[1]), "of", len(due[1]), got[2])
    sys.exit(failed)


if __name__ == "__main__":
    main()
