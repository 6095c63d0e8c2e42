#!/usr/bin/env python3
"""Clients of a server that are gone while they wait, and servers that are asked to end.

    checks/gone.py PROGRAM [--clients N] [--stops N]

Clients that vanish in `remove`, at random moments: each gives its seat back and takes no reference, so a death goes to the next who waits; a
client that is only half-closed is still answered; who waits takes no processor; descriptors, threads and memory stay flat over N of them (2,000); where all of 64 clients
vanish so, each seat is free again. What a client left
open is closed on a quiet server, and `open` finds room again. A server that is asked to end answers `! 18` to who waits and all that was
sent, saves, removes its files and only then lets go who asked, and is gone then: with 64 clients, while it starts, while its save
fails, asked twice, killed meanwhile, with its socket of control deleted, held by signals, looked at where descriptors
ran out, and N times at random moments (40). A socket's file of a server that was killed is replaced, one of a server
that lives is left alone, and so is a file, or a socket, that is not the server's own at its end, in place of either of its sockets.
"""
import argparse
import os
import random
import resource
import shutil
import signal
import socket
import stat
import subprocess
import sys
import tempfile
import threading
import time

TIMEOUT = 30


class Peer:
    """A connection, line by line."""

    def __init__(self, path):
        self.stream = socket.socket(socket.AF_UNIX)
        self.stream.settimeout(TIMEOUT)
        self.stream.connect(path)
        self.lines = self.stream.makefile("rb")

    def send(self, *lines):
        self.stream.sendall("".join(line + "\n" for line in lines).encode())

    def line(self):
        return self.lines.readline().decode().rstrip("\n")

    def ask(self, line):
        self.send(line)
        return self.line()

    def all(self, *lines):
        return [self.ask(line) for line in lines]

    def close(self):
        self.lines.close()
        self.stream.close()


class Server:
    """A server in a folder of its own, with a socket of control and a history that is saved."""

    def __init__(self, program, total, seats, *more):
        self.program = program
        self.folder = tempfile.mkdtemp(prefix="refheap-gone-")
        self.path, self.control, self.history = (os.path.join(self.folder, name) for name in ("heap", "control", "history"))
        self.process = subprocess.Popen(
            [program, "serve", "--socket", self.path, "--control", self.control, "--total", str(total), "--sessions", str(seats),
             "--save", self.history, *more], stdout=subprocess.PIPE, stderr=subprocess.PIPE, cwd=self.folder)
        wait_until(lambda: os.path.exists(self.control))

    def peer(self):
        return Peer(self.path)

    def stop(self):
        return subprocess.run([self.program, "stop", self.control], capture_output=True, timeout=TIMEOUT)

    def counts(self):
        at = f"/proc/{self.process.pid}"
        return len(os.listdir(at + "/fd")), len(os.listdir(at + "/task"))

    def memory(self):
        with open(f"/proc/{self.process.pid}/statm", encoding="ascii") as file:
            return int(file.read().split()[1])

    def end(self):
        """Its status, what stands in its folder then, and the verdict on its history."""
        _, errors = self.process.communicate(timeout=TIMEOUT)
        left = sorted(name for name in os.listdir(self.folder) if name in ("heap", "control", "history"))
        verdict = subprocess.run([self.program, "audit", self.history], capture_output=True, check=False).stdout.split()[:1]
        shutil.rmtree(self.folder)
        return self.process.returncode, left, verdict, errors


ENDED = (0, ["history"], [b"legal"], b"")
NOT_ENDED = (1, b"refheap: the server did not end in order\n")


def wait_until(holds, seconds=TIMEOUT):
    end = time.time() + seconds
    while not holds():
        if time.time() > end:
            raise AssertionError("it did not come in time")
        time.sleep(0.005)


def is_gone(number):
    """Whether a process has ended, also where nobody has waited for it yet."""
    try:
        with open(f"/proc/{number}/stat", encoding="ascii") as file:
            return file.read().rpartition(")")[2].split()[0] in ("Z", "X")
    except (FileNotFoundError, ProcessLookupError):
        return True


def check(holds, what):
    if not holds:
        raise AssertionError(what)


def a_death_goes_to_the_next(program, asked):
    server = Server(program, 3, 2)
    one = server.peer()
    check(one.all("queue", "bind q 1") == ["= 1", "ok"], "a queue")
    one.send("remove 1")
    time.sleep(0.1)
    one.close()
    next_one = server.peer()
    check(next_one.all("find q", "new -", "weak 2 1", "drop 2", "gc") == ["= 1", "= 2", "= 3", "ok", "ok"], "a death")
    check(next_one.ask("remove 1") == "= 2", "the death is told to the next")
    next_one.ask("bye")
    server.peer().ask("bye")
    check(server.end() == ENDED, "an end in order")


def gone_clients_brick_nothing(program, asked):
    server = Server(program, asked.clients + 100, 4)
    steady = server.peer()
    steady.ask("stat")
    before, memory = server.counts(), None
    for number in range(asked.clients):
        peer = server.peer()
        peer.ask("queue")
        peer.send("remove 1")
        if number % 3 == 0:
            time.sleep(random.random() / 1000)
        peer.close()
        if number == asked.clients // 2:
            memory = server.memory()
    wait_until(lambda: server.counts() == before)
    check(server.memory() <= memory + 256, "memory stays flat")
    check(steady.ask("bye") == "ok", "the others go on")
    check(server.stop().returncode == 0, "a stop")
    check(server.end() == ENDED, "an end in order")


def all_of_64_vanish(program, asked):
    """Each seat is given back whose client is gone while it waits, the first and the last of them too."""
    server = Server(program, 100_000, 64)
    peers = [server.peer() for _ in range(64)]
    check([peer.ask("queue") for peer in peers] == ["= 1"] * 64, "64 clients are served")
    before = server.counts()
    for peer in peers:
        peer.send("remove 1")
    time.sleep(0.5)
    for peer in peers:
        peer.close()
    others = [server.peer() for _ in range(64)]
    for other in others:
        other.send("same 0 0")
    check([other.line() for other in others] == ["yes"] * 64, "each seat is free again")
    wait_until(lambda: server.counts() == before)
    check(server.stop().returncode == 0, "a stop")
    check([other.line() for other in others] == [""] * 64, "all are let go")
    check(server.end() == ENDED, "an end in order")


def ticks(process):
    with open(f"/proc/{process.pid}/stat", encoding="ascii") as file:
        fields = file.read().rpartition(")")[2].split()
    return int(fields[11]) + int(fields[12])


def who_waits_takes_no_processor(program, asked):
    server = Server(program, 12, 12)
    peers = [server.peer() for _ in range(10)]
    check([peer.ask("queue") for peer in peers] == ["= 1"] * 10, "10 clients are served")
    for peer in peers:
        peer.send("remove 1")
    client = subprocess.Popen([program, "client", server.path], stdin=subprocess.PIPE, stdout=subprocess.DEVNULL)
    time.sleep(0.5)
    before = ticks(server.process), ticks(client)
    time.sleep(3)
    check(ticks(server.process) - before[0] <= 5 and ticks(client) - before[1] <= 5, "who waits takes no processor")
    client.communicate(b"bye\n", timeout=TIMEOUT)
    check(server.stop().returncode == 0, "a stop")
    check(server.end() == ENDED, "an end in order")


def a_half_closed_client_is_answered(program, asked):
    server = Server(program, 2, 2)
    one, other = server.peer(), server.peer()
    one.all("queue", "bind q 1")
    other.send("find q", "remove 1", "stat")
    other.stream.shutdown(socket.SHUT_WR)
    check(other.line() == "= 1", "a handle")
    time.sleep(0.2)
    one.all("new -", "weak 2 1", "drop 2", "gc")
    check(other.line() == "= 2" and other.line().startswith("stat ") and other.line() == "", "it is answered to the end")
    one.ask("bye")
    check(server.end() == ENDED, "an end in order")


def what_a_client_left_is_closed(program, asked):
    server = Server(program, 3, 2, "--resources", "1")
    keeper = server.peer()
    one = server.peer()
    check(one.ask("open w left") == "= 1", "a file")
    one.close()
    wait_until(lambda: keeper.ask("stat").split()[2] == "0")
    check(keeper.ask("open w again") == "= 1", "there is room again")
    keeper.ask("drop 1")
    check(keeper.ask("open w more") in ("! 19", "= 1"), "none, or room already")
    wait_until(lambda: keeper.ask("stat").split()[2] == "0" or keeper.ask("open w more") == "= 1")
    keeper.ask("bye")
    server.peer().ask("bye")
    check(server.end() == ENDED, "an end in order")


def a_stop_answers_what_is_owed(program, asked):
    server = Server(program, 100_000, 64)
    peers = [server.peer() for _ in range(64)]
    for number, peer in enumerate(peers):
        peer.ask("queue")
        peer.send("remove 1", "same 0 0") if number % 2 else peer.send(*["same 0 0"] * 20)
    time.sleep(0.2)
    stopped = server.stop()
    check((stopped.returncode, stopped.stdout, stopped.stderr) == (0, b"", b""), "a stop")
    left = sorted(name for name in os.listdir(server.folder) if name in ("heap", "control", "history"))
    check(left == ["history"], f"by then it has saved, and removed its files: {left}")
    wait_until(lambda: is_gone(server.process.pid), 5)
    for number, peer in enumerate(peers):
        owed = ["! 18", "yes"] if number % 2 else ["yes"] * 20
        check([peer.line() for _ in owed] == owed and peer.line() == "", "what is owed is answered")
    check(server.end() == ENDED, "an end in order")


def peer_that_reads_nothing(server):
    """A client that reads no reply, and sends until it can no longer."""
    peer = server.peer()
    peer.ask("new -")
    peer.stream.settimeout(0.5)
    try:
        while True:
            peer.send(*["names"] * 1_000)
    except TimeoutError:
        pass
    return peer


def a_second_stop_cuts(program, asked):
    server = Server(program, 100, 2)
    peer = peer_that_reads_nothing(server)
    stream = socket.socket(socket.AF_UNIX)
    stream.connect(server.control)
    stream.send(b".")
    stream.settimeout(TIMEOUT)
    again = server.stop()
    check(again.returncode == 0 and stream.recv(2) == b".", "both are told")
    check(server.end() == ENDED, "an end in order")


def a_stop_without_a_server(program, asked):
    folder = tempfile.mkdtemp(prefix="refheap-gone-")
    at = os.path.join(folder, "nobody")
    told = subprocess.run([program, "stop", at], capture_output=True, check=False)
    check((told.returncode, told.stderr.splitlines()[0]) == (1, b"refheap: cannot connect to " + at.encode()), "nobody there")
    shutil.rmtree(folder)


def a_stop_whose_save_fails(program, asked):
    server = Server(program, 9, 1)
    os.mkdir(server.history)
    told = server.stop()
    check((told.returncode, told.stderr) == NOT_ENDED, "it is told that nothing was saved")
    server.process.communicate(timeout=TIMEOUT)
    check(server.process.returncode == 1, "and so is who started the server")
    shutil.rmtree(server.folder)


def stopping(program, folder):
    """A stop of nobody but this script, and its connection."""
    at = os.path.join(folder, "mute")
    with socket.socket(socket.AF_UNIX) as listener:
        listener.bind(at)
        listener.listen()
        asking = subprocess.Popen([program, "stop", at], stdout=subprocess.PIPE, stderr=subprocess.PIPE)
        stream = listener.accept()[0]
    os.remove(at)
    stream.settimeout(TIMEOUT)
    return asking, stream


def a_stop_without_a_word(program, asked):
    folder = tempfile.mkdtemp(prefix="refheap-gone-")
    for is_read in False, True:
        asking, stream = stopping(program, folder)
        check(not is_read or len(stream.recv(2)) == 1, "it sends a byte")
        stream.close()
        told = asking.communicate(timeout=TIMEOUT)[1]
        check((asking.returncode, told) == NOT_ENDED, "no word is no end in order")
    shutil.rmtree(folder)


def a_stop_waits_until_the_server_is_gone(program, asked):
    folder = tempfile.mkdtemp(prefix="refheap-gone-")
    asking, stream = stopping(program, folder)
    check(len(stream.recv(2)) == 1, "it sends a byte")
    stream.sendall(b".")
    time.sleep(0.5)
    check(asking.poll() is None, "it waits, though it was told of the end")
    stream.close()
    check((asking.communicate(timeout=TIMEOUT), asking.returncode) == ((b"", b""), 0), "then it returns")
    shutil.rmtree(folder)


def a_stop_of_a_server_that_is_killed(program, asked):
    """A client that reads nothing holds the server up; then a signal kills it, unsaved."""
    server = Server(program, 9, 1)
    peer = peer_that_reads_nothing(server)
    asking = subprocess.Popen([program, "stop", server.control], stdout=subprocess.PIPE, stderr=subprocess.PIPE)
    time.sleep(0.5)
    check(asking.poll() is None, "it waits for the server's end")
    server.process.kill()
    told = asking.communicate(timeout=TIMEOUT)[1]
    check((asking.returncode, told) == NOT_ENDED, f"it is told that nothing was saved: {told}")
    check(not os.path.exists(server.history), "nothing was saved")
    server.process.communicate()
    peer.close()
    shutil.rmtree(server.folder)


def a_look_is_no_stop(program, asked):
    server = Server(program, 9, 2)
    peer = server.peer()
    words = ["--socket", server.path + "2", "--control", server.control, "--total", "1"]
    other = subprocess.run([program, "serve", *words], capture_output=True, check=False)
    lines = other.stderr.splitlines()
    due = b"refheap: cannot listen on " + server.control.encode()
    check(other.returncode == 1 and lines[0] == due, "the one that is in use is named")
    check(b"it is in use" in lines[1] and not os.path.exists(server.path + "2"), "and why, and no file is left")
    check(peer.ask("new -") == "= 1", "who was looked for goes on")
    peer.ask("bye")
    silent = socket.socket(socket.AF_UNIX)
    silent.connect(server.control)
    check(server.stop().returncode == 0, "who only connects holds up no stop")
    silent.close()
    check(server.end() == ENDED, "an end in order")


def a_look_without_descriptors_is_no_stop(program, asked):
    server = Server(program, 9, 2)
    peer = server.peer()
    check(peer.ask("new -") == "= 1", "it serves")
    pid, kind = server.process.pid, resource.RLIMIT_NOFILE
    before = resource.prlimit(pid, kind)
    resource.prlimit(pid, kind, (server.counts()[0], before[1]))
    for _ in range(20):
        with socket.socket(socket.AF_UNIX) as look:
            look.connect(server.control)
    time.sleep(0.2)
    check(peer.ask("new -") == "= 2", "it goes on")
    resource.prlimit(pid, kind, before)
    check(server.stop().returncode == 0 and server.end() == ENDED, "an end in order")


def a_server_that_was_held_goes_on(program, asked):
    """It is stopped by a signal, as by a terminal, and continued, while a client waits and another goes."""
    server = Server(program, 9, 2)
    waits, goes = server.peer(), server.peer()
    waits.ask("queue")
    waits.send("remove 1")
    for _ in range(200):
        server.process.send_signal(signal.SIGSTOP)
        server.process.send_signal(signal.SIGCONT)
    goes.close()
    wait_until(lambda: server.peer().ask("new -") == "= 1")
    check(server.stop().returncode == 0 and waits.line() == "! 18" and server.end() == ENDED, "an end in order")


def stops_beside_each_other(program, asked):
    """Whoever asks is told of the end, or finds nobody there any more."""
    for _ in range(asked.stops):
        server = Server(program, 9, 1)
        words = [program, "stop", server.control]
        both = [subprocess.Popen(words, stderr=subprocess.PIPE) for _ in range(2)]
        for process in both:
            lines = process.communicate(timeout=TIMEOUT)[1].splitlines()
            gone = lines[:1] == [b"refheap: cannot connect to " + server.control.encode()]
            check(process.returncode == 0 or gone, f"a stop beside another: {lines}")
        check(server.end() == ENDED, "an end in order")


def a_deleted_socket_of_control(program, asked):
    server = Server(program, 1, 1)
    os.remove(server.control)
    check(server.peer().ask("bye") == "ok", "it goes on")
    check(server.end() == ENDED, "and ends by itself")


def stops_at_any_moment(program, asked):
    for number in range(asked.stops):
        server = Server(program, 100_000, 4)
        halt = threading.Event()

        def goer():
            while not halt.is_set():
                try:
                    peer = server.peer()
                    peer.ask("queue")
                    peer.send("remove 1")
                    if number % 2:
                        peer.line()
                    peer.close()
                except OSError:
                    time.sleep(0.002)

        goers = [threading.Thread(target=goer) for _ in range(6)]
        for thread in goers:
            thread.start()
        time.sleep(0.004 * (number % 10))
        check(server.stop().returncode == 0, "a stop")
        halt.set()
        for thread in goers:
            thread.join()
        check(server.end() == ENDED, "an end in order")


def files_of_sockets(program, asked):
    server = Server(program, 9, 1, "--mode", "660", "--control-mode", "600")
    rights = [stat.S_IMODE(os.stat(at).st_mode) for at in (server.path, server.control)]
    check(rights == [0o660, 0o600], "rights of the sockets")
    other = subprocess.run([program, "serve", "--socket", server.path, "--total", "1"], capture_output=True, check=False)
    check(other.returncode == 1 and b"cannot listen" in other.stderr, "one that lives is left alone")
    server.process.kill()
    server.process.wait()
    check(os.path.exists(server.path) and os.path.exists(server.control), "a killed server leaves its files")
    words = ["--socket", server.path + "2", "--control", server.control, "--total", "9"]
    again = subprocess.Popen([program, "serve", *words], stdout=subprocess.DEVNULL)
    wait_until(lambda: os.path.exists(server.path + "2"))
    wait_until(lambda: server.stop().returncode == 0)
    check(again.wait(TIMEOUT) == 0, "a dead socket of control is replaced")
    datagrams = socket.socket(socket.AF_UNIX, socket.SOCK_DGRAM)
    datagrams.bind(server.path + "3")
    words = ["--socket", server.path + "3", "--total", "1"]
    other = subprocess.run([program, "serve", *words], capture_output=True, check=False)
    check(other.returncode == 1 and os.path.exists(server.path + "3"), "a socket of another kind is left alone")
    later = subprocess.Popen([program, "serve", "--socket", server.path, "--total", "1"], stdout=subprocess.PIPE)
    deadline = time.time() + TIMEOUT
    peer = None
    while peer is None and time.time() < deadline:
        try:
            peer = Peer(server.path)
        except OSError:
            time.sleep(0.01)
    os.rename(server.path, server.path + ".mine")
    with open(server.path, "w", encoding="ascii") as file:
        file.write("another's")
    check(peer.ask("bye") == "ok" and later.wait(TIMEOUT) == 0, "the next one serves")
    check(os.path.isfile(server.path), "what is not its own stays")
    empty = subprocess.run([program, "serve", "--socket", "", "--total", "1"], capture_output=True, check=False)
    check(empty.returncode == 1 and b"cannot listen" in empty.stderr, "no path")
    shutil.rmtree(server.folder)


def put_file(at):
    with open(at, "w", encoding="ascii") as file:
        file.write("another's")


def put_socket(at):
    with socket.socket(socket.AF_UNIX) as stream:
        stream.bind(at)


def what_others_put_there_by_the_end_stays(program, asked):
    """By the end of a server a file, or a socket, of another's lies in place of each of its own."""
    for put in put_file, put_socket:
        server = Server(program, 1, 1)
        peer = server.peer()
        check(peer.ask("new -") == "= 1", "it serves")
        places = server.path, server.control
        for at in places:
            os.rename(at, at + ".mine")
            put(at)
        before = [os.lstat(at).st_ino for at in places]
        check(peer.ask("bye") == "ok" and server.process.wait(TIMEOUT) == 0, "it ends by itself")
        check([os.lstat(at).st_ino for at in places] == before, "what is not its own is the same")
        check(server.end() == (0, ["control", "heap", "history"], [b"legal"], b""), "and an end in order")


def main():
    parser = argparse.ArgumentParser(description=__doc__.splitlines()[0])
    parser.add_argument("program")
    parser.add_argument("--clients", type=int, default=2_000)
    parser.add_argument("--stops", type=int, default=40)
    asked = parser.parse_args()
    program = os.path.abspath(asked.program)
    for case in (a_death_goes_to_the_next, gone_clients_brick_nothing, all_of_64_vanish, who_waits_takes_no_processor, a_half_closed_client_is_answered,
                 what_a_client_left_is_closed, a_stop_answers_what_is_owed, a_second_stop_cuts, a_stop_without_a_server, a_stop_whose_save_fails,
                 a_stop_without_a_word, a_stop_waits_until_the_server_is_gone, a_stop_of_a_server_that_is_killed, a_look_is_no_stop,
                 a_look_without_descriptors_is_no_stop, a_server_that_was_held_goes_on, a_deleted_socket_of_control,
                 stops_beside_each_other, stops_at_any_moment, files_of_sockets, what_others_put_there_by_the_end_stays):
        try:
            case(program, asked)
        except (AssertionError, OSError, subprocess.SubprocessError) as error:
            print(f"WRONG   {case.__name__}: {error}")
            sys.exit(1)
        print(f"ok      {case.__name__}", flush=True)


if __name__ == "__main__":
    main()
