"""A session of refheap over pipes, for the scripts beside this file."""
import subprocess
import time


class Session:
    """Sends commands in batches, and looks at every reply."""

    BATCH = 400

    def __init__(self, program, cells, options=()):
        command = [program, "run", "--cells", str(cells), *options]
        self.process = subprocess.Popen(command, stdin=subprocess.PIPE, stdout=subprocess.PIPE)
        self.waiting = []
        self.answered = 0

    def send(self, line):
        """Sends a command with the next batch."""
        self.waiting.append(line)
        if len(self.waiting) == self.BATCH:
            self.flush()

    def flush(self):
        """Sends what waits, and reads the replies. A refusal ends the script."""
        if not self.waiting:
            return
        self.process.stdin.write(("\n".join(self.waiting) + "\n").encode())
        self.process.stdin.flush()
        for line in self.waiting:
            reply = self.process.stdout.readline().decode().rstrip("\n")
            if not reply or reply.startswith("!"):
                raise SystemExit(f"{line!r} was answered {reply!r}")
        self.answered += len(self.waiting)
        self.waiting = []

    def time(self, line):
        """Nanoseconds from a command to its reply."""
        self.flush()
        begin = time.perf_counter_ns()
        self.process.stdin.write((line + "\n").encode())
        self.process.stdin.flush()
        reply = self.process.stdout.readline()
        took = time.perf_counter_ns() - begin
        if not reply or reply.startswith(b"!"):
            raise SystemExit(f"{line!r} was answered {reply!r}")
        return took

    def memory(self):
        """Bytes of memory that the program has by now."""
        self.flush()
        with open(f"/proc/{self.process.pid}/status") as status:
            return next(int(line.split()[1]) * 1024 for line in status if line.startswith("VmRSS"))

    def close(self):
        self.flush()
        self.process.stdin.close()
        self.process.wait()
