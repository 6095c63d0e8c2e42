"""What build.py and gate_times.py ask of the machine: its processors, its free memory, and what processes take of it.

Limits of control groups count, in both versions, also of a group inside another. Memory is in MiB.
"""
import os
import re

TICK = os.sysconf("SC_CLK_TCK")
PAGE_KIB = os.sysconf("SC_PAGE_SIZE") // 1024
GROUPS = "/sys/fs/cgroup"


def number_in(path, pattern):
    """The number that a file has at the pattern, or None."""
    try:
        with open(path, encoding="utf-8") as file:
            found = re.search(pattern, file.read(), re.M)
    except OSError:
        return None
    return int(found[1]) if found else None


def group_folders(controller):
    """The folders of this process's control groups under a controller, from its own up to the top."""
    try:
        with open("/proc/self/cgroup", encoding="utf-8") as file:
            groups = [line.strip().split(":", 2) for line in file]
    except OSError:
        return []
    folders = []
    for _, controllers, path in groups:
        if controllers and controller not in controllers.split(","):
            continue
        top = os.path.join(GROUPS, controller) if controllers else GROUPS
        while True:
            folders.append(os.path.join(top, path.strip("/")))
            if not path.strip("/"):
                break
            path = os.path.dirname(path.rstrip("/"))
    return folders


def processors():
    """The number of processors that this process may use, by its affinity and the quotas of its groups."""
    found = len(os.sched_getaffinity(0))
    for folder in group_folders("cpu"):
        for quota_file, period in (("cpu.max", ("cpu.max", r" (\d+)")),
                                   ("cpu.cfs_quota_us", ("cpu.cfs_period_us", r"(\d+)"))):
            quota = number_in(os.path.join(folder, quota_file), r"^(\d+)")
            length = number_in(os.path.join(folder, period[0]), period[1])
            if quota and length:
                found = min(found, max(quota // length, 1))
    return found


def free_memory():
    """The free memory: what the system calls available, or less by the limit of a group."""
    found = [number_in("/proc/meminfo", r"MemAvailable:\s+(\d+)") * 1024]
    for folder in group_folders("memory"):
        for limit_file, held in (("memory.max", r"^anon (\d+)"),
                                 ("memory.limit_in_bytes", r"^total_rss (\d+)")):
            limit = number_in(os.path.join(folder, limit_file), r"^(\d+)")
            used = number_in(os.path.join(folder, "memory.stat"), held)
            if limit is not None and used is not None:
                found.append(limit - used)
    return max(min(found), 0) // (1 << 20)


class Process:
    """What /proc says of a process: its parent, its processor seconds (with ended children too), and its memory."""

    def __init__(self, fields):
        self.parent = int(fields[1])
        self.began = fields[19]
        self.own_seconds = sum(map(int, fields[11:13])) / TICK
        self.seconds = sum(map(int, fields[11:15])) / TICK
        self.memory = int(fields[21]) * PAGE_KIB // 1024


def processes():
    """All processes, by their IDs."""
    found = {}
    for pid in filter(str.isdigit, os.listdir("/proc")):
        try:
            with open(f"/proc/{pid}/stat", encoding="utf-8", errors="replace") as file:
                found[int(pid)] = Process(file.read().rpartition(")")[2].split())
        except (OSError, ValueError, IndexError):
            continue
    return found


def descendants(root, found):
    """Those of the found processes that a process started, and what these started."""
    children = {}
    for pid, it in found.items():
        children.setdefault(it.parent, []).append(pid)
    below, ahead = [], [root]
    while ahead:
        ahead += (more := children.get(ahead.pop(), []))
        below += more
    return below


def memory_of(pids, found, above=0):
    """The memory of processes. If the plain sum is over `above`, pages that copies share are counted once."""
    plain = sum(found[pid].memory for pid in pids)
    if plain <= above:
        return plain
    total = 0
    for pid in pids:
        share = number_in(f"/proc/{pid}/smaps_rollup", r"^Pss:\s+(\d+)")
        total += found[pid].memory if share is None else share // 1024
    return total
