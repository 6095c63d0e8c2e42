"""The order in which build.py proves crates: the crates, what each costs, and what starts next. It starts nothing.

crate_costs.txt has a line for each crate: the seconds in which one process works alone, the seconds of one job that
further jobs share, and the memory of the largest process in MiB. `build.py --write-costs` measures them.
"""
import os
import statistics

ROOT = os.path.dirname(os.path.dirname(os.path.abspath(__file__)))
COSTS = os.path.join(ROOT, "checks", "crate_costs.txt")
# The most jobs that a check of one crate makes use of, and what each further one takes of the memory of the first.
MOST_JOBS = 4
FURTHER_MEMORY = 0.6
# The share of the free memory that is planned with.
USED = 0.9
# Chains that differ by fewer seconds count as equally long.
NEAR = 300


def crate_lines(root=ROOT):
    """The crates of the repository, each with the words before and after the colon of its line in crates.txt."""
    crates = {}
    with open(os.path.join(root, "crates.txt"), encoding="utf-8") as lines:
        for line in lines:
            line = line.partition("#")[0].strip()
            if line:
                head, _, below = line.partition(":")
                crates[head.split()[0]] = head.split(), below.split()
    return crates


def read_crates(root=ROOT):
    """The crates of the repository, each with those of them that it lists."""
    crates = crate_lines(root)
    return {name: [it for it in below if it in crates] for name, (_, below) in crates.items()}


def closure(crates, wanted):
    """The wanted crates and all that they stand on, the lowest first."""
    order = []

    def add(name):
        if name not in order:
            for below in crates[name]:
                add(below)
            order.append(name)

    for name in wanted:
        add(name)
    return order


class Cost:
    """What the proof of a crate takes."""

    def __init__(self, alone, shared, memory):
        self.alone, self.shared, self.memory = alone, shared, memory

    def seconds(self, jobs):
        """The seconds by the clock with this number of jobs."""
        return self.alone + self.shared / jobs

    def space(self, jobs):
        """The memory with this number of jobs."""
        return self.memory * (1 + FURTHER_MEMORY * (jobs - 1))


def read_costs(path=COSTS):
    """The costs of the crates that the table has."""
    costs = {}
    if os.path.exists(path):
        with open(path, encoding="utf-8") as lines:
            for line in lines:
                words = line.partition("#")[0].split()
                if words:
                    costs[words[0]] = Cost(*map(float, words[1:4]))
    return costs


def with_guesses(costs, names):
    """The costs of the named crates; one that the table lacks is taken to cost the median."""
    known = costs.values()
    usual = Cost(*(statistics.median(getattr(it, part) for it in known)
                   for part in ("alone", "shared", "memory"))) if known else Cost(20, 40, 1200)
    return {name: costs.get(name, usual) for name in names}


def measured(seconds, alone, jobs, memory, before):
    """The cost of a crate by one run of it: its processor seconds, and those of the process that starts the jobs.
    One job tells nothing of what others could share: the share of the row before stays."""
    if jobs == 1:
        alone = seconds * before.alone / max(before.alone + before.shared, 1)
    alone = min(alone, seconds)
    return Cost(alone, seconds - alone, memory)


def write_costs(new, path=COSTS):
    """Puts new rows into the table, whose first lines of comment stay."""
    with open(path, encoding="utf-8") as lines:
        head = [line for line in lines if line.startswith("#")]
    rows = {**read_costs(path), **new}
    crates = read_crates()
    with open(path, "w", encoding="utf-8") as file:
        file.writelines(head)
        for name in sorted((it for it in rows if it in crates), key=list(crates).index):
            row = rows[name]
            file.write(f"{name:24}{row.alone:8.0f}{row.shared:8.0f}{row.memory:8.0f}\n")


class Plan:
    """Which crates wait, run and are done, and what starts next.

    A crate that begins the longest chain, or one about as long, leads: it gets the most jobs, and the processors before
    all others. What does not lead gets the processors that no other ready crate needs."""

    def __init__(self, crates, order, costs, cpus, done=()):
        self.crates, self.costs, self.cpus = crates, costs, cpus
        self.done = set(done)
        self.behind = self.chains(order)
        self.waiting = [name for name in order if name not in self.done]
        self.waiting.sort(key=lambda name: -self.behind[name])
        self.running, self.leading, self.passed = {}, set(), set()

    def chains(self, order):
        """For each crate the seconds of the longest chain of crates that it begins, at the most jobs."""
        behind = dict.fromkeys(order, 0)
        for name in reversed(order):
            behind[name] += self.costs[name].seconds(min(MOST_JOBS, self.cpus))
            for below in self.crates[name]:
                behind[below] = max(behind[below], behind[name])
        return behind

    def ready(self):
        """The crates whose libraries are all built, the longest chain first."""
        return [name for name in self.waiting if all(it in self.done for it in self.crates[name])]

    def leads(self, name):
        """Whether the crate begins a chain about as long as the longest one that is left."""
        longest = max(self.behind[it] for it in (*self.waiting, *self.running))
        return self.behind[name] >= longest - NEAR

    def space(self):
        """The memory that the running crates may come to take."""
        return sum(self.costs[name].space(jobs) for name, jobs in self.running.items())

    def jobs_for(self, name, others, room):
        """The jobs for a crate, as far as memory holds them, or 0 where no processor is left for it."""
        if self.leads(name):
            jobs = min(MOST_JOBS, self.cpus) if len(self.leading) < self.cpus else 0
        else:
            idle = self.cpus - sum(1 if it in self.leading else jobs for it, jobs in self.running.items())
            jobs = min(max(idle - others, 1), MOST_JOBS, idle)
        while jobs > 1 and self.costs[name].space(jobs) > room:
            jobs -= 1
        return max(jobs, 0)

    def next(self, memory):
        """Starts a crate, and gives it and its jobs, or None; all that run may take `memory` together.
        A crate that waits for memory lets another pass only if that fits beside it."""
        ready, room, head = self.ready(), memory - self.space(), None
        for at, name in enumerate(ready):
            jobs = self.jobs_for(name, len(ready) - at - 1, room)
            needs = self.costs[name].space(1)
            if not jobs:
                continue
            if head is None and (needs <= room or not self.running):
                return self.start(name, jobs)
            if head is None:
                head = self.costs[name].space(1)
                continue
            beside = sum(self.costs[it].space(1) for it in self.passed if it in self.running)
            if needs <= room and needs + beside + head <= memory:
                self.passed.add(name)
                return self.start(name, 1)
        return None

    def start(self, name, jobs):
        """Takes note that a crate starts."""
        if self.leads(name):
            self.leading.add(name)
        self.waiting.remove(name)
        self.running[name] = jobs
        return name, jobs

    def end(self, name):
        """Takes note that a crate is built."""
        del self.running[name]
        self.leading.discard(name)
        self.done.add(name)

    def copy(self):
        """A plan of its own that goes on from here."""
        other = Plan.__new__(Plan)
        other.__dict__.update(self.__dict__)
        other.waiting, other.running = list(self.waiting), dict(self.running)
        other.done, other.leading, other.passed = set(self.done), set(self.leading), set(self.passed)
        return other


class Work:
    """What is left to do of a crate that runs: first the part that one process does alone."""

    def __init__(self, cost, jobs, share=1.0):
        self.alone, self.shared, self.jobs = cost.alone * share, cost.shared * share, jobs

    def wanted(self):
        """The processors that it keeps busy now."""
        return 1 if self.alone > 0 else self.jobs

    def left(self):
        """The processor seconds of the part that it is in."""
        return self.alone if self.alone > 0 else self.shared

    def go_on(self, seconds):
        """Takes processor seconds off."""
        if self.alone > 0:
            self.alone = max(self.alone - seconds, 0)
        else:
            self.shared -= seconds


def rates(plan, works):
    """The processors that each running crate has: those with longer chains come first."""
    left, found = plan.cpus, {}
    for name in sorted(works, key=lambda name: -plan.behind[name]):
        found[name] = min(works[name].wanted(), left)
        left -= found[name]
    return found


def model(plan, memory, progress=None):
    """Follows a plan to its end by the table. Gives the seconds that it takes, the processor seconds,
    and of each crate when it starts and ends, and its jobs.
    `progress` has the processor seconds that the running crates have used so far."""
    plan, clock, busy, begun, said = plan.copy(), 0.0, 0.0, {}, []
    works = {}
    for name, jobs in plan.running.items():
        cost, begun[name] = plan.costs[name], 0.0
        share = 1 - (progress or {}).get(name, 0) / max(cost.alone + cost.shared, 1)
        works[name] = Work(cost, jobs, max(share, 0.05))
    while plan.waiting or plan.running:
        while (found := plan.next(memory)):
            works[found[0]], begun[found[0]] = Work(plan.costs[found[0]], found[1]), clock
        given = rates(plan, works)
        step = min(works[name].left() / rate for name, rate in given.items() if rate)
        clock, busy = clock + step, busy + step * sum(given.values())
        for name, rate in given.items():
            works[name].go_on(step * rate)
            if works[name].alone <= 0 and works[name].shared <= 1e-6:
                del works[name]
                said.append((begun[name], clock, name, plan.running[name]))
                plan.end(name)
    return clock, busy, said
