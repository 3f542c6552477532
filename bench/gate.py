"""usage: gate.py [--markdown] FOLDER

Samples what the gate of a repository takes of the processors, until it has ended, and prints it by crate: of its proof,
its tests and its edits; then of each other step of .ci/run, and the longest chain of crates of which each stands on the one
before it. --markdown prints the tables of bench/README.md.

Each second it looks at every check and build that rt has started on a crate, and at every step, and takes the time of its
process, of those below it and of those that these have waited for. What a process takes after its last sample is missed.
"""
import datetime
import os
import pathlib
import signal
import subprocess
import sys
import time

TICKS = os.sysconf("SC_CLK_TCK")
# What of a crate is at work.
WORKS = ("proof", "tests", "edits")
# The row of their sums.
CRATES = "all crates"
# So many samples without any work, and the gate has ended.
PAUSE = 60


class Process:
    def __init__(self, pid):
        with open(f"/proc/{pid}/stat") as it:
            fields = it.read().rpartition(")")[2].split()
        with open(f"/proc/{pid}/cmdline") as it:
            self.words = it.read().split("\0")
        self.folder = os.readlink(f"/proc/{pid}/cwd")
        self.parent = int(fields[1])
        # of itself and of the children that it has waited for, for users and in the system
        self.seconds = sum(int(it) for it in fields[11:15]) / TICKS
        # a number is given again, but not at the same time
        self.key = pid, fields[19]

    def is_below(self, folder):
        return os.path.commonpath([folder, self.folder]) == folder

    def is_rt(self):
        return any(os.path.basename(it) == "rt" for it in self.words[:2])

    def is_gate(self):
        return any(it.endswith(".ci/run") for it in self.words[:2])

    def step(self):
        """How it is called, where it runs a file of the repository; or None."""
        file = "".join(self.words[1:2])
        path = pathlib.Path(self.folder, file)
        if file.startswith("/") or not path.is_file() or not os.access(path, os.X_OK):
            return None
        return " ".join([file, *(it for it in self.words[2:] if it.startswith("--"))])

    def work(self):
        """The crate that it checks or builds, and what of it; or None."""
        if os.path.basename(self.words[0]) != "rattle" or "--crate-name" not in self.words:
            return None
        is_edit = os.path.basename(self.folder).startswith("rt-edit-")
        what = "edits" if is_edit else "tests" if "--test" in self.words else "proof"
        return self.words[self.words.index("--crate-name") + 1], what


class Sample:
    """The processes at one time."""

    def __init__(self):
        self.processes, self.children = {}, {}
        for pid in filter(str.isdigit, os.listdir("/proc")):
            try:
                process = Process(pid)
            except (OSError, IndexError):
                # it has ended, or is the system's
                continue
            self.processes[int(pid)] = process
            self.children.setdefault(process.parent, []).append(int(pid))

    def runs(self, folder):
        """The processes of rt below the folder."""
        return [pid for pid, it in self.processes.items() if it.is_rt() and it.is_below(folder)]

    def steps(self, folder):
        """What .ci/run below the folder has started beside rt, by process."""
        gates = {pid for pid, it in self.processes.items() if it.is_gate() and it.is_below(folder)}
        begun = {pid: it for pid, it in self.processes.items() if it.parent in gates and pid not in gates}
        return {pid: it.step() for pid, it in begun.items() if it.step() and not it.is_rt()}

    def seconds(self, pid):
        below = self.children.get(pid, [])
        return self.processes[pid].seconds + sum(self.seconds(it) for it in below)

    def works(self, pid):
        """The processes nearest below that one that work on a crate."""
        for child in self.children.get(pid, []):
            if self.processes[child].work():
                yield child
            else:
                yield from self.works(child)


class Measure:
    def __init__(self, folder):
        self.folder = folder
        # by process, the name of its row, what of the crate is at work or None for a step, and the seconds that it has taken
        self.taken = {}
        # by row, the seconds in which it was at work
        self.busy = {}
        # whether any work was seen, and the samples since
        self.has_begun, self.idle = False, 0

    def add(self, sample, gap):
        runs, steps = sample.runs(self.folder), sample.steps(self.folder)
        found = {pid: sample.processes[pid].work() for run in runs for pid in sample.works(run)}
        found |= {pid: (step, None) for pid, step in steps.items()}
        for pid, (name, work) in found.items():
            self.taken[sample.processes[pid].key] = name, work, sample.seconds(pid)
        names = {name for name, _ in found.values()}
        if any(work for _, work in found.values()):
            names.add(CRATES)
        for name in names:
            self.busy[name] = self.busy.get(name, 0) + gap
        self.idle += 1
        if runs or steps:
            self.has_begun, self.idle = True, 0

    def has_ended(self):
        return self.has_begun and self.idle >= PAUSE

    def minutes(self, name, work):
        """Those of a processor that this work of the row has taken; all of its work where that is None."""
        return sum(it for of, what, it in self.taken.values() if of == name and work in (None, what)) / 60

    def rows(self):
        """By name the minutes of each work, of all of it and by the clock, the most first."""
        names = {name for name, work, _ in self.taken.values() if work}
        found = {name: [self.minutes(name, it) for it in (*WORKS, None)] + [self.busy[name] / 60] for name in names}
        return dict(sorted(found.items(), key=lambda row: -row[1][len(WORKS)]))

    def steps(self):
        """By name, in the order of .ci/run, the minutes of a processor and those by the clock."""
        names = dict.fromkeys(name for name, work, _ in self.taken.values() if not work)
        return {name: (self.minutes(name, None), self.busy[name] / 60) for name in names}

    def sums(self):
        """The columns of all crates in one."""
        works = [sum(self.minutes(name, it) for name in self.rows()) for it in (*WORKS, None)]
        return [*works, self.busy.get(CRATES, 0) / 60]


def uses_of(folder):
    """The crates that crates.txt lists, each with those of them that it names."""
    lines = [it.partition("#")[0].partition(":") for it in (pathlib.Path(folder) / "crates.txt").read_text().splitlines()]
    named = {head.split()[0]: uses.split() for head, colon, uses in lines if colon}
    return {name: [it for it in uses if it in named] for name, uses in named.items()}


def longest_chain(minutes, uses):
    """The crates, lowest first and each used by the next, whose minutes have the greatest sum."""
    chains = {}

    def chain(name):
        if name not in chains:
            below = max(map(chain, uses[name]), key=total, default=[])
            chains[name] = [*below, name]
        return chains[name]

    def total(names):
        return sum(minutes.get(it, 0) for it in names)

    return max(map(chain, uses), key=total, default=[])


def kit():
    return subprocess.run(["rt", "version"], stdout=subprocess.PIPE, text=True).stdout.strip()


class Plain:
    """A table in columns of spaces."""

    def head(self, first, columns):
        print(f"{first:24}" + "".join(f"{it:>8}" for it in columns))

    def row(self, first, numbers):
        print(f"{first:24}" + "".join(f"{it:8.1f}" for it in numbers))

    def end(self):
        print()


class Markdown:
    def head(self, first, columns):
        print(f"| {first} | " + " | ".join(columns) + " |")
        print("|---|" + "---:|" * len(columns))

    def row(self, first, numbers):
        print(f"| {first} | " + " | ".join(f"{it:.1f}" for it in numbers) + " |")

    end = Plain.end


def show(measure, table):
    rows, steps = measure.rows(), measure.steps()
    print(f"{kit()}; {len(os.sched_getaffinity(0))} processors; {datetime.date.today()}\n")
    table.head("minutes of a processor", [*WORKS, "all", "clock"])
    for name, numbers in rows.items():
        table.row(name, numbers)
    table.row(CRATES, measure.sums())
    table.end()
    if steps:
        table.head("step of the gate", ["all", "clock"])
        for name, numbers in steps.items():
            table.row(name, numbers)
        table.end()
    proofs = {name: numbers[0] for name, numbers in rows.items()}
    passed = 0
    table.head("longest chain", ["proof", "so far"])
    for name in longest_chain(proofs, uses_of(measure.folder)):
        passed += proofs.get(name, 0)
        table.row(name, [proofs.get(name, 0), passed])


def main():
    words = sys.argv[1:]
    table = Markdown() if words[:1] == ["--markdown"] else Plain()
    measure = Measure(os.path.realpath(words[-1]))
    for it in (signal.SIGINT, signal.SIGTERM):
        signal.signal(it, lambda *_: sys.exit())
    last = now = time.monotonic()
    try:
        while not measure.has_ended():
            measure.add(Sample(), now - last)
            time.sleep(1)
            last, now = now, time.monotonic()
    finally:
        show(measure, table)


if __name__ == "__main__":
    main()
