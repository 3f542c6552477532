"""What each try of an edit takes of the processors, as seen beside it. Started by itself, it looks at what runs below
its parent until it is told to end, and prints a line `CRATE NUMBER SECONDS` for each try.

rt tries an edit by a check of a copy of its crate, in a folder whose name begins with rt-edit-, over what a first check
has proved: that is in a folder `seed`, and a copy of it is the edit's own, called by the edit's number in must-fail/.
"""
import os
import pathlib
import re
import signal
import threading
import time

TICKS = os.sysconf("SC_CLK_TCK")
OVER = re.compile(r".*/(seed|[0-9]+)$")
# What a check is counted as that begins with nothing: it takes as long as a seed.
SEED = "seed"


class Process:
    def __init__(self, pid):
        stat = pathlib.Path(f"/proc/{pid}/stat").read_text(errors="replace")
        fields = stat.rpartition(")")[2].split()
        self.parent = int(fields[1])
        # of itself and of the children that it has waited for, for users and in the system
        self.seconds = sum(int(it) for it in fields[11:15]) / TICKS
        # a number is given again, but not at the same time
        self.key = pid, fields[19]
        self.words = pathlib.Path(f"/proc/{pid}/cmdline").read_text(errors="replace").split("\0")
        self.folder = os.readlink(f"/proc/{pid}/cwd")

    def tried(self):
        """The crate of the edit that it tries, and the edit's number, or `seed`; or None."""
        is_try = os.path.basename(self.folder).startswith("rt-edit-") and os.path.basename(self.words[0]) == "rattle"
        if not is_try or "--crate-name" not in self.words:
            return None
        over = OVER.match(self.after("--incremental"))
        return self.after("--crate-name"), over[1] if over else SEED

    def after(self, flag):
        return self.words[self.words.index(flag) + 1] if flag in self.words[:-1] else ""


def processes():
    found = {}
    for pid in filter(str.isdigit, os.listdir("/proc")):
        try:
            found[int(pid)] = Process(pid)
        except (OSError, IndexError, ValueError):
            # it has ended, or is the system's
            continue
    return found


def below(found, pid):
    """The processes below that one."""
    for child, process in found.items():
        if process.parent == pid:
            yield child
            yield from below(found, child)


class Times:
    """By process, the crate and the number of the edit that it tries, and the seconds that it has taken."""

    def __init__(self):
        self.taken = {}

    def look(self, top):
        """Takes one sample of what is at work below the process."""
        found = processes()
        for pid in below(found, top):
            process = found[pid]
            if process.tried() and not (process.parent in found and found[process.parent].tried()):
                seconds = process.seconds + sum(found[it].seconds for it in below(found, pid))
                self.taken[process.key] = *process.tried(), seconds

    def watch(self, top, until):
        while not until():
            self.look(top)
            time.sleep(1)

    def lines(self):
        return [f"{crate} {number} {seconds:.0f}" for crate, number, seconds in self.taken.values()]


def read(text, tried):
    """The seconds of the edits, by their labels, and of the seeds, by their crates, in lines that were printed here. An
    edit that was tried twice took both."""
    edits, seeds = {}, {}
    for crate, number, seconds in re.findall(rf"^(\S+) ({SEED}|[0-9]+) ([0-9]+)$", text, re.M):
        edits_there = sorted((it for it in tried if it.crate == crate), key=lambda it: f"{it.name}.edit")
        if number == SEED:
            seeds[crate] = max(seeds.get(crate, 0), int(seconds))
        elif int(number) < len(edits_there):
            label = edits_there[int(number)].label
            edits[label] = edits.get(label, 0) + int(seconds)
    return edits, seeds


def main():
    told, parent = threading.Event(), os.getppid()
    signal.signal(signal.SIGTERM, lambda *_: told.set())
    watched = Times()
    watched.watch(parent, lambda: told.is_set() or os.getppid() != parent)
    print("\n".join(watched.lines()))


if __name__ == "__main__":
    main()
