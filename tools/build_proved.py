"""Proves and builds the program: `rt ci` on a copy of the crates that it is made of, without edits, so that crates are
proved side by side. The program is then put in its place, with a record of what was proved.
"""
from __future__ import annotations

import contextlib
import os
import pathlib
import re
import shutil
import signal
import subprocess
import sys
import tempfile
import threading
import time
from typing import Callable, Iterator

import kept_programs
import sources

# What of a crate `rt ci` reads and writes that isn't needed here: what it makes, and the edits that it must refuse.
LEFT_OUT = ("out", "must-fail", "edits", "definition-edits")
# How many lines of code a processor proves in a minute, with what is said and proved of them, by the run that bench/README.md
# tells; a guess for the kit that isn't measured there; and what a check of a crate takes besides, in lines.
LINES_A_MINUTE = 580
OF_OTHER_KITS = {"rattle-kit-13b": 1000}
LINES_A_CHECK = 200
# What a check takes of memory, at most.
BYTES_A_CRATE = 4_000_000_000
# What rt says of a crate that it has proved, now or in an earlier run on this machine.
PROVED = re.compile(r"rt: (\w+) (?:proved$|is kept: )")
Say = Callable[[str], None]


def build(root: str, say: Say) -> int:
    """Gives the status: 0 where the program is proved and in its place, 1 where it isn't proved, 125 without a kit."""
    if kept_programs.find_rt() is None:
        say("the Rattle kit's command rt, which is to prove and build the program, isn't here")
        return 125
    if kept_programs.Proved(root).is_current():
        say(f"the program of these sources is built and proved; without crates/{kept_programs.WHOLE}/out it is anew")
        return 0
    signal.signal(signal.SIGTERM, lambda number, _: sys.exit(128 + number))
    with tempfile.TemporaryDirectory(prefix="replay-build-") as room:
        return build_in(root, f"{room}/copy", say)


def build_in(root: str, copy: str, say: Say) -> int:
    place = kept_programs.Proved(root)
    state, command = place.state(), kept_programs.find_rt()
    copy_crates(root, copy, place.names)
    digest = sources.digest_of(copy, place.names, sources.PROVED)
    lanes = lanes_here()
    kit = kept_programs.kit_of(command)
    progress = Progress(place.names, usual_minutes(copy, place.names, lanes, kit), say)
    say(f"proves {len(place.names)} crates, at most {lanes} at a time: usually {progress.usual} min in all here, from nothing")
    log = pathlib.Path(place.program).with_name("replay.log")
    log.parent.mkdir(exist_ok=True)
    if not prove(copy, log, progress):
        print(*log.read_text(errors="replace").splitlines()[-20:], sep="\n", file=sys.stderr)
        say(f"the program isn't proved and built; {log} has all that rt said")
        return 1
    put_program(f"{copy}/crates/{kept_programs.WHOLE}/out/{kept_programs.WHOLE}", place.program)
    place.note(digest=digest, kit=kit, command=kept_programs.mark_of(command), state=state)
    say(f"proved and built in {progress.minutes()} min; ./replay now starts the program itself")
    return 0


def copy_crates(root: str, copy: str, names: list[str]) -> None:
    """Copies the crates, and what crates.txt and HANDLES say of them, to a folder that is the top of a repository."""
    for name in names:
        left_out = shutil.ignore_patterns(*LEFT_OUT)
        shutil.copytree(f"{root}/crates/{name}", f"{copy}/crates/{name}", ignore=left_out, symlinks=True)
    pathlib.Path(copy, "crates.txt").write_text(sources.lines_of_crates(root, names), encoding="utf-8")
    shutil.copy(f"{root}/HANDLES", copy)
    os.mkdir(f"{copy}/.git")


def lanes_here() -> int:
    """How many crates are proved side by side: as many as there are processors, and memory."""
    processors = len(os.sched_getaffinity(0))
    with open("/proc/meminfo", encoding="ascii") as lines:
        free = next((int(line.split()[1]) * 1024 for line in lines if line.startswith("MemAvailable:")), 0)
    return max(1, min(processors, free // BYTES_A_CRATE))


def lines_of(copy: str, name: str) -> int:
    files = sources.files_of(copy, [name], sources.COMPILED)
    return LINES_A_CHECK + sum(pathlib.Path(file.path).read_bytes().count(b"\n") for file in files)


def usual_minutes(copy: str, names: list[str], lanes: int, kit: str) -> int:
    """What so many lines usually take the kit: the longest chain of crates that stand on one another, or all of them side
    by side, whichever is more."""
    crates = sources.crates_of(copy)
    lines = {name: lines_of(copy, name) for name in names}
    chain: dict[str, int] = {}
    for name in names:
        chain[name] = lines[name] + max((chain[used] for used in crates[name] if used in chain), default=0)
    most = max(sum(lines.values()) // lanes, *chain.values())
    return -(-most // OF_OTHER_KITS.get(kit.split(" ")[0], LINES_A_MINUTE))


class Progress:
    """Which crates are proved so far; says so, and once a minute where none is."""

    def __init__(self, names: list[str], usual: int, say: Say):
        self.names, self.usual, self.say = names, usual, say
        self.proved: list[str] = []
        self.began = self.said = time.monotonic()

    def minutes(self) -> int:
        return int(time.monotonic() - self.began) // 60

    def tell(self, what: str) -> None:
        self.said = time.monotonic()
        so_far = f"{len(self.proved)} of {len(self.names)} crates, {self.minutes()} min so far"
        self.say(f"{what}: {so_far}, usually {self.usual} in all")

    def take(self, line: str) -> None:
        """Takes a line of rt."""
        found = PROVED.match(line)
        if found and found[1] in self.names and found[1] not in self.proved:
            self.proved.append(found[1])
            self.tell(f"{found[1]} is proved")

    def watch(self, ended: threading.Event) -> None:
        while not ended.wait(5):
            if time.monotonic() - self.said >= 60:
                self.tell("proving")


def prove(copy: str, log: pathlib.Path, progress: Progress) -> bool:
    """Whether rt proves, builds and runs everything in the copy."""
    ended = threading.Event()
    watcher = threading.Thread(target=progress.watch, args=[ended])
    watcher.start()
    try:
        with log.open("w", encoding="utf-8") as written, rt_ci(copy) as rt:
            last = ""
            for last in rt.stdout:
                written.write(last)
                progress.take(last)
        return rt.returncode == 0 and last.endswith(" 0 failed\n") and len(progress.proved) == len(progress.names)
    finally:
        ended.set()
        watcher.join()


@contextlib.contextmanager
def rt_ci(copy: str) -> Iterator[subprocess.Popen]:
    """Runs rt ci in the folder, and ends it if this program is ended. Without RT_JOBS rt proves a crate that all others wait
    for on several processors."""
    how = {"stdin": subprocess.DEVNULL, "stdout": subprocess.PIPE, "stderr": subprocess.STDOUT}
    with subprocess.Popen(["rt", "ci"], cwd=copy, text=True, errors="replace", **how) as rt:
        try:
            yield rt
        except BaseException:
            rt.terminate()
            raise


def put_program(made: str, place: str) -> None:
    """Puts the program in its place at once, so that nobody starts half of it."""
    part = f"{place}.{os.getpid()}"
    shutil.copy(made, part)
    os.replace(part, place)
