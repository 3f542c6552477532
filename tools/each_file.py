"""Has ./replay take each file of a folder, side by side on all processors: what examples/audit-all and examples/play-all
have in common."""
from __future__ import annotations

import concurrent.futures
import contextlib
import json
import os
import pathlib
import queue
import signal
import stat
import subprocess
import sys
import threading
from typing import Callable, NamedTuple

REPLAY = pathlib.Path(__file__).resolve().parent.parent / "replay"
# The statuses are those of ./replay, but that 1 says that some file failed.
DONE, FAILED, BAD_WORDS, WRITE_FAULT, NO_INPUT, NO_ANSWER = 0, 1, 2, 5, 66, 125
# A shell's status for a signal is this and the signal's number.
BY_SIGNAL = 128
# Where standard error is no terminal, there are at most so many lines of the count.
MOST_COUNTS = 10
NOTE = "replay: "
# Nothing is waited for longer at once, in seconds: a signal that comes just before a wait is met only behind it.
PATIENCE = 0.5
# Each ./replay that runs, and whether all are to end, which one that starts just then has to ask.
running: set[subprocess.Popen] = set()
is_ending = threading.Event()

# Takes a file, and gives what is wrong with it, if anything is.
Take = Callable[[pathlib.Path], "str | None"]


class Stopped(Exception):
    """Nothing is taken: the status to end with, and why where that hasn't been said."""

    def __init__(self, status: int, why: str = ""):
        super().__init__(why)
        self.status = status


class Ended(NamedTuple):
    """How ./replay ended, what it wrote where that was asked for, and what it said on standard error."""

    status: int
    written: bytes
    said: str

    def fault(self) -> str:
        """In one line: the status, and the first line that was said of it."""
        how = f"status {self.status}" if self.status >= 0 else f"ended by signal {-self.status}"
        lines = self.said.splitlines()
        own = [line for line in lines if not line.startswith(NOTE)] or [line[len(NOTE) :] for line in lines]
        return f"{how}, {own[0]}" if own else how


class Count:
    """Says on standard error how many files are done: on a terminal in one line, else in a few."""

    def __init__(self, name: str, total: int):
        self.name, self.total, self.done = name, total, 0
        self.is_on_terminal = os.isatty(2)
        self.step = -(-total // MOST_COUNTS)

    def rise(self, failed: int) -> None:
        self.done += 1
        text = f"{self.name}: {self.done} of {self.total}, {failed} failed"
        is_last = self.done == self.total
        if self.is_on_terminal:
            say(f"\r{text}\x1b[K" + ("\n" if is_last else ""))
        elif is_last or self.done % self.step == 0:
            say(f"{text}\n")


def say(text: str) -> None:
    with contextlib.suppress(OSError):
        os.write(2, text.encode(errors="backslashreplace"))


def name_in_line(name: str) -> str:
    """A file's name as it is, or as JSON where it doesn't fit into a line."""
    return name if name.isprintable() else json.dumps(name)


def words_of(words: list[str], usage: str, most: int) -> list[str]:
    """The FOLDER, and what may stand behind it."""
    if words in (["--help"], ["-h"]):
        print(usage, end="")
        raise SystemExit(DONE)
    for word in words:
        if word.startswith("-"):
            raise Stopped(BAD_WORDS, f"{name_in_line(word)} is no word of it")
    if not words:
        raise Stopped(BAD_WORDS, "a FOLDER is missing")
    if len(words) > most:
        raise Stopped(BAD_WORDS, f"{name_in_line(words[most])} is one word too many")
    return words


def files_of(folder: str, ending: str) -> list[pathlib.Path]:
    """The files of the folder whose names end so, without hidden ones and folders."""
    try:
        names = [name for name in os.listdir(folder) if name.endswith(ending) and not name.startswith(".")]
    except OSError as error:
        raise Stopped(NO_INPUT, f"{name_in_line(folder)}: {error.strerror}") from None
    files = [pathlib.Path(folder, name) for name in sorted(names) if not os.path.isdir(os.path.join(folder, name))]
    if not files:
        raise Stopped(NO_INPUT, f"{name_in_line(folder)} has no file whose name ends with {ending}")
    return files


def begin(words: list[str]) -> None:
    """Has ./replay run once alone with nothing to read: where it has no program, it compiles one now and says so."""
    try:
        process = subprocess.Popen([REPLAY, *words], stdin=subprocess.DEVNULL, stdout=subprocess.DEVNULL)
    except OSError as error:
        raise Stopped(NO_ANSWER, f"./replay can't be started: {error.strerror}") from None
    with process:
        try:
            while process.returncode is None:
                with contextlib.suppress(subprocess.TimeoutExpired):
                    process.wait(PATIENCE)
        except BaseException:
            process.terminate()
            raise
    if process.returncode:
        raise Stopped(process.returncode if process.returncode > 0 else NO_ANSWER)


def ask(words: list[str], file: pathlib.Path, output: int = subprocess.PIPE) -> Ended:
    """Has ./replay take the file, with its standard output there."""
    try:
        if not stat.S_ISREG(os.stat(file).st_mode):
            return Ended(NO_INPUT, b"", "it is no regular file")
        opened = os.open(file, os.O_RDONLY)
    except OSError as error:
        return Ended(NO_INPUT, b"", error.strerror)
    try:
        return asked(words, opened, output)
    except OSError as error:
        return Ended(NO_ANSWER, b"", f"it can't be started: {error.strerror}")
    finally:
        os.close(opened)


def asked(words: list[str], opened: int, output: int) -> Ended:
    with subprocess.Popen([REPLAY, *words], stdin=opened, stdout=output, stderr=subprocess.PIPE) as process:
        running.add(process)
        if is_ending.is_set():
            process.terminate()
        written, said = process.communicate()
    running.discard(process)
    return Ended(process.returncode, written or b"", said.decode(errors="replace"))


def faults_of(name: str, files: list[pathlib.Path], take: Take) -> dict[str, str]:
    """What is wrong with each file that failed, by its name. The largest are taken first, so that none of them is left
    over at the end."""
    faults: dict[str, str] = {}
    count, ended = Count(name, len(files)), queue.SimpleQueue()
    with concurrent.futures.ThreadPoolExecutor(len(os.sched_getaffinity(0))) as pool:
        try:
            taken = {pool.submit(take, file): file.name for file in sorted(files, key=size_of, reverse=True)}
            for future in taken:
                future.add_done_callback(ended.put)
            for _ in files:
                future = next_of(ended)
                faults.update({taken[future]: future.result()} if future.result() else {})
                count.rise(len(faults))
        except BaseException:
            pool.shutdown(wait=False, cancel_futures=True)
            end_running()
            raise
    return faults


def next_of(ended: queue.SimpleQueue) -> concurrent.futures.Future:
    """The next one that has ended."""
    while True:
        with contextlib.suppress(queue.Empty):
            return ended.get(timeout=PATIENCE)


def end_running() -> None:
    is_ending.set()
    for process in list(running):
        process.terminate()


def size_of(file: pathlib.Path) -> int:
    try:
        return file.stat().st_size
    except OSError:
        return 0


def told(faults: dict[str, str], summary: str) -> int:
    """Lists what failed on standard output, and behind that the summary; gives the status to end with."""
    lines = [f"{name_in_line(name)}: {faults[name]}" for name in sorted(faults)]
    text = "".join(f"{line}\n" for line in [*lines, summary])
    signal.signal(signal.SIGPIPE, signal.SIG_DFL)
    try:
        with open(1, "wb", closefd=False) as output:
            output.write(text.encode(errors="backslashreplace"))
    except OSError:
        say("write fault\n")
        return WRITE_FAULT
    return FAILED if faults else DONE


def hold_standard_ends() -> None:
    """Keeps the numbers of standard ends that are closed away from files: what is written there fails."""
    while True:
        opened = os.open(os.devnull, os.O_RDONLY)
        if opened > 2:
            os.close(opened)
            return


def end_by(number: int, frame: object = None) -> None:
    raise SystemExit(BY_SIGNAL + number)


def main(name: str, run: Callable[[list[str]], int]) -> None:
    """Ends with the status of what is run."""
    hold_standard_ends()
    for number in (signal.SIGINT, signal.SIGTERM, signal.SIGHUP):
        if signal.getsignal(number) != signal.SIG_IGN:
            signal.signal(number, end_by)
    try:
        raise SystemExit(run(sys.argv[1:]))
    except Stopped as stopped:
        behind = f". examples/{name} --help has the usage" if stopped.status == BAD_WORDS else ""
        say(f"{name}: {stopped}{behind}\n" if str(stopped) else "")
        raise SystemExit(stopped.status) from None
