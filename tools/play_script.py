"""Has the program play the script on standard input, and shows where a bad line of it is wrong.

The program runs beside this one, which passes on its standard error, its end and the signals that it gets.
"""
from __future__ import annotations

import os
import signal
import sys

BAD_LINE = rb"^line (\d+): (\w+)\n"
PASSED_ON = (signal.SIGINT, signal.SIGTERM, signal.SIGHUP, signal.SIGQUIT)
# Python ignores these, and the program isn't to.
IGNORED = (signal.SIGPIPE, signal.SIGXFSZ)


class Script:
    """What standard input has: read where it is a file, else taken whole first, up to a byte past the limit, and given
    to the program as a file."""

    def __init__(self, limit: int):
        self.limit = limit
        self.begin = position_of(0)
        if self.begin is None:
            self.begin = 0
            os.dup2(file_of(read_up_to(0, limit + 1)), 0)

    def text(self) -> bytes:
        """The script, wherever the program stopped reading."""
        os.lseek(0, self.begin, os.SEEK_SET)
        return read_up_to(0, self.limit)


def position_of(opened: int) -> int | None:
    """Where the next byte is read from, if one can go back there."""
    try:
        return os.lseek(opened, 0, os.SEEK_CUR)
    except OSError:
        return None


def read_up_to(opened: int, count: int) -> bytes:
    parts = []
    while count > 0:
        part = os.read(opened, min(count, 1 << 20))
        if not part:
            break
        parts.append(part)
        count -= len(part)
    return b"".join(parts)


def file_of(held: bytes) -> int:
    """A file in memory that holds this."""
    made = os.memfd_create("script")
    with os.fdopen(os.dup(made), "wb") as file:
        file.write(held)
    os.lseek(made, 0, os.SEEK_SET)
    return made


def run(program: str, words: list[str], output: int = 1) -> tuple[int, bytes]:
    """Runs the program to its end, with its standard output there; gives how it ended, and its standard error, which is
    passed on too."""
    read_end, write_end = os.pipe()
    ends = [(os.POSIX_SPAWN_DUP2, write_end, 2), (os.POSIX_SPAWN_DUP2, output, 1)]
    how = {"file_actions": ends, "setsigdef": PASSED_ON + IGNORED}
    process = os.posix_spawn(program, [program, *words], os.environ, **how)
    os.close(write_end)
    for number in PASSED_ON:
        signal.signal(number, lambda number, _: pass_on(process, number))
    said = []
    while True:
        part = os.read(read_end, 1 << 16)
        if not part:
            break
        said.append(part)
        os.write(2, part)
    ended = os.waitpid(process, 0)[1]
    return ended, b"".join(said)


def pass_on(process: int, number: int) -> None:
    try:
        os.kill(process, number)
    except ProcessLookupError:
        pass


def end_as(ended: int) -> int:
    """The status, or the same signal."""
    if os.WIFSIGNALED(ended):
        number = os.WTERMSIG(ended)
        signal.signal(number, signal.SIG_DFL)
        os.kill(os.getpid(), number)
    return os.WEXITSTATUS(ended)


def explain(script: Script, said: bytes) -> None:
    import re

    found = re.search(BAD_LINE, said, re.M)
    if found:
        import explain_fault

        number, cause = int(found[1]), found[2].decode()
        for line in explain_fault.explanation(script.text(), number, cause):
            print(line, file=sys.stderr)


def become(program: str, words: list[str]) -> None:
    """Starts the program in the place of this one."""
    for number in IGNORED:
        signal.signal(number, signal.SIG_DFL)
    os.execv(program, [program, *words])


def play(program: str, words: list[str], limit: int, bad_script: int) -> int:
    """Plays the script, and gives the program's status."""
    if os.isatty(0):
        print("replay: reads a script from the terminal, up to its end (Ctrl-D)", file=sys.stderr)
    try:
        script = Script(limit)
    except OSError:
        # Standard input is closed, say: the program has a status for that.
        become(program, words)
    ended, said = run(program, words)
    if os.WIFEXITED(ended) and os.WEXITSTATUS(ended) == bad_script:
        explain(script, said)
    return end_as(ended)
