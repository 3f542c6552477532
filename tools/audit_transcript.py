"""Has the program judge the transcript on standard input, and says in words what its answer means. Behind a verdict it
says what the transcript has of lines, nodes and views, and where its last `calm` is, since a verdict says nothing of what
is left out.
"""
from __future__ import annotations

import os
import re
import signal
import sys

import play_script

VIEW = re.compile(rb"^enter \d+ (\S+)", re.M)
NODE = re.compile(rb"^node ", re.M)
CALM = re.compile(rb"^calm \d+$", re.M)
NOT_A_TRANSCRIPT = re.compile(rb"^line (\d+): not a transcript\n", re.M)


def counted(count: int, what: str) -> str:
    return f"{count} {what}{'' if count == 1 else 's'}"


def extent(transcript: bytes) -> str:
    """How much there is of it, and where its last `calm` is."""
    lines = transcript.count(b"\n")
    nodes, views = len(NODE.findall(transcript)), len(set(VIEW.findall(transcript)))
    has = f"{counted(lines, 'line')}, {counted(nodes, 'node')} and {counted(views, 'view')}"
    return f"the transcript has {has}, and {last_calm(transcript, lines)}"


def last_calm(transcript: bytes, lines: int) -> str:
    starts = [found.start() for found in CALM.finditer(transcript)]
    if not starts:
        return "no calm line"
    number = transcript.count(b"\n", 0, starts[-1]) + 1
    if number == lines:
        return "ends with a calm"
    return f"its last calm is line {number}, with {counted(lines - number, 'line')} behind it"


def verdict_of(program: str, words: list[str], begin: int) -> str:
    """The program's verdict once more: the first one went to standard output, whatever that is."""
    import subprocess

    for number in play_script.PASSED_ON:
        signal.signal(number, signal.SIG_DFL)
    os.lseek(0, begin, os.SEEK_SET)
    how = {"stdout": subprocess.PIPE, "stderr": subprocess.DEVNULL}
    return subprocess.run([program, *words], **how).stdout.decode(errors="replace")


def explained(program: str, words: list[str], transcript: play_script.Script, said: bytes, is_broken: bool) -> list[str]:
    """What is to be shown behind what the program said, of a law that is broken and of bytes that are no transcript."""
    none = NOT_A_TRANSCRIPT.search(said)
    if not (none or is_broken):
        return []
    import explain_verdict

    if none:
        return explain_verdict.explain_none(transcript.text(), int(none[1]))
    return explain_verdict.explain_law(transcript.text(), verdict_of(program, words, transcript.begin))


def audit(program: str, words: list[str], limit: int, holds: int, fails: int) -> int:
    """Gives the program's status. `holds` and `fails` are those with a verdict."""
    try:
        transcript = play_script.Script(limit)
    except OSError:
        # Standard input is closed, say: the program has a status for that.
        play_script.become(program, words)
    ended, said = play_script.run(program, words)
    status = os.WEXITSTATUS(ended) if os.WIFEXITED(ended) else None
    for line in explained(program, words, transcript, said, status == fails):
        print(line, file=sys.stderr)
    if status in (holds, fails):
        print(f"replay: {extent(transcript.text())}", file=sys.stderr)
    return play_script.end_as(ended)
