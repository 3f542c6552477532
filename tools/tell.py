"""Tells a run for people: each line of the script, and below it what it brought about, with the numbers of the
transcript's lines in brackets; then a few counts (docs/TELL.md)."""
from __future__ import annotations

import os
import signal
import sys
from collections import Counter
from typing import Callable, Iterable, Iterator

import explain_fault
import tell_record
import tell_run
import tell_words
from tell_reading import Reading, Unread
from tell_records import given_up_though_done

DONE = 0
WRITE_FAULT = 5
DIGITS = 40
HEXADECIMAL = b"0123456789abcdefABCDEF"
CAUSES = ("down", "noview", "exchanging", "notmaster", "busy")


def key_of(word: str) -> bytes | None:
    """The key that a word names: as a script writes it, or as its digest's forty hexadecimal digits alone."""
    key = os.fsencode(word)
    if len(key) == DIGITS and not set(key) - set(HEXADECIMAL):
        return b"#" + key
    form = key[1:] if key.startswith(b"#") else b"0" * DIGITS
    is_digest = len(form) == DIGITS and not set(form) - set(HEXADECIMAL)
    try:
        key.decode()
    except UnicodeDecodeError:
        return None
    return key if key and is_digest and not set(key) & set(b" \t\n") else None


def tell(program: str, limits: tell_run.Limits, is_all: bool) -> int:
    """Tells the script on standard input."""
    return answer(limits, lambda: show_run(tell_run.run_of(program, limits, is_all)))


def explain(program: str, limits: tell_run.Limits, key: bytes, not_named: int) -> int:
    """Tells what became of one record of it; a record that no line names ends with that status."""
    return answer(limits, lambda: show_record(tell_run.run_of(program, limits, False, key), not_named))


def answer(limits: tell_run.Limits, tells: Callable[[], int]) -> int:
    """The status of what tells, also where nothing can be told."""
    try:
        return tells()
    except tell_run.Stopped as stopped:
        why, status = str(stopped), stopped.status
    except Unread:
        why, status = "the transcript isn't as it is read, so nothing is told: a fault of ./replay", limits.not_told
    if why:
        print(f"replay: {why}", file=sys.stderr)
    return status


def show_run(run: tell_run.Run) -> int:
    return write(told(run, Reading(run)))


def show_record(run: tell_run.Run, not_named: int) -> int:
    story = tell_record.Story(run, Reading(run))
    if not story.is_named:
        print(f"replay: no line of the script names {explain_fault.printable(run.names[0].key)}", file=sys.stderr)
        return not_named
    return write(story.told())


def write(lines: Iterable[str]) -> int:
    """Writes the lines, and gives the program's status for that. A reader that has gone ends this as it ends the
    program."""
    signal.signal(signal.SIGPIPE, signal.SIG_DFL)
    text = "".join(f"{line}\n" for line in lines).encode()
    try:
        with open(1, "wb", closefd=False) as output:
            output.write(text)
    except OSError:
        print("write fault", file=sys.stderr)
        return WRITE_FAULT
    return DONE


def told(run: tell_run.Run, reading: Reading) -> Iterator[str]:
    words = tell_words.Words(reading)
    yield tell_words.LEGEND
    yield ""
    for block in run.blocks:
        echoes = [line.number for line in block.lines if tell_words.is_echo(block, line)]
        behind = f" {tell_words.numbered(echoes)}" if echoes else ""
        yield f"line {block.entry.number}: {block.entry.text()}{behind}"
        for line in words.told(block):
            yield f"  {line.text} {tell_words.numbered(line.numbers)}"
    yield ""
    yield from counted(reading, words)


def counted(reading: Reading, words: tell_words.Words) -> Iterator[str]:
    """What the run comes to, one count in a line."""
    requests = reading.requests
    ended = Counter(request.ended or "open" for request in requests)
    answers = [request for request in requests if request.ended == "value"]
    refused = Counter(reading.refusals)
    causes = [f"{cause} {refused[cause]}" for cause in CAUSES if refused[cause]]
    yield f"requests asked: {reading.asked}"
    yield f"  writes done: {ended['done']}"
    yield f"  writes in doubt: {ended['doubt']}"
    yield f"  reads answered: {len(answers)}, with no version: {sum(request.version is None for request in answers)}"
    yield f"  aborted: {ended['aborted']}"
    yield f"  refused: {len(reading.refusals)}{': ' if causes else ''}{', '.join(causes)}"
    yield f"  without a table: {reading.without_table}"
    yield f"  open at the end: {ended['open']}"
    yield from losses(reading, words)


def losses(reading: Reading, words: tell_words.Words) -> Iterator[str]:
    given_up = given_up_though_done(reading.records.values())
    yield f"acknowledged writes given up: {len(given_up)}"
    for request, _ in given_up:
        name = words.record(request.digest)
        yield f"  line {request.script_line}: {name}, {request.version}"
    stranded = reading.on_stopped_nodes_only()
    yield f"records whose newest version is on stopped nodes only: {len(stranded)}"
    for record in stranded:
        where = tell_words.nodes_of(record.holders(record.best))
        yield f"  {words.record(record.digest)}, {words.version(record, record.best)}: {where}"
