"""Draws the transcript on standard input as a page of HTML: which node was in which view and when, what became of requests
and partitions, and, of one record, each of its versions (docs/TIMELINE.md). It starts no program."""
from __future__ import annotations

import gc
import os
import sys
from typing import NamedTuple

import explain_fault
import explain_verdict
import play_script
import tell
import timeline_digest
from timeline_layout import Range, drawn_range
from timeline_lines import NoTranscript, Transcript
from timeline_page import Page, Source
from timeline_reading import Reading
from timeline_records import Life, count_given_up

# As the program ends where it can't read a transcript.
NO_MEMORY, READ_FAULT, TOO_LONG, NO_TRANSCRIPT = 1, 4, 8, 9


class Asked(NamedTuple):
    """What is asked for: the file's name or none; the key of one record, and whether that is so only since there is no file
    of that name; and the lines that are to be drawn."""

    file: str | None
    key: bytes | None = None
    is_key_alone: bool = False
    drawn: Range | None = None


class Stopped(Exception):
    """Nothing is drawn: the status to end with, and what is said of it."""

    def __init__(self, status: int, *said: str):
        super().__init__(*said)
        self.status, self.said = status, said


class Statuses(NamedTuple):
    """The statuses of ./replay's own for a key that no line names and for words that can't be taken."""

    not_named: int
    bad_words: int


def draw(asked: Asked, limit: int, statuses: Statuses) -> int:
    """Draws the transcript on standard input, and gives the status."""
    # The process ends soon: what is let go needn't be looked for.
    gc.disable()
    try:
        page = page_of(read(limit), asked, statuses)
    except MemoryError:
        print("no memory", file=sys.stderr)
        return NO_MEMORY
    except Stopped as stopped:
        print(*stopped.said, sep="\n", file=sys.stderr)
        return stopped.status
    return tell.write([page])


def read(limit: int) -> bytes:
    """The bytes on standard input, which are to be no more than the limit."""
    if os.isatty(0):
        print("replay: reads a transcript from the terminal, up to its end (Ctrl-D)", file=sys.stderr)
    try:
        found = play_script.read_up_to(0, limit + 1)
    except OSError:
        raise Stopped(READ_FAULT, "read fault")
    if len(found) > limit:
        raise Stopped(TOO_LONG, "transcript too long")
    return found


def page_of(found: bytes, asked: Asked, statuses: Statuses) -> str:
    transcript = Transcript(found)
    try:
        reading = Reading(transcript)
    except NoTranscript as none:
        raise Stopped(NO_TRANSCRIPT, str(none), *explain_verdict.explain_none(found, none.number))
    if asked.drawn and asked.drawn.first > reading.last:
        first, last = asked.drawn
        said = f"replay: --lines {first}..{last} has no line of the transcript, whose last one is {reading.last}"
        raise Stopped(statuses.bad_words, f"{said}. ./replay --help has the usage")
    return page(transcript, reading, asked, statuses).html()


def page(transcript: Transcript, reading: Reading, asked: Asked, statuses: Statuses) -> Page:
    drawn = drawn_range(reading, asked.drawn)
    if asked.key is None:
        is_told = count_given_up(reading, transcript.line)
        return Page(transcript, reading, Source(asked.file), asked.drawn, drawn, None, is_told)
    digest, key = timeline_digest.digest_of(asked.key), asked.key.decode()
    if not transcript.names(digest):
        named = f"replay: no line of the transcript names {explain_fault.printable(asked.key)}"
        raise Stopped(statuses.not_named, named + (", and there is no file of that name" if asked.is_key_alone else ""))
    life = Life(reading, transcript.line, asked.key, digest)
    return Page(transcript, reading, Source(asked.file, key), asked.drawn, drawn, life, life.is_told)
