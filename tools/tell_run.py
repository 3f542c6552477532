"""Has the program play the script on standard input, and gives its transcript by what each command brought about.

The program plays the script, and then a copy of it with marks (tell_script). Without the lines of the marks the copy's
transcript is to be that of the script, byte for byte; otherwise nothing is told. Behind the last mark the copy asks for
what no line of the script may have asked: the digest of each key, and what the stores hold at the end.
"""
from __future__ import annotations

import mmap
import os
import re
import signal
import sys
from functools import cache
from typing import Iterator, NamedTuple, Union

import play_script
import tell_script

# A transcript: two of them may take a gigabyte, of which only what is looked at is read.
Text = Union[mmap.mmap, bytes]
# A line behind which a node may hold another version: the node of either kind, and the digest.
CHANGE = re.compile(rb"\n(?:apply (\d+) \S+ \d+|merge (\d+) \S+) ([0-9a-f]{40}) ")
# Kinds of lines that are passed over unless all are asked for: ticks, messages, and what becomes of messages.
QUIET = ("sent", "deliver", "tick", "blocked", "full", "repeat", "cut", "lost", "nomessage", "short", "stale", "spent")
# Where a command is about one message, its lines of these kinds are passed over alone.
OF_ONE_MESSAGE = ("deliver", "repeat", "lose", "cut")
QUIET_OF_ONE = ("tick", "sent", "full")


class Line(NamedTuple):
    """A line of the transcript: its number from 1, and its fields."""

    number: int
    fields: list[str]

    @property
    def kind(self) -> str:
        return self.fields[0]


class Block(NamedTuple):
    """A line of the script, with the lines of the transcript that it brought about and that aren't passed over."""

    entry: tell_script.Entry
    lines: list[Line]


class Name(NamedTuple):
    """A key as it is written, its digest and its partition."""

    key: bytes
    digest: str
    partition: str


class Held(NamedTuple):
    """What the store of a node holds of a record at the end, as the program says it: a version or `none`."""

    node: str
    digest: str
    version: str


class Run(NamedTuple):
    blocks: list[Block]
    names: list[Name]
    held: list[Held]


class Stopped(Exception):
    """The run can't be told: the status to end with, and why where the program hasn't said it."""

    def __init__(self, status: int, why: str = ""):
        super().__init__(why)
        self.status = status


class Limits(NamedTuple):
    """What ./replay knows of the program and of its own statuses."""

    script: int
    bad_script: int
    not_told: int


def output_of(program: str) -> tuple[int, bytes, Text]:
    """Runs the program on standard input; gives how it ended, what it said of faults, and its transcript."""
    made = os.memfd_create("transcript")
    ended, said = play_script.run(program, [], made)
    for number in play_script.PASSED_ON:
        signal.signal(number, signal.default_int_handler if number == signal.SIGINT else signal.SIG_DFL)
    # An empty file can't be mapped.
    text = mmap.mmap(made, 0, access=mmap.ACCESS_READ) if os.fstat(made).st_size else b""
    os.close(made)
    return ended, said, text


def played(program: str, limits: Limits) -> tuple[bytes, Text]:
    """The script on standard input and its transcript. A bad line is shown as ./replay shows it."""
    if os.isatty(0):
        print("replay: reads a script from the terminal, up to its end (Ctrl-D)", file=sys.stderr)
    try:
        script = play_script.Script(limits.script)
    except OSError:
        # Standard input is closed, say: the program has a status for that.
        play_script.become(program, [])
    ended, said, transcript = output_of(program)
    if os.WIFEXITED(ended) and os.WEXITSTATUS(ended) == limits.bad_script:
        play_script.explain(script, said)
    if ended:
        raise Stopped(play_script.end_as(ended))
    return script.text(), transcript


def played_copy(program: str, copy: bytes) -> Text:
    os.dup2(play_script.file_of(copy), 0)
    ended, _, transcript = output_of(program)
    if ended:
        why = "the script can be played, but its copy with marks, which is longer, can't: nothing is told"
        raise Stopped(play_script.end_as(ended), why)
    return transcript


def run_of(program: str, limits: Limits, is_all: bool, key: bytes | None = None) -> Run:
    """The run of the script on standard input. Where a key is given, its name comes first, and all nodes show it."""
    script, transcript = played(program, limits)
    entries = tell_script.entries_of(script)
    keys = tell_script.keys_of(entries)
    asked_keys = keys if key is None else [key, *keys]
    pairs = holders_in(transcript)
    shows = [b"show %b #%b" % pair for pair in pairs]
    if key is not None:
        shows += [b"show %b %b" % (node.encode(), key) for node in tell_script.nodes_of(entries)]
    mark = tell_script.mark_for(script)
    asked = [b"hash " + key for key in asked_keys] + shows
    copy = played_copy(program, tell_script.marked(entries, mark, asked))
    reader = Reader(transcript, copy, mark, limits, is_all)
    blocks = list(reader.blocks(entries))
    names = [Name(key, *reader.answer("hash")) for key in asked_keys]
    held = [Held(*reader.answer("holds")) for _ in shows]
    reader.expect_end()
    return Run(blocks, names, held)


def holders_in(transcript: Text) -> list[tuple[bytes, bytes]]:
    """Each node and digest of an `apply` or `merge` line: no other node ever held anything of a record."""
    found = (match.groups() for match in CHANGE.finditer(transcript))
    return list(dict.fromkeys((applied or merged, digest) for applied, merged, digest in found))


@cache
def passed_over(word: str) -> tuple[bytes, ...]:
    """How the lines begin that are passed over below a command of that word."""
    kinds = QUIET_OF_ONE if word in OF_ONE_MESSAGE else [kind for kind in QUIET if kind != word]
    return tuple(b"%b " % kind.encode() for kind in kinds)


class Reader:
    """Goes along both transcripts at once: that of the script, and that of its copy with the marks."""

    def __init__(self, transcript: Text, copy: Text, mark: tell_script.Mark, limits: Limits, is_all: bool):
        self.transcript, self.copy, self.mark = transcript, copy, mark.line
        self.limits, self.is_all = limits, is_all
        # How far both are read, and how many lines of the transcript.
        self.place = self.place_in_copy = self.number = 0

    def part(self) -> Stopped:
        return Stopped(self.limits.not_told, "the marks changed the run, so nothing is told: a fault of ./replay")

    def blocks(self, entries: list[tell_script.Entry]) -> Iterator[Block]:
        header = [entry for entry in entries if entry.is_header]
        lines = list(self.until_mark(()))
        if len(lines) != len(header):
            raise self.part()
        yield from (Block(entry, [line]) for entry, line in zip(header, lines))
        for entry in entries[len(header) :]:
            yield Block(entry, list(self.until_mark(() if self.is_all else passed_over(entry.word))))
        if self.place != len(self.transcript):
            raise self.part()

    def until_mark(self, begins: tuple[bytes, ...]) -> Iterator[Line]:
        """The lines before the next mark, each of which stands in both transcripts, but those that begin so."""
        text = self.copy[self.place_in_copy : self.next_mark()]
        if self.transcript[self.place : self.place + len(text)] != text:
            raise self.part()
        self.place += len(text)
        self.place_in_copy += len(text)
        self.next_line()
        for self.number, line in enumerate(text.split(b"\n")[:-1], self.number + 1):
            if not line.startswith(begins):
                yield Line(self.number, line.decode().split())

    def next_mark(self) -> int:
        """Where the next mark's line begins."""
        if self.copy[self.place_in_copy : self.place_in_copy + len(self.mark)] == self.mark:
            return self.place_in_copy
        found = self.copy.find(b"\n" + self.mark, self.place_in_copy)
        if found < 0:
            raise self.part()
        return found + 1

    def next_line(self) -> bytes:
        """The copy's next line, which is then read."""
        end = self.copy.find(b"\n", self.place_in_copy) + 1
        line = self.copy[self.place_in_copy : end]
        self.place_in_copy = end or len(self.copy)
        return line

    def answer(self, kind: str) -> list[str]:
        fields = self.next_line().decode().split()
        if fields[:1] != [kind]:
            raise self.part()
        return fields[1:]

    def expect_end(self) -> None:
        if self.place_in_copy != len(self.copy):
            raise self.part()
