"""Lines of a transcript with their numbers, and what is said of them where a law is broken."""
from __future__ import annotations

import io
from itertools import islice
from typing import Container, Iterator, NamedTuple

import explain_fault

# What is longer is cut off where it is shown: lines of messages, and what names very many nodes.
MOST_SHOWN = 500
MOST_NODES = 16
HEADER_WORDS = tuple(word.encode() for word in explain_fault.HEADER_WORDS)


class Line(NamedTuple):
    """A line of a transcript: its number from 1, and its word with its fields, as docs/FORMATS.md has them."""

    number: int
    fields: list[str]

    @property
    def word(self) -> str:
        return self.fields[0]

    @property
    def node(self) -> str:
        """The node of a line whose first field is one."""
        return self.fields[1]

    @property
    def key(self) -> str:
        """The key of the view, of a line of a view."""
        return self.fields[2]

    @property
    def digest(self) -> str:
        """The record of a line that ends with a version."""
        return self.fields[-2]

    @property
    def version(self) -> str:
        return self.fields[-1]

    @property
    def partition(self) -> int:
        """The partition of a line `settled`, `learn`, `drop` or `map`."""
        return int(self.fields[3])

    @property
    def transaction(self) -> str:
        """The transaction of a line `apply` or `done`."""
        return self.fields[3]

    def shown(self) -> str:
        return shown(self.number, " ".join(self.fields).encode())


class Fact(NamedTuple):
    """Something that lines of the transcript say, and which lines; without a text the lines say it alone."""

    text: str
    lines: list[Line]


class Finding(NamedTuple):
    """What parts where a law is broken, and the facts that contradict one another."""

    what: str
    facts: list[Fact]


def cut(text: str) -> str:
    return text if len(text) <= MOST_SHOWN else f"{text[:MOST_SHOWN]}.."


def shown(number: int, text: bytes) -> str:
    return cut(f"line {number}: {explain_fault.printable(text[: MOST_SHOWN + 1])}")


def lines_of(transcript: bytes, words: Container[bytes], most: int) -> Iterator[Line]:
    """Of the first so many lines those that begin with one of the words."""
    for number, text in enumerate(islice(io.BytesIO(transcript), most), 1):
        if text.split(b" ", 1)[0] in words:
            yield line_of(number, text)


def line_of(number: int, text: bytes) -> Line:
    return Line(number, text.rstrip(b"\n").decode(errors="replace").split(" "))


def line_at(transcript: bytes, number: int) -> bytes:
    """The text of the line of that number, without its line feed; nothing where there is none."""
    return next(islice(io.BytesIO(transcript), number - 1, number), b"").rstrip(b"\n")


def first_behind_header(transcript: bytes) -> Line | None:
    """The first line that isn't one of a header."""
    for number, text in enumerate(io.BytesIO(transcript), 1):
        if text.split(b" ", 1)[0] not in HEADER_WORDS:
            return line_of(number, text)
    return None


def told(finding: Finding, number: int) -> list[str]:
    """The finding in words, with its lines but the one of that number, which is shown above."""
    texts = [f"replay: {cut(finding.what)}"]
    for fact in finding.facts:
        texts += [f"    {cut(fact.text)}"] if fact.text else []
        indent = "        " if fact.text else "    "
        texts += [f"{indent}{line.shown()}" for line in fact.lines if line.number != number]
    return texts


def listed(parts: list[str]) -> str:
    return f"{', '.join(parts[:-1])} and {parts[-1]}" if len(parts) > 1 else parts[0]


def nodes_in_words(nodes: list[str]) -> str:
    """One node, or some of them, by their ids."""
    more = len(nodes) - MOST_NODES
    named = [*nodes[:MOST_NODES], f"{more} more"] if more > 1 else nodes
    return f"node{'' if len(nodes) == 1 else 's'} {listed(named)}"
