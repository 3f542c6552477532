"""A script that the program has played, as its lines: the header, and the commands with the keys that they name; and a
copy of it with a mark before each command.

A mark is the command `hash` of a digest that the script doesn't write. It changes nothing and writes one line, so the
lines between two marks of the copy's transcript are those that the command between them brought about.
"""
from __future__ import annotations

from typing import Iterable, Iterator, NamedTuple

import explain_fault

# Before a line feed one carriage return is passed over. So with this end each line is read as it stands, also a last
# one whose carriage return has no line feed behind it.
END = b"\r\n"


class Entry(NamedTuple):
    """A line of the script that isn't passed over: its number from 1, its first field, and all its fields."""

    number: int
    word: str
    fields: list[bytes]

    @property
    def is_header(self) -> bool:
        return self.word in explain_fault.HEADER_WORDS

    @property
    def key(self) -> bytes | None:
        """The key that it names, as it writes it."""
        form = explain_fault.FORMS.get(self.word, "").split()
        return self.fields[1 + form.index("KEY")] if "KEY" in form else None

    def text(self) -> str:
        return " ".join(explain_fault.printable(field) for field in self.fields)


class Mark(NamedTuple):
    """The digest that marks places, and how the line of a mark begins."""

    digest: bytes
    line: bytes


def entries_of(script: bytes) -> list[Entry]:
    return list(read_entries(script))


def read_entries(script: bytes) -> Iterator[Entry]:
    lines = script.split(b"\n")
    for number, line in enumerate(lines, 1):
        text = explain_fault.without_return(line) if number < len(lines) else line
        fields = text.replace(b"\t", b" ").split(b" ")
        fields = [field for field in fields if field]
        if fields and not fields[0].startswith(b";"):
            yield Entry(number, fields[0].decode(), fields)


def keys_of(entries: list[Entry]) -> list[bytes]:
    """The keys that are named, in the order in which they first are."""
    return list(dict.fromkeys(entry.key for entry in entries if entry.key is not None))


def nodes_of(entries: list[Entry]) -> list[str]:
    """The declared nodes, each as a transcript writes it."""
    return [str(int(entry.fields[1])) for entry in entries if entry.word == "node"]


def mark_for(script: bytes) -> Mark:
    """A mark whose digest the script doesn't write."""
    written = script.lower()
    number = 0
    while b"%040x" % number in written:
        number += 1
    return Mark(b"#%040x" % number, b"hash %040x " % number)


def marked(entries: list[Entry], mark: Mark, asked: Iterable[bytes]) -> bytes:
    """The script with a mark before each command and behind the last one, and then what is asked besides."""
    lines = []
    for entry in entries:
        if not entry.is_header:
            lines.append(b"hash " + mark.digest)
        lines.append(b" ".join(entry.fields))
    return END.join([*lines, b"hash " + mark.digest, *asked, b""])
