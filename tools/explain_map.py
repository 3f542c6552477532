"""How a `map` line breaks the law `onemap`: which list or acting master the members and their copies give instead."""
from __future__ import annotations

from typing import NamedTuple

from explain_lines import Fact, Finding, Line, lines_of
from explain_lists import partition_of
from explain_views import WORDS as OF_VIEWS
from explain_views import Frame, View, key_order

WORDS = (b"apply", b"merge", b"drop", b"enter", b"exchanged", b"learn", b"map")


class Row(NamedTuple):
    """The state of a copy as its node entered a view: whether it has records, and the line that made it whole, of the
    view by whose key it is whole."""

    has_records: bool
    stamp: Line | None

    @property
    def key(self) -> str | None:
        return self.stamp.key if self.has_records and self.stamp else None


class Rows:
    """The rows of all nodes in all views, and the maps that were shown of one view, for one partition."""

    def __init__(self, frame: Frame, view: View, partition: int):
        self.frame, self.view, self.partition = frame, view, partition
        self.holders: set[str] = set()
        self.stamps: dict[str, Line] = {}
        self.rows: dict[tuple[str, str], Row] = {}
        # The views that all members have entered, and whether none of them had a record as it entered.
        self.empty: dict[str, bool] = {}
        self.maps: list[Line] = []

    def read(self, line: Line) -> None:
        if line.word in ("apply", "merge"):
            if partition_of(line.digest) == self.partition:
                self.holders.add(line.node)
        elif line.word == "enter":
            row = Row(line.node in self.holders, self.stamps.get(line.node))
            self.rows.setdefault((line.key, line.node), row)
        elif line.word == "exchanged":
            if self.begins_whole(line):
                self.stamps[line.node] = line
        elif line.partition == self.partition:
            self.read_own(line)

    def read_own(self, line: Line) -> None:
        """A line of this partition."""
        if line.word == "learn":
            self.stamps[line.node] = line
        elif line.word == "drop":
            self.holders.discard(line.node)
            self.stamps.pop(line.node, None)
        elif line.key == self.view.key:
            self.maps.append(line)

    def begins_whole(self, line: Line) -> bool:
        """Whether no member of the view had a record as it entered, and the node is a replica there."""
        view = self.frame.views.get(line.key)
        return bool(view and self.is_empty(view) and line.node in self.frame.replicas(view, self.partition))

    def is_empty(self, view: View) -> bool:
        if view.key not in self.empty:
            rows = [self.rows.get((view.key, str(member.id))) for member in view.members]
            if None in rows:
                return False
            self.empty[view.key] = not any(row.has_records for row in rows)
        return self.empty[view.key]

    def row(self, node: str) -> Row:
        return self.rows.get((self.view.key, node), Row(False, None))

    def acting(self) -> str:
        """The member whose copy is whole by the greatest key, of several the first in the list; else the list master."""
        nodes = self.view.nodes(self.partition)
        wholes = [node for node in nodes if self.row(node).key]
        return max(wholes, key=lambda node: key_order(self.row(node).key or ""), default=self.view.master(self.partition))


def find(transcript: bytes, line: Line) -> Finding | None:
    if line.word != "map":
        return None
    frame = Frame(lines_of(transcript, OF_VIEWS, line.number))
    view = frame.views.get(line.key)
    if view is None:
        return None
    rows = Rows(frame, view, line.partition)
    for other in lines_of(transcript, WORDS, line.number - 1):
        rows.read(other)
    facts = [*of_list(rows, line), *of_acting(rows, line)]
    if not facts:
        return None
    what = f"it shows in the map of partition {line.partition} in the view {line.key}:"
    return Finding(what, [*facts, *of_others(rows)])


def of_list(rows: Rows, line: Line) -> list[Fact]:
    """The two lists, where they differ."""
    given = ",".join(member.text for member in rows.view.list_of(line.partition))
    if line.fields[4] == given:
        return []
    return [
        Fact(f"node {line.node} shows the list {line.fields[4]}", [line]),
        Fact(f"the members, by their ranks in this partition, give the list {given}", [rows.view.first]),
    ]


def of_acting(rows: Rows, line: Line) -> list[Fact]:
    """The two acting masters, where they differ."""
    shown, acting = line.fields[5], rows.acting()
    if shown == acting:
        return []
    return [
        Fact(f"node {line.node} shows that node {shown} acts; {of_row(rows, shown)}", lines_of_row(rows, shown)),
        Fact(f"node {acting} acts: {why_acting(rows, acting)}", lines_of_row(rows, acting)),
    ]


def why_acting(rows: Rows, node: str) -> str:
    key = rows.row(node).key
    if key is None:
        return "it is the list master, and no member's copy was known to be whole as it entered the view"
    several = sum(rows.row(other).key == key for other in rows.view.nodes(rows.partition)) > 1
    first = ", and it is the first of them in the list" if several else ""
    return f"its copy was whole by the key {key} as it entered the view, the greatest key of a whole copy{first}"


def of_row(rows: Rows, node: str) -> str:
    """The state of the copy of the node that a map shows, where it is a member."""
    if node not in rows.view.nodes(rows.partition):
        return "that is no member"
    row = rows.row(node)
    if not row.has_records:
        return "that one had no record of the partition as it entered the view"
    if row.key is None:
        return "that one's copy wasn't known to be whole as it entered the view"
    return f"that one's copy was whole by the key {row.key} as it entered the view"


def lines_of_row(rows: Rows, node: str) -> list[Line]:
    """The line that made the copy whole, and the node's entry."""
    entry, row = rows.view.entered.get(node), rows.row(node)
    return [line for line in (row.stamp if row.key else None, entry) if line]


def of_others(rows: Rows) -> list[Fact]:
    """The first map of the same partition and view, which was right."""
    return [
        Fact(f"node {other.node} showed the list {other.fields[4]}, and that node {other.fields[5]} acts", [other])
        for other in rows.maps[:1]
    ]
