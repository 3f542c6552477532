"""The header of a transcript, its views, and which node is in which, up to a line of it."""
from __future__ import annotations

from typing import Iterable

from explain_lines import Line
from explain_lists import Member, list_of, members_of

# The words of the lines that this is read from.
WORDS = (b"factor", b"policy", b"node", b"enter", b"stop")


class View:
    """A view: its key, its members as its first entry names them, and the line by which each of them entered it."""

    def __init__(self, first: Line):
        self.first, self.key = first, first.key
        self.members = members_of(first.fields[3])
        self.entered: dict[str, Line] = {}
        self.lists: dict[int, list[Member]] = {}

    def list_of(self, partition: int) -> list[Member]:
        if partition not in self.lists:
            self.lists[partition] = list_of(self.members, partition)
        return self.lists[partition]

    def nodes(self, partition: int) -> list[str]:
        """The nodes of the partition's list."""
        return [str(member.id) for member in self.list_of(partition)]

    def master(self, partition: int) -> str:
        """The list master."""
        return next(iter(self.nodes(partition)), "")

    def absent(self) -> list[str]:
        """The members that haven't entered."""
        return [str(member.id) for member in self.members if str(member.id) not in self.entered]


class Frame:
    """What lines from the first one on say of the header, the views and the nodes in them."""

    def __init__(self, lines: Iterable[Line]):
        self.policy, self.factor = "time", 1
        self.declared: dict[str, Line] = {}
        self.views: dict[str, View] = {}
        # Of each node that is in a view the view's key, and of each that ever entered one its last entry.
        self.view_of: dict[str, str] = {}
        self.last_entry: dict[str, Line] = {}
        for line in lines:
            self.read(line)

    def read(self, line: Line) -> None:
        if line.word == "factor":
            self.factor = int(line.fields[1])
        elif line.word == "policy":
            self.policy = line.fields[1]
        elif line.word == "node":
            self.declared.setdefault(line.node, line)
        elif line.word == "stop":
            self.view_of.pop(line.node, None)
        elif line.word == "enter":
            self.enter(line)

    def enter(self, line: Line) -> None:
        if line.key not in self.views:
            self.views[line.key] = View(line)
        self.views[line.key].entered.setdefault(line.node, line)
        self.view_of[line.node] = line.key
        self.last_entry[line.node] = line

    def replicas(self, view: View, partition: int) -> list[str]:
        return view.nodes(partition)[: self.factor]


def key_order(key: str) -> tuple[int, ...]:
    """Keys compare by the number of their round, and then by their principal."""
    return tuple(map(int, key.split(".")))
