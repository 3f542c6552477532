"""How a line breaks the law `shape`: which node, view or line before it speaks against it."""
from __future__ import annotations

from typing import Callable, Iterator, Optional

from explain_fault import HEADER_WORDS
from explain_lines import Fact, Finding, Line, first_behind_header, lines_of, nodes_in_words
from explain_lists import members_of
from explain_views import WORDS, Frame

# Which fields of a line name nodes, by its word: a node (N), an end of a message (E), a list of members (M), the first
# field of a cause or a reply (C), or none (-). Lines of other words name none, but that `groups` names all.
NAMES = {
    "node": "N", "clock": "N", "tick": "N", "stop": "N", "start": "N", "down": "N", "up": "N", "quiesce": "N",
    "unquiesce": "N", "promise": "N", "exchanged": "N", "opened": "N", "value": "N", "apply": "N", "done": "N",
    "aborted": "N", "doubt": "N", "merge": "N", "handed": "N", "settled": "N", "learn": "N", "drop": "N", "holds": "N",
    "client": "N", "unproxied": "N", "enter": "N-M", "map": "N--MN", "place": "-M", "mapless": "NC", "refused": "N-C",
    "deliver": "-EE", "repeat": "-EE", "cut": "-EE", "sent": "-EE", "short": "E", "stale": "E", "spent": "E",
    "proxy": "N----N", "proxied": "N--C", "call": "-N", "again": "-N", "reply": "-NC", "scan": "-N", "scanned": "-N",
    "unscanned": "-C",
}
# Lines that name a view which their node has entered before, and of these the ones that stand behind all entries.
IN_VIEW = ("exchanged", "opened", "value", "apply", "merge", "done", "settled", "learn", "drop", "map")
BEHIND_ENTRIES = ("exchanged", "map")
CLIENT = "0"

Check = Callable[[bytes, Frame, Line], Optional[Finding]]


def named_by(kind: str, fields: list[str]) -> list[str]:
    """The nodes that a field of this kind names, where the fields begin with it."""
    if kind == "N":
        return fields[:1]
    if kind == "E":
        return [end for end in fields[:1] if end != CLIENT]
    if kind == "M":
        return [str(member.id) for member in members_of(fields[0])]
    cause = fields[1:] if fields[0] == "refused" else fields
    return cause[1:2] if cause[:1] in (["exchanging"], ["notmaster"]) else []


def nodes_named(line: Line) -> Iterator[str]:
    """The nodes that a line names, in the order of its fields."""
    if line.word == "groups":
        yield from (field for field in line.fields[1:] if field != "|")
    for place, kind in enumerate(NAMES.get(line.word, ""), 1):
        if kind != "-":
            yield from named_by(kind, line.fields[place:])


# ---- what the law asks of a line, behind the lines before it


def stands_behind_others(transcript: bytes, before: Frame, line: Line) -> Finding | None:
    first = first_behind_header(transcript) if line.word in HEADER_WORDS else None
    if first is None or first.number > line.number:
        return None
    return Finding("it is a line of a header, and stands behind one that is none:", [Fact("", [first])])


def is_declared_before(transcript: bytes, before: Frame, line: Line) -> Finding | None:
    if line.word != "node" or line.node not in before.declared:
        return None
    return Finding(f"node {line.node} is declared already:", [Fact("", [before.declared[line.node]])])


def names_undeclared(transcript: bytes, before: Frame, line: Line) -> Finding | None:
    declared = [*before.declared, *(line.fields[1:2] if line.word == "node" else [])]
    unknown = list(dict.fromkeys(node for node in nodes_named(line) if node not in declared))
    if not unknown:
        return None
    isnt = "isn't" if len(unknown) == 1 else "aren't"
    known = f"the lines before it declare {nodes_in_words(declared)}" if declared else "no line before it declares a node"
    return Finding(f"{nodes_in_words(unknown)}, which it names, {isnt} declared: {known}", [])


def enters_with_others(transcript: bytes, before: Frame, line: Line) -> Finding | None:
    view = before.views.get(line.key) if line.word == "enter" else None
    if view is None or line.fields[3] == view.first.fields[3]:
        return None
    theirs = Fact(f"node {view.first.node} entered it with the members {view.first.fields[3]}", [view.first])
    ours = Fact(f"node {line.node} enters it with the members {line.fields[3]}", [line])
    return Finding(f"the view {line.key} has two lists of members:", [theirs, ours])


def has_members_that_rise(transcript: bytes, before: Frame, line: Line) -> Finding | None:
    members = members_of(line.fields[3]) if line.word == "enter" else []
    rising = [(a.id, b.id) for a, b in zip(members, members[1:]) if a.id <= b.id]
    if not rising:
        return None
    return Finding("its members don't fall: node {} stands before node {}".format(*rising[0]), [])


def enters_as_stranger(transcript: bytes, before: Frame, line: Line) -> Finding | None:
    if line.word != "enter" or line.node in [str(member.id) for member in members_of(line.fields[3])]:
        return None
    return Finding(f"node {line.node} isn't one of the members {line.fields[3]}", [])


def enters_again(transcript: bytes, before: Frame, line: Line) -> Finding | None:
    view = before.views.get(line.key) if line.word == "enter" else None
    if view is None or line.node not in view.entered:
        return None
    return Finding(f"node {line.node} has entered the view {line.key} already:", [Fact("", [view.entered[line.node]])])


def is_of_no_view_of_it(transcript: bytes, before: Frame, line: Line) -> Finding | None:
    view = before.views.get(line.key) if line.word in IN_VIEW else None
    if line.word not in IN_VIEW or (view and line.node in view.entered):
        return None
    last = before.last_entry.get(line.node)
    if last is None:
        return Finding(f"node {line.node} hasn't entered the view {line.key}, nor any other", [])
    what = f"node {line.node} hasn't entered the view {line.key}; the last that it entered is {last.key}:"
    return Finding(what, [Fact("", [last])])


def comes_before_entries(transcript: bytes, before: Frame, line: Line) -> Finding | None:
    view = before.views.get(line.key) if line.word in BEHIND_ENTRIES else None
    if view is None or not view.absent():
        return None
    absent = view.absent()
    have = "hasn't" if len(absent) == 1 else "haven't"
    what = f"{nodes_in_words(absent)} {have} entered the view {line.key} yet, of which the first entry names these members:"
    return Finding(what, [Fact("", [view.first])])


CHECKS: list[Check] = [
    stands_behind_others, is_declared_before, names_undeclared, enters_with_others, has_members_that_rise,
    enters_as_stranger, enters_again, is_of_no_view_of_it, comes_before_entries,
]


def find(transcript: bytes, line: Line) -> Finding | None:
    """The first thing that the law asks of the line and that the line doesn't keep."""
    before = Frame(lines_of(transcript, WORDS, line.number - 1))
    found = (check(transcript, before, line) for check in CHECKS)
    return next((finding for finding in found if finding), None)
