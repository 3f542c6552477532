"""What a view knows of a record, and how a read or a write breaks the law `readjoin` by it."""
from __future__ import annotations

from explain_lines import Fact, Finding, Line, lines_of
from explain_lists import partition_of
from explain_stores import WORDS as OF_STORES
from explain_stores import Copy, Held, Stores, in_words, version_in
from explain_views import WORDS as OF_VIEWS
from explain_views import Frame, View
from tell_versions import MOST_GENERATION, Version, version_of


class Known:
    """What a view knows of the records of a partition: what was applied in it, and the copies of its members as they
    entered. The newest version of these is what a read gets, and what a write follows."""

    def __init__(self, stores: Stores, view: View, partition: int):
        self.stores = stores
        self.applied: Copy = stores.applied_in.get(view.key, {})
        self.entries = [(entry, stores.entries.get((view.key, node), {}).get(partition, {}))
                        for node, entry in view.entered.items()]

    def newest(self, digest: str) -> Held | None:
        return self.stores.newest([self.applied.get(digest), *(copy.get(digest) for _, copy in self.entries)])

    def fact(self, digest: str) -> Fact:
        """The newest version in words, how the view knows it, and the lines that say so."""
        newest = self.newest(digest)
        if newest is None:
            return Fact("the view knows no version: no member held one as it entered, and none was applied in it", [])
        text = f"the newest version that the view knows is {in_words(newest)}, which"
        if self.applied.get(digest) == newest:
            return Fact(f"{text} was applied in it", [newest.line])
        entry = next(entry for entry, copy in self.entries if copy.get(digest) == newest)
        return Fact(f"{text} node {entry.node} held as it entered", [newest.line, entry])


def find(transcript: bytes, line: Line) -> Finding | None:
    if line.word not in ("value", "apply"):
        return None
    frame = Frame(lines_of(transcript, OF_VIEWS, line.number - 1))
    view, partition = frame.views.get(line.key), partition_of(line.digest)
    if view is None:
        return None
    before = Stores(frame.policy, [line.key], partition)
    for other in lines_of(transcript, OF_STORES, line.number - 1):
        before.read(other)
    known = Known(before, view, partition)
    facts = of_read(known, line) if line.word == "value" else of_write(transcript, known, line)
    what = f"it shows in the record {line.digest} of partition {partition}, in the view {line.key}:"
    return Finding(what, facts) if facts else None


def of_read(known: Known, line: Line) -> list[Fact]:
    version = version_of(line.version)
    if version == version_in(known.newest(line.digest)):
        return []
    return [Fact(f"node {line.node} answers {version or 'no version'}", [line]), known.fact(line.digest)]


def of_write(transcript: bytes, known: Known, line: Line) -> list[Fact]:
    version, clock = version_of(line.version), clock_of(transcript, line)
    if version is None:
        return []
    time = int(clock.fields[2]) if clock else 0
    wanted = next_version(version_in(known.newest(line.digest)), time, version.value)
    if version == wanted:
        return []
    stands = f"stands at {time}" if clock else "stands at 0, as no line sets it"
    numbers = f"so the version after that has the time {wanted.time} and the generation {wanted.generation}"
    return [
        Fact(f"node {line.node} writes {version}", [line]),
        known.fact(line.digest),
        Fact(f"the clock of node {line.node} {stands}, {numbers}", [clock] if clock else []),
    ]


def clock_of(transcript: bytes, line: Line) -> Line | None:
    """The line that set the clock of the line's node last before it."""
    clocks = [other for other in lines_of(transcript, (b"clock",), line.number - 1) if other.node == line.node]
    return clocks[-1] if clocks else None


def next_version(best: Version | None, clock: int, value: bytes | None) -> Version:
    """What a write makes of the newest version that its view knows."""
    if best is None:
        return Version(clock, 1, value)
    return Version(max(clock, best.time), min(best.generation + 1, MOST_GENERATION), value)
