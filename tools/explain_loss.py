"""How a line breaks the law `noloss`: which version of which record is in a store and was never applied, or in none."""
from __future__ import annotations

from explain_lines import Fact, Finding, Line, lines_of
from explain_lists import partition_of
from explain_stores import WORDS, Held, Stores, in_words
from explain_views import WORDS as OF_VIEWS
from explain_views import Frame
from tell_versions import version_of


def find(transcript: bytes, line: Line) -> Finding | None:
    if line.word not in ("merge", "drop"):
        return None
    frame = Frame(lines_of(transcript, OF_VIEWS, line.number))
    partition = partition_of(line.digest) if line.word == "merge" else line.partition
    before = Stores(frame.policy, only=partition)
    for other in lines_of(transcript, WORDS, line.number - 1):
        before.read(other)
    return of_merge(before, line) if line.word == "merge" else of_drop(frame, before, line)


def of_merge(before: Stores, line: Line) -> Finding | None:
    """A version is merged that is above all that were applied."""
    version, applied = version_of(line.version), before.applied.get(line.digest)
    if version is None or (applied and before.order(applied) >= version.order(before.policy)):
        return None
    taken = Fact(f"node {line.node} takes {version}", [line])
    newest = Fact(f"the newest version that was ever applied is {in_words(applied)}", [applied.line]) if applied else None
    what = f"it shows in the record {line.digest} of partition {partition_of(line.digest)}:"
    return Finding(what, [taken, newest or Fact("no version of it was ever applied", [])])


def of_drop(frame: Frame, before: Stores, line: Line) -> Finding | None:
    """A copy is dropped that alone has the newest version of a record."""
    copy = before.stores.get(line.node, {}).get(line.partition, {})
    lost = [copy[digest] for digest in sorted(copy) if is_lost(frame, before, copy[digest])]
    if not lost:
        return None
    digest = lost[0].line.digest
    what = f"it shows in the record {digest} of partition {line.partition}:"
    dropped = Fact(f"node {line.node} drops {in_words(lost[0])}, the newest version that was ever applied", [lost[0].line])
    return Finding(what, [dropped, elsewhere(frame, before, lost[0]), *others(len(lost) - 1)])


def is_lost(frame: Frame, before: Stores, held: Held) -> bool:
    """Whether what the node holds is the newest that was applied of the record, and no other node holds it."""
    applied, other = before.applied.get(held.line.digest), newest_elsewhere(frame, before, held)
    is_newest = applied is not None and applied.version == held.version
    return is_newest and (other is None or before.order(other) < before.order(held))


def newest_elsewhere(frame: Frame, before: Stores, held: Held) -> Held | None:
    nodes = [node for node in frame.declared if node != held.line.node]
    return before.newest(before.content(node, held.line.digest) for node in nodes)


def elsewhere(frame: Frame, before: Stores, held: Held) -> Fact:
    other = newest_elsewhere(frame, before, held)
    if other is None:
        return Fact("no other node holds a version of it", [])
    return Fact(f"of all other nodes node {other.line.node} holds the newest version, {in_words(other)}", [other.line])


def others(count: int) -> list[Fact]:
    return [Fact(f"so it is with {count} more record{'' if count == 1 else 's'} of the partition", [])] if count else []
