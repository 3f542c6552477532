"""What became of each record in a run, read off its transcript by the words of docs/READINGS.md.

A write makes the next version of the best one that its view knows, which is the view's fold of the record. So its
version *follows* from that one, and from all that that one follows from.
"""
from __future__ import annotations

from bisect import bisect_left
from dataclasses import dataclass, field
from typing import Iterable

from tell_versions import Version, newest


@dataclass
class Request:
    """A request that a node accepted, as a transaction of its view."""

    script_line: int
    want: str
    node: str
    view: str
    digest: str
    opened: int
    # `done`, `doubt`, `aborted` or `value` with the transcript's line, unless it is still open.
    ended: str | None = None
    ended_at: int = 0
    applied: int = 0
    version: Version | None = None
    # The version that the write follows from, or nothing where its view knew none.
    before: Version | None = None

    @property
    def is_write(self) -> bool:
        return self.want != "get"

    def is_done_at(self, number: int) -> bool:
        return self.ended == "done" and self.ended_at <= number


@dataclass
class Change:
    """A line of the transcript behind which a node holds another version of a record, or none."""

    number: int
    node: str
    digest: str
    old: Version | None
    new: Version | None
    # The version that won over the old one, where the new one doesn't follow from that.
    winner: Version | None = None
    # Whether no store has the old version behind it, nor one that follows from it.
    is_last: bool = False


@dataclass
class Record:
    digest: str
    policy: str
    # What each node holds now, and what it held behind which lines.
    held: dict[str, Version | None] = field(default_factory=dict)
    changes: dict[str, list[Change]] = field(default_factory=dict)
    writes: list[Request] = field(default_factory=list)
    makers: dict[Version, list[Request]] = field(default_factory=dict)
    best: Version | None = None
    last_change: dict[Version, Change] = field(default_factory=dict)

    def held_before(self, node: str, number: int) -> Version | None:
        """What the node held before that line."""
        changes = self.changes.get(node, [])
        place = bisect_left(changes, number, key=lambda change: change.number)
        return changes[place - 1].new if place else None

    def add_write(self, request: Request) -> None:
        self.writes.append(request)
        self.makers.setdefault(request.version, []).append(request)
        self.best = self.join(self.best, request.version)

    def join(self, *versions: Version | None) -> Version | None:
        return newest([version for version in versions if version is not None], self.policy)

    def parents(self, version: Version) -> list[Version]:
        return [maker.before for maker in self.makers.get(version, ()) if maker.before is not None]

    def follows(self, later: Version, earlier: Version) -> bool:
        """Whether the one version is the other, or follows from it."""
        left, seen = [later], set()
        while left:
            version = left.pop()
            if version == earlier:
                return True
            if version not in seen and version.generation >= earlier.generation:
                seen.add(version)
                left += self.parents(version)
        return False

    def is_kept(self, version: Version) -> bool:
        """Whether a store now has the version, or one that follows from it."""
        return any(held is not None and self.follows(held, version) for held in self.held.values())

    def change(self, number: int, node: str, new: Version | None, winner: Version | None) -> Change:
        """The node holds the new version from now on; where that doesn't follow from the old one, by the winner."""
        old = self.held.get(node)
        change = Change(number, node, self.digest, old, new)
        self.held[node] = new
        if old is not None and not (new is not None and self.follows(new, old)):
            change.winner = winner
            change.is_last = not self.is_kept(old)
        self.changes.setdefault(node, []).append(change)
        if old is not None:
            self.last_change[old] = change
        return change

    # ---- at the end

    def past(self, *versions: Version | None) -> set[Version]:
        """These versions, and all that they follow from."""
        left, found = [version for version in versions if version is not None], set()
        while left:
            version = left.pop()
            if version not in found:
                found.add(version)
                left += self.parents(version)
        return found

    def given_up(self) -> dict[Version, Change]:
        """The versions that no store has, nor one that follows from them, each with the change by which that came."""
        kept = self.past(*self.held.values())
        last = dict(self.last_change)
        for version in sorted({*self.makers, *last}, key=lambda version: version.generation, reverse=True):
            for before in self.parents(version) if version in last else ():
                if before not in last or last[before].number < last[version].number:
                    last[before] = last[version]
        return {version: last[version] for version in self.makers if version not in kept}

    def holders(self, version: Version) -> list[str]:
        return sorted((node for node, held in self.held.items() if held == version), key=int)


def given_up_though_done(records: Iterable[Record]) -> list[tuple[Request, Change]]:
    """The acknowledged writes of which no store has the version, nor one that follows from it."""
    found = []
    for record in records:
        given_up = record.given_up()
        found += [(it, given_up[it.version]) for it in record.writes if it.ended == "done" and it.version in given_up]
    return sorted(found, key=lambda it: it[0].applied)
