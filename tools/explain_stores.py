"""What nodes hold and what was applied, read along a transcript, each version with the line that brought it."""
from __future__ import annotations

from typing import Collection, Iterable, NamedTuple

from explain_lines import Line
from explain_lists import partition_of
from tell_versions import Version, version_of

# The words of the lines that this is read from.
WORDS = (b"apply", b"merge", b"drop", b"enter")


class Held(NamedTuple):
    """A version of a record, and the line that brought it."""

    version: Version
    line: Line


# A copy has the records of one partition by their digests, and a store the copies of a node by their partitions.
Copy = dict[str, Held]
Store = dict[int, Copy]


class Stores:
    """The stores of all nodes, what was applied of each record, in all and in each of some views, and what nodes held as
    they entered these views; of one partition alone, if one is named."""

    def __init__(self, policy: str, keys: Collection[str] = (), only: int | None = None):
        self.policy, self.keys, self.only = policy, keys, only
        self.stores: dict[str, Store] = {}
        self.entries: dict[tuple[str, str], Store] = {}
        self.applied: Copy = {}
        self.applied_in: dict[str, Copy] = {}
        # The last line by which a node dropped its copy of a partition.
        self.dropped: dict[tuple[str, int], Line] = {}

    def read(self, line: Line) -> None:
        if line.word in ("apply", "merge"):
            self.bring(line, partition_of(line.digest))
        elif line.word == "drop":
            self.stores.get(line.node, {}).pop(line.partition, None)
            self.dropped[line.node, line.partition] = line
        elif line.word == "enter" and line.key in self.keys:
            store = self.stores.get(line.node, {})
            self.entries.setdefault((line.key, line.node), {partition: dict(copy) for partition, copy in store.items()})

    def bring(self, line: Line, partition: int) -> None:
        version = version_of(line.version)
        if version is None or self.only not in (None, partition):
            return
        held = Held(version, line)
        self.join(self.stores.setdefault(line.node, {}).setdefault(partition, {}), held)
        if line.word == "apply":
            self.join(self.applied, held)
            if line.key in self.keys:
                self.join(self.applied_in.setdefault(line.key, {}), held)

    def join(self, copy: Copy, held: Held) -> None:
        """The copy has the newer version of the two, and of equal ones the first."""
        before = copy.get(held.line.digest)
        if before is None or self.order(before) < self.order(held):
            copy[held.line.digest] = held

    def order(self, held: Held) -> tuple:
        return held.version.order(self.policy)

    def newest(self, helds: Iterable[Held | None]) -> Held | None:
        """The one of the newest version, and of equal ones the first."""
        return max((held for held in helds if held), key=self.order, default=None)

    def content(self, node: str, digest: str) -> Held | None:
        return self.stores.get(node, {}).get(partition_of(digest), {}).get(digest)


def in_words(held: Held | None) -> str:
    return str(held.version) if held else "no version"


def version_in(held: Held | None) -> Version | None:
    return held.version if held else None
