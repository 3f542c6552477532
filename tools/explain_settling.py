"""How a line breaks the law `settledjoin`: which replicas of a settled partition hold another version than the newest one
that their view knows."""
from __future__ import annotations

from typing import Iterator, NamedTuple

from explain_joins import Known
from explain_lines import Fact, Finding, Line, lines_of, nodes_in_words
from explain_lists import partition_of
from explain_stores import WORDS as OF_STORES
from explain_stores import Stores, in_words, version_in
from explain_views import WORDS as OF_VIEWS
from explain_views import Frame, View, key_order

WORDS = (*OF_STORES, b"exchanged", b"settled", b"done")


class Place(NamedTuple):
    """A partition in a view, by the view's key."""

    key: str
    partition: int


class Settling:
    """What is settled, and which writes are open, in the views in which nodes are."""

    def __init__(self, frame: Frame, stores: Stores):
        self.frame, self.stores = frame, stores
        # By a place and a node, or a view and a node: first lines, and numbers of transactions.
        self.settled: dict[tuple[Place, str], Line] = {}
        self.exchanged: dict[tuple[str, str], Line] = {}
        self.writes: dict[tuple[Place, str], set[str]] = {}
        self.done: dict[tuple[str, str], set[str]] = {}

    def read(self, line: Line) -> None:
        self.stores.read(line)
        if line.key not in self.stores.keys:
            return
        if line.word == "settled":
            self.settled.setdefault((Place(line.key, line.partition), line.node), line)
        elif line.word == "exchanged":
            self.exchanged.setdefault((line.key, line.node), line)
        elif line.word == "apply":
            place = Place(line.key, partition_of(line.digest))
            self.writes.setdefault((place, line.node), set()).add(line.transaction)
        elif line.word == "done":
            self.done.setdefault((line.key, line.node), set()).add(line.transaction)

    def view(self, place: Place) -> View:
        return self.frame.views[place.key]

    def why_claimed(self, place: Place) -> Fact | None:
        """Why each replica in the view is to hold what the view knows; nothing where it needn't."""
        master = self.view(place).master(place.partition)
        if self.frame.view_of.get(master) != place.key or self.has_open_write(place, master):
            return None
        rest = f"node {master}, its list master, is in the view, and has no open write there"
        settled = self.settled.get((place, master))
        if settled:
            return Fact(f"partition {place.partition} is settled; {rest}", [settled])
        exchanged = self.exchanged.get((place.key, master))
        if exchanged and self.is_empty_everywhere(place):
            none = "no member had a record of it as it entered"
            return Fact(f"partition {place.partition} counts as settled, since {none}; {rest}", [exchanged])
        return None

    def has_open_write(self, place: Place, master: str) -> bool:
        return bool(self.writes.get((place, master), set()) - self.done.get((place.key, master), set()))

    def is_empty_everywhere(self, place: Place) -> bool:
        """Whether no member had a record. All have entered, since one of them has finished the exchange."""
        stores = [self.stores.entries.get((place.key, node), {}) for node in self.view(place).entered]
        return not any(store.get(place.partition) for store in stores)

    def replicas(self, place: Place) -> list[str]:
        """The replicas that are in the view."""
        nodes = self.frame.replicas(self.view(place), place.partition)
        return [node for node in nodes if self.frame.view_of.get(node) == place.key]

    def places(self) -> Iterator[tuple[Place, list[str]]]:
        """The partitions of which something is held or known in the views, each with its records."""
        for key in sorted(self.stores.keys, key=key_order):
            stores = [*self.stores.stores.values(), *(store for (of, _), store in self.stores.entries.items() if of == key)]
            for partition in sorted({partition for store in stores for partition in store}):
                copies = [store.get(partition, {}) for store in stores]
                yield Place(key, partition), sorted({digest for copy in copies for digest in copy})


class Parting(NamedTuple):
    """A record of which replicas in a view hold another version than the newest one that the view knows, and why they are
    not to."""

    digest: str
    place: Place
    replicas: list[str]
    known: Known
    why: Fact


def partings(settling: Settling) -> Iterator[Parting]:
    for place, digests in settling.places():
        why = settling.why_claimed(place)
        if why:
            yield from partings_at(settling, place, digests, why)


def partings_at(settling: Settling, place: Place, digests: list[str], why: Fact) -> Iterator[Parting]:
    known = Known(settling.stores, settling.view(place), place.partition)
    replicas = settling.replicas(place)
    for digest in digests:
        newest = version_in(known.newest(digest))
        parted = [node for node in replicas if version_in(settling.stores.content(node, digest)) != newest]
        if parted:
            yield Parting(digest, place, parted, known, why)


def find(transcript: bytes, line: Line) -> Finding | None:
    frame = Frame(lines_of(transcript, OF_VIEWS, line.number))
    stores = Stores(frame.policy, set(frame.view_of.values()), partition_at(line))
    settling = Settling(frame, stores)
    for other in lines_of(transcript, WORDS, line.number):
        settling.read(other)
    found = list(partings(settling))
    return finding_of(settling, found[0], len(found) - 1) if found else None


def partition_at(line: Line) -> int | None:
    """The partition that the line is of; nothing where it may part records of several."""
    if line.word in ("apply", "merge"):
        return partition_of(line.digest)
    return line.partition if line.word in ("settled", "drop") else None


def finding_of(settling: Settling, parting: Parting, more: int) -> Finding:
    key, partition = parting.place
    replicas = settling.frame.replicas(settling.view(parting.place), partition)
    be = "is its only replica" if len(replicas) == 1 else "are its replicas"
    where = f"of partition {partition}, in the view {key}, where {nodes_in_words(replicas)} {be}"
    held = [held_by(settling.stores, node, parting.digest) for node in parting.replicas]
    facts = [parting.known.fact(parting.digest), *held, parting.why]
    others = [Fact(f"so it is with {more} more record{'' if more == 1 else 's'}", [])] if more else []
    return Finding(f"it shows in the record {parting.digest} {where}:", facts + others)


def held_by(stores: Stores, node: str, digest: str) -> Fact:
    """What a replica holds, and the line that brought it, or took its copy away."""
    held, dropped = stores.content(node, digest), stores.dropped.get((node, partition_of(digest)))
    if held is None and dropped:
        return Fact(f"node {node}, a replica, holds no version; it dropped its copy of the partition", [dropped])
    return Fact(f"node {node}, a replica, holds {in_words(held)}", [held.line] if held else [])
