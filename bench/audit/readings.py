"""What a reader finds in a journal, as docs/READINGS.md has it: a slow and plain program of those
definitions.

`lines_of` reads a transcript whose lines have their forms. A `Journal` answers what is read in it
after so many lines: a reading is a list that has at each place, from 0 to the number of lines, its
answer at that place. It goes by the definitions alone, so it is a check of `--audit` by another
way, and keeps nothing from one reading to another but lists that it made already.
"""
from __future__ import annotations

import functools
import struct
from collections.abc import Callable, Iterable
from typing import NamedTuple

Key = tuple[int, int]


class Member(NamedTuple):
    id: int
    rack: int
    quiesced: bool


class Version(NamedTuple):
    time: int
    generation: int
    # a tombstone is none, and below every value
    value: bytes | None


class Line(NamedTuple):
    word: str
    node: int = 0
    key: Key = (0, 0)
    partition: int = 0
    transaction: int = 0
    digest: str = ""
    version: Version | None = None
    members: tuple[Member, ...] = ()
    acting: int = 0
    # a clock's time, a factor, or a policy's name
    setting: int | str = 0
    # all nodes that the line names
    named: tuple[int, ...] = ()


# The words whose lines name no node, and that no reading looks at.
NAMELESS = (
    *("script", "lost", "blocked", "nomessage", "full", "hash", "nomap", "table", "calm"),
    *("callfull", "noopen", "noscan", "rescan", "page", "record"),
)

# ---- the fields of a line


def key_of(text: str) -> Key:
    number, principal = text.split(".")
    return int(number), int(principal)


def version_of(text: str) -> Version | None:
    if text == "none":
        return None
    time, rest = text.split(".", 1)
    if rest.endswith("-"):
        return Version(int(time), int(rest[:-1]), None)
    generation, value = rest.split("=")
    return Version(int(time), int(generation), bytes.fromhex(value))


def member_of(text: str) -> Member:
    node, _, role = text.partition("/")
    rack = role.removesuffix("q")
    return Member(int(node), int(rack or 0), role.endswith("q"))


def members_of(text: str) -> tuple[Member, ...]:
    return () if text == "none" else tuple(member_of(part) for part in text.split(","))


def ids_of(members: Iterable[Member]) -> tuple[int, ...]:
    return tuple(member.id for member in members)


def end_of(text: str) -> tuple[int, ...]:
    """The node at an end of a message; the client is 0, and no node."""
    return () if text == "0" else (int(text),)


def cause_of(fields: list[str]) -> tuple[int, ...]:
    """The node that a refusal names, or a reply that is one."""
    if fields[:1] == ["refused"]:
        fields = fields[1:]
    return (int(fields[1]),) if fields and fields[0] in ("exchanging", "notmaster") else ()


def line_of(text: str) -> Line:
    word, *fields = text.split(" ")
    match word:
        case "factor":
            return Line(word, setting=int(fields[0]))
        case "policy":
            return Line(word, setting=fields[0])
        case "groups":
            return Line(word, named=tuple(int(field) for field in fields if field != "|"))
        case "deliver" | "repeat" | "cut" | "sent":
            return Line(word, named=end_of(fields[1]) + end_of(fields[2]))
        case "short" | "stale" | "spent":
            return Line(word, named=end_of(fields[0]))
        case "place":
            return Line(word, named=ids_of(members_of(fields[1])))
        case "unscanned":
            return Line(word, named=cause_of(fields[1:]))
        case "call" | "scan" | "scanned" | "again":
            return Line(word, named=(int(fields[1]),))
        case "reply":
            return Line(word, named=(int(fields[1]), *cause_of(fields[2:])))
        case word if word in NAMELESS:
            return Line(word)
    return line_of_node(word, fields)


def line_of_node(word: str, fields: list[str]) -> Line:
    """A line whose first field is a node."""
    node = int(fields[0])
    line = Line(word, node=node, named=(node,))
    match word:
        case "clock":
            return line._replace(setting=int(fields[1]))
        case "refused":
            return line._replace(named=(node, *cause_of(fields[2:])))
        case "mapless":
            return line._replace(named=(node, *cause_of(fields[1:])))
        case "node" | "tick" | "stop" | "start" | "down" | "up" | "quiesce" | "unquiesce":
            return line
        case "holds" | "client":
            return line
    line = line._replace(key=key_of(fields[1]))
    match word:
        case "enter":
            members = members_of(fields[2])
            return line._replace(members=members, named=(node, *ids_of(members)))
        case "value" | "apply":
            line = line._replace(transaction=int(fields[2]))
            return line._replace(digest=fields[3], version=version_of(fields[4]))
        case "merge":
            return line._replace(digest=fields[2], version=version_of(fields[3]))
        case "done":
            return line._replace(transaction=int(fields[2]))
        case "settled" | "learn" | "drop":
            return line._replace(partition=int(fields[2]))
        case "map":
            members, acting = members_of(fields[3]), int(fields[4])
            line = line._replace(partition=int(fields[2]), members=members, acting=acting)
            return line._replace(named=(node, acting, *ids_of(members)))
        case "proxy":
            return line._replace(named=(node, int(fields[5])))
        case "proxied":
            return line._replace(named=(node, *cause_of(fields[3:])))
        case "promise" | "exchanged" | "opened" | "aborted" | "doubt" | "handed" | "unproxied":
            return line
    raise ValueError(f"{word}: no line begins so")


def lines_of(text: str) -> list[Line]:
    return [line_of(line) for line in text.split("\n")[:-1]]


# ---- versions


def order_of(policy: str, version: Version | None) -> tuple:
    """Greater exactly where the version is greater; nothing is below every version."""
    if version is None:
        return ()
    time, generation, value = version
    numbers = (time, generation) if policy == "time" else (generation, time)
    return (*numbers, value is not None, value or b"")


def join(policy: str, versions: Iterable[Version | None]) -> Version | None:
    return max(versions, key=lambda version: order_of(policy, version), default=None)


def next_version(best: Version | None, clock: int, value: bytes | None) -> Version:
    if best is None:
        return Version(clock, 1, value)
    return Version(max(clock, best.time), min(best.generation + 1, 2**32 - 1), value)


# ---- partitions


@functools.cache
def partition_of(digest: str) -> int:
    """Of its first two bytes, the lower one first."""
    return int(digest[2:4] + digest[:2], 16) % 4096


def fnv1a(data: bytes) -> int:
    found = 0xCBF29CE484222325
    for byte in data:
        found = (found ^ byte) * 0x100000001B3 % 2**64
    return found


def one_at_a_time(data: bytes) -> int:
    found = 0
    for byte in data:
        found = (found + byte) % 2**32
        found = (found + (found << 10)) % 2**32
        found ^= found >> 6
    found = (found + (found << 3)) % 2**32
    found ^= found >> 11
    return (found + (found << 15)) % 2**32


@functools.cache
def place_of(node: int, partition: int) -> int:
    of_node = fnv1a(struct.pack("<Q", node))
    return one_at_a_time(struct.pack("<QQ", of_node, fnv1a(struct.pack("<H", partition))))


def is_repeat(members: tuple[Member, ...], partition: int, member: Member) -> bool:
    """Whether another member of its rack stands before it, and neither is quiesced."""
    if member.quiesced or member.rack == 0:
        return False
    rack = [other for other in members if other.rack == member.rack and not other.quiesced]
    own = place_of(member.id, partition), member.id
    return any((place_of(other.id, partition), other.id) < own for other in rack)


@functools.cache
def list_of(members: tuple[Member, ...], partition: int) -> tuple[int, ...]:
    """The nodes of a partition's list, by their ranks."""

    def rank(member: Member) -> tuple:
        repeats = is_repeat(members, partition, member)
        return member.quiesced, repeats, place_of(member.id, partition), member.id

    return ids_of(sorted(members, key=rank))


# ---- a journal


class Journal:
    def __init__(self, lines: list[Line]) -> None:
        self.lines = lines
        self.policy = self.last("policy", "time")
        self.factor = self.last("factor", 1)
        self.nodes = [line.node for line in lines if line.word == "node"]
        self.keys = {line.key for line in lines if line.word == "enter"}
        brought = ("apply", "merge")
        self.digests = sorted({line.digest for line in lines if line.word in brought})

    def last(self, word: str, otherwise):
        return next((line.setting for line in reversed(self.lines) if line.word == word), otherwise)

    def along(self, step: Callable, start) -> list:
        """What the lines make of the start, one after another, at each place."""
        found = [start]
        for line in self.lines:
            found.append(step(found[-1], line))
        return found

    def any_so_far(self, test: Callable[[Line], bool]) -> list[bool]:
        return self.along(lambda found, line: found or test(line), False)

    def join(self, *versions: Version | None) -> Version | None:
        return join(self.policy, versions)

    # ---- nodes

    @functools.cache
    def clock(self, node: int) -> list[int]:
        def step(time: int, line: Line) -> int:
            return line.setting if line.word == "clock" and line.node == node else time

        return self.along(step, 0)

    @functools.cache
    def content(self, node: int, digest: str) -> list[Version | None]:
        def step(held: Version | None, line: Line) -> Version | None:
            if line.node != node:
                return held
            if line.word in ("apply", "merge") and line.digest == digest:
                return self.join(held, line.version)
            is_dropped = line.word == "drop" and line.partition == partition_of(digest)
            return None if is_dropped else held

        return self.along(step, None)

    @functools.cache
    def holds_any(self, node: int, partition: int) -> list[bool]:
        def step(holds: bool, line: Line) -> bool:
            if line.node != node:
                return holds
            if line.word in ("apply", "merge") and partition_of(line.digest) == partition:
                return True
            return holds and not (line.word == "drop" and line.partition == partition)

        return self.along(step, False)

    @functools.cache
    def applied(self, digest: str) -> list[Version | None]:
        def step(held: Version | None, line: Line) -> Version | None:
            is_applied = line.word == "apply" and line.digest == digest
            return self.join(held, line.version) if is_applied else held

        return self.along(step, None)

    @functools.cache
    def view(self, node: int) -> list[Key | None]:
        def step(view: Key | None, line: Line) -> Key | None:
            if line.node != node or line.word not in ("enter", "stop"):
                return view
            return line.key if line.word == "enter" else None

        return self.along(step, None)

    # ---- views

    @functools.cache
    def entry_place(self, key: Key, node: int) -> int | None:
        """How many lines stand before the node's first `enter` line of the view."""
        heads = [(line.word, line.node, line.key) for line in self.lines]
        entry = ("enter", node, key)
        return heads.index(entry) if entry in heads else None

    def has_entered(self, key: Key, node: int, place: int) -> bool:
        entry = self.entry_place(key, node)
        return entry is not None and entry < place

    @functools.cache
    def members(self, key: Key) -> list[tuple[Member, ...]]:
        def step(members: tuple[Member, ...], line: Line) -> tuple[Member, ...]:
            is_first = not members and line.word == "enter" and line.key == key
            return line.members if is_first else members

        return self.along(step, ())

    def list(self, key: Key, partition: int, place: int) -> tuple[int, ...]:
        return list_of(self.members(key)[place], partition)

    def master(self, key: Key, partition: int, place: int) -> int:
        return next(iter(self.list(key, partition, place)), 0)

    def replicas(self, key: Key, partition: int, place: int) -> tuple[int, ...]:
        return self.list(key, partition, place)[: self.factor]

    # ---- the fold of a view

    def entry(self, key: Key, node: int, digest: str, place: int) -> Version | None:
        if not self.has_entered(key, node, place):
            return None
        return self.content(node, digest)[self.entry_place(key, node)]

    @functools.cache
    def applied_in(self, key: Key, digest: str) -> list[Version | None]:
        def step(held: Version | None, line: Line) -> Version | None:
            is_applied = line.word == "apply" and line.key == key and line.digest == digest
            return self.join(held, line.version) if is_applied else held

        return self.along(step, None)

    @functools.cache
    def fold(self, key: Key, digest: str, place: int) -> Version | None:
        members = ids_of(self.members(key)[place])
        entries = [self.entry(key, node, digest, place) for node in members]
        return self.join(*entries, self.applied_in(key, digest)[place])

    # ---- stamps and maps

    def is_empty_at_entry(self, key: Key, node: int, partition: int, place: int) -> bool:
        if not self.has_entered(key, node, place):
            return False
        return not self.holds_any(node, partition)[self.entry_place(key, node)]

    @functools.cache
    def is_empty_everywhere(self, key: Key, partition: int, place: int) -> bool:
        members = ids_of(self.members(key)[place])
        return all(self.is_empty_at_entry(key, node, partition, place) for node in members)

    @functools.cache
    def stamp(self, node: int, partition: int) -> list[Key | None]:
        stamps = [None]
        for place, line in enumerate(self.lines):
            stamps.append(self.stamp_behind(stamps[-1], node, partition, place, line))
        return stamps

    def stamp_behind(
        self, stamp: Key | None, node: int, partition: int, place: int, line: Line
    ) -> Key | None:
        if line.node != node:
            return stamp
        if line.word == "exchanged":
            is_whole = self.is_empty_everywhere(line.key, partition, place)
            is_whole = is_whole and node in self.replicas(line.key, partition, place)
            return line.key if is_whole else stamp
        if line.word in ("learn", "drop") and line.partition == partition:
            return line.key if line.word == "learn" else None
        return stamp

    def whole_key(self, key: Key, node: int, partition: int, place: int) -> Key | None:
        """The key by which the member's row is whole, where it is."""
        if not self.has_entered(key, node, place):
            return None
        entry = self.entry_place(key, node)
        holds = self.holds_any(node, partition)[entry]
        return self.stamp(node, partition)[entry] if holds else None

    def acting(self, key: Key, partition: int, place: int) -> int:
        nodes = self.list(key, partition, place)
        wholes = [(node, self.whole_key(key, node, partition, place)) for node in nodes]
        newest = max((whole for _, whole in wholes if whole is not None), default=None)
        if newest is None:
            return self.master(key, partition, place)
        return next(node for node, whole in wholes if whole == newest)

    def listed_members(self, key: Key, partition: int, place: int) -> tuple[Member, ...]:
        roles = {member.id: member for member in self.members(key)[place]}
        return tuple(roles[node] for node in self.list(key, partition, place))

    # ---- settled partitions and open writes

    @functools.cache
    def has_line(self, *line) -> list[bool]:
        """Whether a line of this word, node and key stands, and of this partition or transaction
        where it names one."""
        word = line[0]

        def is_that(other: Line) -> bool:
            last = {"settled": other.partition, "done": other.transaction}.get(word)
            found = (other.word, other.node, other.key) + (() if last is None else (last,))
            return found == line

        return self.any_so_far(is_that)

    @functools.cache
    def is_settled(self, key: Key, partition: int, place: int) -> bool:
        master = self.master(key, partition, place)
        if self.has_line("settled", master, key, partition)[place]:
            return True
        has_exchanged = self.has_line("exchanged", master, key)[place]
        return has_exchanged and self.is_empty_everywhere(key, partition, place)

    @functools.cache
    def has_open_write(self, key: Key, partition: int, place: int) -> bool:
        master = self.master(key, partition, place)
        return any(
            not self.has_line("done", master, key, line.transaction)[place]
            for line in self.lines[:place]
            if (line.word, line.node, line.key) == ("apply", master, key)
            and partition_of(line.digest) == partition
        )
