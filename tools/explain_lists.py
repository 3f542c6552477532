"""The list of a partition, as docs/RULES.md and partition_lists define it: all members of a view by their ranks."""
from __future__ import annotations

from functools import lru_cache
from typing import NamedTuple

PARTITIONS = 4096
FNV_BASIS, FNV_PRIME = 0xCBF29CE484222325, 0x100000001B3
BITS_32, BITS_64 = (1 << 32) - 1, (1 << 64) - 1


class Member(NamedTuple):
    """A member of a view as its lines write it, with its role."""

    text: str
    id: int
    rack: int
    is_quiesced: bool


def member_of(text: str) -> Member:
    number, _, role = text.partition("/")
    return Member(text, int(number), int(role.rstrip("q") or 0), role.endswith("q"))


def members_of(text: str) -> list[Member]:
    return [] if text == "none" else [member_of(part) for part in text.split(",")]


def partition_of(digest: str) -> int:
    """The partition of a digest of forty digits: the number that its first two bytes make, the lower one first."""
    return int(digest[2:4] + digest[:2], 16) % PARTITIONS


def fnv1a(data: bytes) -> int:
    """FNV-1a of 64 bits."""
    found = FNV_BASIS
    for byte in data:
        found = (found ^ byte) * FNV_PRIME & BITS_64
    return found


def one_at_a_time(data: bytes) -> int:
    """Jenkins's one-at-a-time of 32 bits."""
    found = 0
    for byte in data:
        found = found + byte & BITS_32
        found = found + (found << 10) & BITS_32
        found ^= found >> 6
    found = found + (found << 3) & BITS_32
    found ^= found >> 11
    return found + (found << 15) & BITS_32


@lru_cache(maxsize=1 << 16)
def place_of(node: int, partition: int) -> int:
    """The number by which a node stands in the list of a partition."""
    parts = (fnv1a(node.to_bytes(8, "little")), fnv1a(partition.to_bytes(2, "little")))
    return one_at_a_time(b"".join(part.to_bytes(8, "little") for part in parts))


def list_of(members: list[Member], partition: int) -> list[Member]:
    """The members in the order in which they are to hold the partition: quiesced ones last, and of a rack its first
    member before all others."""
    ordered = sorted(members, key=lambda member: (place_of(member.id, partition), member.id))
    first_of_rack: dict[int, Member] = {}
    for member in ordered:
        if not member.is_quiesced:
            first_of_rack.setdefault(member.rack, member)

    def repeats(member: Member) -> bool:
        return member.rack != 0 and not member.is_quiesced and first_of_rack[member.rack] != member

    return sorted(ordered, key=lambda member: (member.is_quiesced, repeats(member)))
