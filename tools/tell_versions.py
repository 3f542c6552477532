"""Versions of a record, in words, and why one of two wins (docs/RULES.md, Versions)."""
from __future__ import annotations

import re
from functools import lru_cache
from typing import NamedTuple

BY_TIME = "time"
BY_GENERATION = "generation"
MOST_GENERATION = 4_294_967_295
FORM = re.compile(r"(\d+)\.(\d+)(?:(-)|=([0-9a-f]*))")


class Version(NamedTuple):
    """The last update time, the generation, and the value; a tombstone has none."""

    time: int
    generation: int
    value: bytes | None

    def order(self, policy: str) -> tuple:
        """What two versions of a record are compared by."""
        numbers = (self.time, self.generation) if policy == BY_TIME else (self.generation, self.time)
        return *numbers, self.value is not None, self.value or b""

    def body(self) -> str:
        return "a tombstone" if self.value is None else text_of(self.value)

    def with_lines(self, lines: list[int]) -> str:
        """In words, with the lines of the script that wrote it."""
        numbers = " and ".join(map(str, lines))
        by = f", line{'s' if len(lines) > 1 else ''} {numbers}" if lines else ""
        return f"{self.body()} (time {self.time}, generation {self.generation}{by})"

    def __str__(self) -> str:
        return self.with_lines([])


def text_of(value: bytes) -> str:
    """The value as text where it is printable, and else in hexadecimal digits."""
    try:
        text = value.decode()
    except UnicodeDecodeError:
        text = ""
    return f'"{text}"' if text.isprintable() and text else f"0x{value.hex()}"


@lru_cache(maxsize=1 << 16)
def version_of(written: str) -> Version | None:
    """The version that a transcript writes so; `none` is none."""
    found = FORM.fullmatch(written)
    if not found:
        return None
    time, generation, tombstone, value = found.groups()
    return Version(int(time), int(generation), None if tombstone else bytes.fromhex(value))


def newest(versions: list[Version], policy: str) -> Version | None:
    return max(versions, key=lambda version: version.order(policy), default=None)


class Rule(NamedTuple):
    """One of the two numbers that versions are compared by: its name, what wins, and the numbers of two versions."""

    name: str
    says: str
    winner: int
    loser: int

    @property
    def decides(self) -> bool:
        return self.winner != self.loser

    def __str__(self) -> str:
        return f"{self.says}, {self.winner} over {self.loser}"


def why_newer(winner: Version, loser: Version, policy: str) -> str:
    """By which rule the first of two versions wins over the other."""
    rules = [
        Rule("time", "the later time wins", winner.time, loser.time),
        Rule("generation", "the greater generation wins", winner.generation, loser.generation),
    ]
    first, second = rules if policy == BY_TIME else reversed(rules)
    if first.decides:
        return str(first)
    if second.decides:
        return f"with equal {first.name}s {second}"
    if loser.value is None:
        return "with equal times and generations a value wins over a tombstone"
    return "with equal times and generations the greater value wins, byte by byte"
