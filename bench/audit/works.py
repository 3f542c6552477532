#!/usr/bin/env python3
"""usage: works.py NAME: prints a script whose transcript is long to judge.

hashes: 2,000,000 lines of which no law asks anything. rounds: five nodes for 20,000 rounds.
records: two sides write 50,000 records each, and join.
"""
import sys
from collections.abc import Iterator


def cluster(count: int) -> Iterator[str]:
    yield "factor 2"
    for node in range(1, count + 1):
        yield f"node {node}"


def hashes() -> Iterator[str]:
    yield "node 1"
    yield from ["hash a"] * 1_999_999


def rounds() -> Iterator[str]:
    yield from cluster(5)
    yield "calm"
    yield from ["round"] * 20_000


def records() -> Iterator[str]:
    yield from cluster(4)
    yield from ["groups 1 2 | 3 4", "calm"]
    for asked, first in ((1, 0), (3, 50_000)):
        yield from [f"ask {asked}", "flow", "flow"]
        for i in range(first, first + 50_000):
            yield f"cput s:{i} v"
            if i % 50 == 49:
                yield from ["flow", "flow"]
    yield from ["flow", "flow", "groups 1 2 3 4", "calm"]


WORKS = {"hashes": hashes, "rounds": rounds, "records": records}

if __name__ == "__main__":
    sys.stdout.writelines(f"{line}\n" for line in WORKS[sys.argv[1]]())
