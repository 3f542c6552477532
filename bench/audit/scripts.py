#!/usr/bin/env python3
"""usage: scripts.py SEED COUNT INTO: writes so many small drawn scripts into the folder INTO.

Their runs split and join, stop and start, write on both sides, lose messages and show maps: what an
audit looks at.
"""
import pathlib
import random
import sys

# Two of them are of one partition.
KEYS = ["#ffff" + "0" * 36, "#ffff" + "1" * 36, "#0102" + "0" * 36, "s:a"]
PARTITIONS = [4095, 513]


def header(nodes: list[int]) -> list[str]:
    racks = random.random() < 0.4
    return [
        "script 2",
        f"policy {random.choice(['time', 'generation'])}",
        f"factor {random.choice([1, 2, 2, 3])}",
        *(f"node {node} {random.randint(0, 2)}" if racks else f"node {node}" for node in nodes),
    ]


def groups(nodes: list[int]) -> str:
    if len(nodes) == 1 or random.random() < 0.4:
        return "groups " + " ".join(map(str, nodes))
    mixed = random.sample(nodes, len(nodes))
    at = random.randint(1, len(nodes) - 1)
    return " ".join(["groups", *map(str, mixed[:at]), "|", *map(str, mixed[at:])])


def request(nodes: list[int]) -> str:
    node, key = random.choice(nodes), random.choice(KEYS)
    word = random.choices(["put", "get", "del"], [5, 3, 1])[0]
    value = f" {random.choice('abcdefg')}" if word == "put" else ""
    return f"{word} {node} {key}{value}"


def command(nodes: list[int]) -> str:
    node = random.choice(nodes)
    partition = random.choice(PARTITIONS)
    words = {
        request(nodes): 10,
        "round": 6,
        "flow": 4,
        groups(nodes): 3,
        "calm": 2,
        f"map {node} {partition} {partition}": 4,
        f"clock {node} {random.randint(0, 50)}": 2,
        f"tick {node}": 2,
        f"lose {random.randint(1, 60)}": 1,
        f"stop {node}": 1,
        f"start {node}": 1,
        f"{random.choice(['quiesce', 'unquiesce'])} {node}": 1,
    }
    return random.choices(list(words), list(words.values()))[0]


def script() -> str:
    nodes = sorted(random.sample(range(1, 9), random.randint(1, 5)))
    lines = header(nodes)
    lines += [random.choice(["calm", "round"])]
    lines += [command(nodes) for _ in range(random.randint(8, 24))]
    lines += [groups(nodes), "calm", request(nodes), "round", "calm"]
    lines += [f"map {node} {partition} {partition}" for node in nodes for partition in PARTITIONS]
    return "".join(f"{line}\n" for line in lines)


def main() -> None:
    seed, count, into = sys.argv[1:]
    random.seed(int(seed))
    for i in range(int(count)):
        (pathlib.Path(into) / f"drawn{i}.script").write_text(script())


if __name__ == "__main__":
    main()
