#!/usr/bin/env python3
"""usage: damage.py SEED COUNT INTO TRANSCRIPT..: writes so many damaged transcripts into the folder
INTO.

Of each one line was taken out, doubled, moved, altered in a field, or turned into a line of another
word. All that is written has the form of a transcript; what is to be said of it, verdicts.py says.
The name of a file tells what was done.
"""
import pathlib
import random
import re
import sys
from collections.abc import Callable

from readings import partition_of

# The kinds of the fields of the words whose lines are damaged: a node, a key, a transaction, a
# digest, a partition, a version (V), a version or none (W), members that fall (M), members in any
# order (L), a time, a factor, a policy.
FORMS = {
    "merge": "NKDV",
    "apply": "NKTDV",
    "drop": "NKP",
    "settled": "NKP",
    "value": "NKTDW",
    "learn": "NKP",
    "done": "NKT",
    "exchanged": "NK",
    "enter": "NKM",
    "map": "NKPLN",
    "stop": "N",
    "clock": "NC",
    "node": "N",
    "factor": "F",
    "policy": "B",
}
# How often lines of these words are damaged; of the others once.
OFTEN = {"merge": 4, "apply": 4, "drop": 4, "settled": 4, "map": 3, "value": 2, "done": 2}
# Lines of one form, that mean something else.
TURNS = {
    "settled": ["learn", "drop", "handed"],
    "learn": ["settled", "drop"],
    "drop": ["settled", "learn"],
    "done": ["doubt", "aborted"],
    "stop": ["start"],
    "exchanged": ["promise"],
}

Lines = list[str]


def word_of(line: str) -> str:
    return line.split(" ", 1)[0]


def fields_of(lines: Lines, kind: str) -> list[str]:
    """All fields of this kind in lines of the words that are damaged, each once."""
    found = {}
    for line in lines:
        word, *fields = line.split(" ")
        for field, own in zip(fields, FORMS.get(word, "")):
            if own == kind:
                found[field] = None
    return list(found)


def altered_number(text: str, least: int) -> str:
    return str(max(least, int(text) + random.choice([1, -1, 5])))


def altered_version(text: str) -> str:
    parts = re.fullmatch(r"(\d+)\.(\d+)(=|-)(.*)", text)
    if parts is None:
        return "0.1=61"
    time, generation, mark, value = parts.groups()
    match random.choice(["time", "generation", "value", "tombstone"]):
        case "time":
            time = altered_number(time, 0)
        case "generation":
            generation = altered_number(generation, 1)
        case "value":
            mark, value = "=", value[:-2] + random.choice(["00", "61", "7a"])
        case "tombstone":
            mark, value = "-", ""
    return f"{time}.{generation}{mark}{value}"


def altered_members(text: str, kind: str) -> str:
    members = text.split(",")
    match random.choice(["less", "role"] if kind == "M" else ["less", "role", "turned"]):
        case "less":
            members.remove(random.choice(members))
        case "turned":
            members.reverse()
        case "role":
            i = random.randrange(len(members))
            members[i] = members[i].partition("/")[0] + random.choice(["/1", "/0q", ""])
    return ",".join(members) or text


def altered_field(text: str, kind: str, lines: Lines) -> str:
    match kind:
        case "T" | "C":
            return altered_number(text, 1)
        case "F":
            return random.choice("1234")
        case "B":
            return random.choice(["time", "generation"])
        case "P":
            partitions = {str(partition_of(digest)) for digest in fields_of(lines, "D")}
            return random.choice(sorted({text, *partitions}))
        case "V" | "W" if random.random() < 0.7:
            return altered_version(text)
        case "M" | "L" if random.random() < 0.7:
            return altered_members(text, kind)
    return random.choice(fields_of(lines, kind))


# ---- what is done to a line


def take_out(lines: Lines, i: int) -> Lines:
    return lines[:i] + lines[i + 1 :]


def double(lines: Lines, i: int) -> Lines:
    at = random.randint(i + 1, len(lines))
    return lines[:at] + [lines[i]] + lines[at:]


def move(lines: Lines, i: int) -> Lines:
    others = take_out(lines, i)
    at = random.randint(max(0, i - 12), min(len(others), i + 12))
    return others[:at] + [lines[i]] + others[at:]


def alter(lines: Lines, i: int) -> Lines:
    word, *fields = lines[i].split(" ")
    # A rack behind a node's id has no kind, and stays.
    at = random.randrange(len(FORMS[word]))
    fields[at] = altered_field(fields[at], FORMS[word][at], lines)
    return lines[:i] + [" ".join([word, *fields])] + lines[i + 1 :]


def turn(lines: Lines, i: int) -> Lines:
    word, *fields = lines[i].split(" ")
    if word == "apply":
        word, fields = "merge", fields[:2] + fields[3:]
    elif word == "merge":
        word, fields = "apply", [*fields[:2], "1", *fields[2:]]
    elif word in TURNS:
        word = random.choice(TURNS[word])
    return lines[:i] + [" ".join([word, *fields])] + lines[i + 1 :]


WAYS: list[Callable[[Lines, int], Lines]] = [take_out, double, move, alter, turn]


def damaged(lines: Lines) -> tuple[str, Lines] | None:
    word = random.choices(list(FORMS), [OFTEN.get(word, 1) for word in FORMS])[0]
    at = [i for i, line in enumerate(lines) if word_of(line) == word]
    if not at:
        return None
    way = random.choice(WAYS)
    made = way(lines, random.choice(at))
    return (f"{word}-{way.__name__}", made) if made != lines else None


def main() -> None:
    seed, count, into, *names = sys.argv[1:]
    random.seed(int(seed))
    texts = {pathlib.Path(name).stem: pathlib.Path(name).read_text() for name in names}
    made = 0
    # Some transcripts have no line to damage.
    for _ in range(100 * int(count)):
        if made == int(count):
            return
        name, text = random.choice(list(texts.items()))
        found = damaged(text.splitlines())
        if found is not None:
            done, lines = found
            file = pathlib.Path(into) / f"{made:03}-{done}-{name}.transcript"
            file.write_text("".join(f"{line}\n" for line in lines))
            made += 1
    sys.exit("damage.py: there are too few lines to damage")


if __name__ == "__main__":
    main()
