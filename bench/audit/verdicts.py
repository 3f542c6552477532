#!/usr/bin/env python3
"""usage: verdicts.py TRANSCRIPT..: prints of each what `--audit` is to say of it, by the claims of
docs/READINGS.md.

Each law is asked of a journal word for word, at every place, every record, every view and every
replica. The answer is the least number of lines of which a law fails. Since what a lawful journal
begins with is lawful too, that number is found by halving. Slow and plain; for transcripts of some
thousand lines.
"""
import sys


from readings import Journal, Line, ids_of, lines_of, next_version, partition_of

HEADER = ("script", "factor", "policy", "node")
CHANGES = ("exchanged", "settled", "learn", "drop", "apply", "merge", "done")
IN_VIEW = (*CHANGES, "opened", "value", "map")
# The words that some reading of a claim looks at. All readings pass over a line of another word, so
# they are the same behind it as before it.
READ = (*HEADER, *CHANGES, "clock", "enter", "stop", "value", "map")


# ---- the shape


def keeps_header(journal: Journal) -> bool:
    is_header = [line.word in HEADER for line in journal.lines]
    stands_first = is_header == sorted(is_header, reverse=True)
    return stands_first and len(set(journal.nodes)) == len(journal.nodes)


def names_declared(journal: Journal) -> bool:
    declared = set(journal.nodes)
    return all(declared.issuperset(line.named) for line in journal.lines)


def enters_rightly(journal: Journal) -> bool:
    entries = [line for line in journal.lines if line.word == "enter"]
    lists = {(line.key, line.members) for line in entries}
    return (
        len(lists) == len({key for key, _ in lists})
        and all(list(ids_of(line.members)) == falling(ids_of(line.members)) for line in entries)
        and all(line.node in ids_of(line.members) for line in entries)
        and len({(line.key, line.node) for line in entries}) == len(entries)
    )


def falling(ids: tuple[int, ...]) -> list[int]:
    return sorted(set(ids), reverse=True)


def names_entered(journal: Journal) -> bool:
    return all(
        journal.has_entered(line.key, line.node, place)
        for place, line in enumerate(journal.lines)
        if line.word in IN_VIEW
    )


def follows_entries(journal: Journal) -> bool:
    return all(
        journal.has_entered(line.key, node, place)
        for place, line in enumerate(journal.lines)
        if line.word in ("exchanged", "map")
        for node in ids_of(journal.members(line.key)[place])
    )


def keeps_shape(journal: Journal) -> bool:
    parts = (keeps_header, names_declared, enters_rightly, names_entered, follows_entries)
    return all(part(journal) for part in parts)


# ---- the claims


def places(journal: Journal) -> range:
    return range(len(journal.lines) + 1)


def has_one_map(journal: Journal) -> bool:
    end = len(journal.lines)
    maps = [line for line in journal.lines if line.word == "map"]
    shown = {(line.key, line.partition, line.members, line.acting) for line in maps}
    return len(shown) == len({(key, partition) for key, partition, _, _ in shown}) and all(
        members == journal.listed_members(key, partition, end)
        and acting == journal.acting(key, partition, end)
        for key, partition, members, acting in shown
    )


def loses_nothing(journal: Journal) -> bool:
    def newest(digest: str, place: int):
        return journal.join(*(journal.content(node, digest)[place] for node in journal.nodes))

    return all(
        newest(digest, place) == journal.applied(digest)[place]
        for place in places(journal)
        for digest in journal.digests
    )


def has_settled_join(journal: Journal) -> bool:
    return all(
        journal.content(node, digest)[place] == journal.fold(key, digest, place)
        for place in places(journal)
        for key in journal.keys
        for digest in journal.digests
        if is_claimed(journal, key, partition_of(digest), place)
        for node in journal.replicas(key, partition_of(digest), place)
        if journal.view(node)[place] == key
    )


def is_claimed(journal: Journal, key: tuple[int, int], partition: int, place: int) -> bool:
    return (
        journal.view(journal.master(key, partition, place))[place] == key
        and journal.is_settled(key, partition, place)
        and not journal.has_open_write(key, partition, place)
    )


def has_read_join(journal: Journal) -> bool:
    return all(joins_view(journal, place, line) for place, line in enumerate(journal.lines))


def joins_view(journal: Journal, place: int, line: Line) -> bool:
    if line.word not in ("value", "apply"):
        return True
    fold = journal.fold(line.key, line.digest, place)
    if line.word == "value":
        return line.version == fold
    clock = journal.clock(line.node)[place]
    return line.version == next_version(fold, clock, line.version.value)


# ---- the verdict

CLAIMS = (
    ("onemap", has_one_map),
    ("noloss", loses_nothing),
    ("settledjoin", has_settled_join),
    ("readjoin", has_read_join),
)


def broken_law(lines: list[Line]) -> str | None:
    """The first law in their order that the journal breaks."""
    if not keeps_shape(Journal(lines)):
        return "shape"
    journal = Journal([line for line in lines if line.word in READ])
    return next((law for law, holds in CLAIMS if not holds(journal)), None)


def verdict(text: str) -> str:
    lines = lines_of(text)
    broken = broken_law(lines)
    if broken is None:
        return "holds"
    # Of the first `lawful` lines all laws hold, and of the first `least` lines `broken` is the
    # first that doesn't.
    lawful, least = 0, len(lines)
    while least - lawful > 1:
        middle = (lawful + least) // 2
        law = broken_law(lines[:middle])
        if law is None:
            lawful = middle
        else:
            least, broken = middle, law
    return f"fails {broken} {least}"


def main() -> None:
    for name in sys.argv[1:]:
        with open(name, encoding="ascii") as transcript:
            print(verdict(transcript.read()))


if __name__ == "__main__":
    main()
