"""What became of records by a transcript alone, as `--tell` reads it of a run (tell_reading): which acknowledged writes were
given up, and the life of one record. Only the lines that speak of these records are read, a second time.
"""
from __future__ import annotations

import contextlib
from collections import Counter, defaultdict
from dataclasses import dataclass
from typing import Callable

import tell_reading
import tell_record
import tell_run
import tell_script
from explain_lists import partition_of
from tell_records import Change, Record, Request, given_up_though_done
from tell_versions import Version
from timeline_reading import BROKEN, Lane, Reading, Span

Line = tell_run.Line
# What a line of these kinds has at this place is the digest of a record.
DIGEST_AT = {"opened": 4, "refused": 2, "value": 4, "apply": 4, "merge": 3}
# Lanes that are counted of partitions, and of requests; the others say nothing of one record.
OF_PARTITIONS = (Lane.HANDED, Lane.SETTLED, Lane.LEARNT, Lane.DROPPED)
OF_REQUESTS = (Lane.DONE, Lane.ANSWERED, Lane.REFUSED, Lane.DOUBT, Lane.ABORTED, Lane.OPEN)


def read_records(reading: Reading, line: Callable[[int], Line], names: list[tell_run.Name]) -> tell_reading.Reading | None:
    """The records of these names as `--tell` reads them; a request stands with the transcript's line that accepted it. None
    where the lines aren't as the rules say: a write without its request, say, or one that isn't the next of what its view
    knows."""
    numbers = set(reading.frame)
    for name in names:
        numbers.update(reading.of_record[name.digest], reading.drops[int(name.partition)])
    block = tell_run.Block(tell_script.Entry(0, "", []), [line(number) for number in sorted(numbers)])
    try:
        records = tell_reading.Reading(tell_run.Run([block], names, []))
    except (tell_reading.Unread, KeyError):
        return None
    for request in records.requests:
        request.script_line = request.opened
    return records


def name_of(digest: str, key: bytes | None = None) -> tell_run.Name:
    return tell_run.Name(key or b"#" + digest.encode(), digest, str(partition_of(digest)))


def count_given_up(reading: Reading, line: Callable[[int], Line]) -> bool:
    """Counts the acknowledged writes that were given up, each at the line by which that came; whether they can be told.

    Where the generations of a record's writes rise by one, each write follows from the one before, and the last one is the
    newest: by the claim that no version is lost, none of them is given up. So only the other records are read."""
    suspects = [digest for digest, generation in reading.generations.items() if generation == BROKEN]
    if not suspects:
        return True
    records = read_records(reading, line, [name_of(digest) for digest in suspects])
    # A transcript that isn't as the rules say may lack what was never held.
    with contextlib.suppress(KeyError):
        if records:
            add_given_up(reading, given_up_though_done(records.records.values()))
            return True
    return False


def add_given_up(reading: Reading, given_up: list[tuple[Request, Change]]) -> None:
    for request, change in given_up:
        reading.others.setdefault(change.number, []).extend([request.applied, request.ended_at])
        reading.nodes[change.node].events[Lane.GIVEN_UP].append(change.number)
    for node in reading.nodes.values():
        if Lane.GIVEN_UP in node.events:
            node.events[Lane.GIVEN_UP].sort()


# ---- one record


@dataclass
class Holding(Span):
    """What a node holds of the record, from the line that brought it to the one behind which it holds something else."""

    version: Version = Version(0, 1, None)
    # What the node holds then; and whether no store has the version any more, nor one that follows from it.
    after: Version | None = None
    is_given_up: bool = False


class Life:
    """The life of one record, of which alone the reading counts requests and partitions from then on."""

    def __init__(self, reading: Reading, line: Callable[[int], Line], key: bytes, digest: str):
        self.name = name_of(digest, key)
        keep_own(reading, line, self.name)
        # What each node held, and of each version who held it and its number.
        self.holdings: dict[str, list[Holding]] = {}
        self.holders: defaultdict[Version, list[tuple[str, Holding]]] = defaultdict(list)
        self.numbers: dict[Version, int] = {}
        self.story = story_of(read_records(reading, line, [self.name]))
        if self.story:
            self.read(reading, self.story.record)

    def read(self, reading: Reading, record: Record) -> None:
        add_given_up(reading, given_up_though_done([record]))
        self.holdings = {node: holdings_of(changes) for node, changes in record.changes.items()}
        for node, holdings in self.holdings.items():
            for holding in holdings:
                self.holders[holding.version].append((node, holding))
        self.numbers = {version: at for at, version in enumerate(record.makers, 1)}

    @property
    def is_told(self) -> bool:
        """Whether the transcript is as the rules say, so that versions and what they follow from can be told."""
        return self.story is not None

    def number_of(self, version: Version) -> int:
        """The version's number, by the order in which versions were first written; 0 where no line wrote it."""
        return self.numbers.get(version, 0)


def story_of(records: tell_reading.Reading | None) -> tell_record.Story | None:
    """What became of the record. None where the transcript isn't as the rules say, which may lack what was never held."""
    with contextlib.suppress(KeyError):
        return tell_record.Story(records.run, records) if records else None


def holdings_of(changes: list[Change]) -> list[Holding]:
    held: list[Holding] = []
    for change in changes:
        if change.new == change.old:
            continue
        if change.old is not None:
            held[-1].end, held[-1].after, held[-1].is_given_up = change.number, change.new, change.is_last
        if change.new is not None:
            held.append(Holding(change.number, version=change.new))
    return held


def digest_in(line: Line) -> str:
    return line.fields[DIGEST_AT[line.kind]] if line.kind in DIGEST_AT else ""


def keep_own(reading: Reading, line: Callable[[int], Line], name: tell_run.Name) -> None:
    """Keeps of the lines that are counted those of the record's requests and of its partition."""

    def is_own(lane: Lane, number: int) -> bool:
        if lane in OF_PARTITIONS:
            return line(number).fields[3] == name.partition
        first = reading.others.get(number) or [number]
        return lane in OF_REQUESTS and name.digest in (digest_in(line(number)), digest_in(line(first[0])))

    for node in reading.nodes.values():
        for lane, numbers in node.events.items():
            node.events[lane] = [number for number in numbers if is_own(lane, number)]
    refused = [number for node in reading.nodes.values() for number in node.events.get(Lane.REFUSED, ())]
    reading.causes = Counter(line(number).fields[3] for number in refused)
