"""The lines of a transcript in words. Each kind of docs/FORMATS.md that a run writes has its words here."""
from __future__ import annotations

from typing import Callable, Iterator, NamedTuple

import explain_fault
import tell_run
from tell_reading import Reading
from tell_records import Change, Record, Request
from tell_versions import Version, version_of, why_newer

Block, Line = tell_run.Block, tell_run.Line
# Lines that only repeat the command: their numbers stand behind it.
ECHOES = ("script", "factor", "policy", "node", "clock", "quiesce", "unquiesce", "groups", "stop", "start")
# Neighbours of these kinds are told as one, where these of their fields are the same.
JOINED = {
    "promise": [2], "enter": [2, 3], "exchanged": [2],
    "handed": [1, 2], "settled": [1, 2], "learn": [1, 2], "drop": [1, 2],
}
MOST_NAMES = 3
LEGEND = "`line 1:` is a line of the script, and `[1]` a line of its transcript."
# The kinds of messages that a run sends, by their first byte.
MESSAGES = {
    1: "heartbeat", 2: "propose", 3: "accept", 4: "refuse", 5: "commit", 6: "state", 7: "batch",
    8: "acknowledgement of a batch", 9: "progress", 10: "replica of a write", 11: "acknowledgement of a replica",
    12: "ask", 13: "answer", 14: "the client asks for the map", 15: "map table",
    16: "heartbeat with a role", 17: "propose with roles", 18: "commit with roles",
}
REFUSALS = {
    "down": "it is stopped (down)",
    "noview": "it is in no view (noview)",
    "exchanging": "it has entered a view, and still lacks what node {by} says of its copies (exchanging)",
    "notmaster": "it doesn't act on {partition}, and names node {by} (notmaster)",
    "busy": "line {line}'s {want} of this record is still open (busy)",
}
MAPLESS = {
    "down": "it is stopped (down)",
    "noview": "it is in no view (noview)",
    "exchanging": "it still lacks what node {by} says of its copies (exchanging)",
}


class Told(NamedTuple):
    """A line in words, and the lines of the transcript that it stands for."""

    text: str
    numbers: list[int]


def listed(parts: list[str]) -> str:
    return f"{', '.join(parts[:-1])} and {parts[-1]}" if len(parts) > 1 else parts[0]


def nodes_of(nodes: list[str]) -> str:
    """Nodes in words, each named once."""
    different = list(dict.fromkeys(nodes))
    return f"node{'s' if len(different) > 1 else ''} {listed(different)}"


def end_of(name: str) -> str:
    return "the client" if name == "0" else f"node {name}"


def numbered(numbers: list[int]) -> str:
    """Numbers of lines in brackets, neighbours as a range."""
    ranges: list[list[int]] = []
    for number in numbers:
        if ranges and ranges[-1][1] + 1 == number:
            ranges[-1][1] = number
        else:
            ranges.append([number, number])
    return f"[{', '.join(str(a) if a == b else f'{a}-{b}' for a, b in ranges)}]"


class Names:
    """What the script calls records, and which of them are in a partition."""

    def __init__(self, names: list[tell_run.Name]):
        self.of_digest: dict[str, str] = {}
        self.of_partition: dict[str, list[str]] = {}
        self.partitions = {name.digest: name.partition for name in names}
        for name in sorted(names, key=lambda name: name.key.startswith(b"#")):
            if name.digest not in self.of_digest:
                self.of_digest[name.digest] = explain_fault.printable(name.key)
                self.of_partition.setdefault(name.partition, []).append(self.of_digest[name.digest])

    def record(self, digest: str) -> str:
        return self.of_digest.get(digest, f"#{digest}")

    def in_brackets(self, partition: str) -> str:
        names = self.of_partition.get(partition, [])
        more = [f"{len(names) - MOST_NAMES} more"] if len(names) > MOST_NAMES else []
        return f"{partition} ({', '.join(names[:MOST_NAMES] + more)})" if names else partition

    def partition(self, number: str) -> str:
        return f"partition {self.in_brackets(number)}"

    def partitions_of(self, numbers: list[str]) -> str:
        if len(numbers) == 1:
            return self.partition(numbers[0])
        return f"partitions {listed([self.in_brackets(number) for number in numbers])}"


class Words:
    """Tells a run block by block."""

    def __init__(self, reading: Reading):
        self.reading = reading
        self.names = Names(reading.run.names)
        self.table: tuple[int, int] | None = None

    def told(self, block: Block) -> Iterator[Told]:
        """What the command brought about, without the lines that only repeat it."""
        joined: list[Line] = []
        for line in block.lines:
            if is_echo(block, line):
                continue
            if joined and joins(line) != joins(joined[0]):
                yield self.in_words(block, joined)
                joined = []
            joined.append(line)
            if joins(line) is None:
                yield self.in_words(block, joined)
                joined = []
        if joined:
            yield self.in_words(block, joined)

    def in_words(self, block: Block, lines: list[Line]) -> Told:
        text = self.joined(lines) if lines[0].kind in JOINED else self.single(block, lines[0])
        return Told(text, [line.number for line in lines])

    def single(self, block: Block, line: Line) -> str:
        words: Callable[..., str] = getattr(self, f"say_{line.kind}")
        return words(block, line, *line.fields[1:])

    # ---- lines that are told together

    def joined(self, lines: list[Line]) -> str:
        kind, node = lines[0].kind, lines[0].fields[1]
        nodes = nodes_of([line.fields[1] for line in lines])
        s = "s" if len(lines) == 1 else ""
        key = lines[0].fields[2]
        if kind == "promise":
            return f"{nodes} promise{s} the cluster key {key}"
        if kind == "enter":
            return f"{nodes} enter{s} the view {key} of the members {lines[0].fields[3].replace(',', ', ')}"
        if kind == "exchanged":
            return f"{nodes} know{s} all copies of the view {key}, and take{s} requests"
        be, copies = ("is", "copy") if s else ("are", "copies")
        partitions = self.names.partitions_of([line.fields[3] for line in lines])
        if kind == "handed":
            return f"node {node} has handed on all that it had of {partitions}, and acts there no more"
        if kind == "settled":
            return f"{partitions} {be} settled, and node {node} acts there"
        if kind == "learn":
            return f"node {node}, a replica, notes that its {copies} of {partitions} {be} whole"
        losses = [self.loss(change) for line in lines for change in self.reading.changes.get(line.number, ())]
        return f"node {node}, no replica, drops its {copies} of {partitions}{''.join(losses)}"

    def loss(self, change: Change) -> str:
        """What goes with a copy that is dropped, where no store has it any more."""
        if not change.is_last:
            return ""
        record = self.reading.records[change.digest]
        lost = f"no store has {self.acknowledged(record, change)} of {self.record(record.digest)} any more"
        return f"; {lost}: {self.version(record, change.winner)} doesn't follow from it, and {self.why(record, change)}"

    # ---- records

    def record(self, digest: str) -> str:
        return self.names.record(digest)

    def version(self, record: Record | None, version: Version | None) -> str:
        """A version with the line of its write."""
        if version is None:
            return "no version"
        makers = record.makers.get(version, []) if record else []
        return version.with_lines(sorted({maker.script_line for maker in makers}))

    def acknowledged(self, record: Record, change: Change) -> str:
        """The version that a change takes away, and whether its write was acknowledged."""
        is_done = any(maker.is_done_at(change.number) for maker in record.makers.get(change.old, ()))
        version = self.version(record, change.old)
        return f"the acknowledged {version.removeprefix('a ')}" if is_done else version

    def why(self, record: Record, change: Change) -> str:
        return why_newer(change.winner, change.old, record.policy)

    def replaced(self, record: Record, change: Change) -> str:
        """What the new version of a node replaces, and why where it doesn't follow from that."""
        if change.old is None:
            return ""
        if change.winner is None:
            return f" in place of {self.version(record, change.old)}"
        text = f" in place of {self.acknowledged(record, change)}, from which it doesn't follow: "
        if change.winner != change.new:
            text += f"it follows from {self.version(record, change.winner)}, and "
        return text + self.why(record, change) + ("; no store has that one any more" if change.is_last else "")

    def subject(self, block: Block, request: Request) -> str:
        """The request as the subject of a sentence."""
        return "it" if block.entry.number == request.script_line else f"line {request.script_line}'s {request.want}"

    # ---- requests

    def say_client(self, block: Block, line: Line, node: str, digest: str) -> str:
        return f"the client's table names node {node}"

    def say_nomap(self, block: Block, line: Line, partition: str) -> str:
        where = self.names.partition(partition)
        return f"nobody is asked: no table, which would name a node for {where}, has reached the client (`ask N`)"

    def say_opened(
        self, block: Block, line: Line, node: str, view: str, number: str, digest: str, want: str
    ) -> str:
        return f"node {node} accepts the {want}, as transaction {number} of the view {view}"

    def say_refused(self, block: Block, line: Line, node: str, digest: str, cause: str, by: str = "") -> str:
        request = self.reading.request_at.get(line.number)
        named = {"line": request.script_line, "want": request.want} if request else {}
        partition = self.names.partition(self.names.partitions.get(digest, ""))
        return f"node {node} refuses it: {REFUSALS[cause].format(by=by, partition=partition, **named)}"

    def say_value(
        self, block: Block, line: Line, node: str, view: str, number: str, digest: str, version: str
    ) -> str:
        request = self.reading.request_at[line.number]
        of = "" if self.subject(block, request) == "it" else f"{self.subject(block, request)}: "
        found = self.version(self.reading.records.get(digest), version_of(version))
        return f"{of}node {node} answers {found}"

    def say_apply(
        self, block: Block, line: Line, node: str, view: str, number: str, digest: str, version: str
    ) -> str:
        request = self.reading.request_at[line.number]
        record = self.reading.records[digest]
        change = self.reading.changes[line.number][0]
        text = f"node {node} applies {self.subject(block, request)}: {self.record(digest)} is {request.version}"
        return text + self.replaced(record, change)

    def say_done(self, block: Block, line: Line, node: str, view: str, number: str) -> str:
        subject = self.subject(block, self.reading.request_at[line.number])
        if self.reading.replicas_in(view) == 1:
            return f"{subject} is done: the view {view} has no other replica"
        return f"{subject} is done: every other replica of the view {view} has acknowledged it"

    def say_aborted(self, block: Block, line: Line, node: str, view: str, number: str) -> str:
        request = self.reading.request_at[line.number]
        end = "applied, and never will be" if request.is_write else "answered"
        return f"{self.subject(block, request)} is aborted: {self.closing(block, line, node)} before it was {end}"

    def say_doubt(self, block: Block, line: Line, node: str, view: str, number: str) -> str:
        subject = self.subject(block, self.reading.request_at[line.number])
        return (
            f"{subject} is in doubt: {self.closing(block, line, node)} after it was applied and before every other "
            f"replica had acknowledged it. Its store keeps it, and a read may get it or not"
        )

    def closing(self, block: Block, line: Line, node: str) -> str:
        """Why a node closes its open requests: the next of its lines that stops it or makes it enter a view."""
        for later in block.lines:
            if later.number > line.number and later.kind in ("stop", "enter") and later.fields[1] == node:
                return f"node {node} {'stops' if later.kind == 'stop' else f'enters the view {later.fields[2]}'}"
        return f"node {node} leaves its view"

    def say_merge(self, block: Block, line: Line, node: str, view: str, digest: str, version: str) -> str:
        record = self.reading.records[digest]
        change = self.reading.changes[line.number][0]
        taken = self.version(record, version_of(version))
        return f"{self.record(digest)}: node {node} takes {taken}{self.replaced(record, change)}"

    # ---- what is shown

    def say_map(self, block: Block, line: Line, node: str, view: str, partition: str, nodes: str, acting: str) -> str:
        where = f"{self.names.partition(partition)} in node {node}'s view {view}"
        return f"{where}: the list is {nodes}, and as the view began node {acting} was to act"

    def say_mapless(self, block: Block, line: Line, node: str, cause: str, by: str = "") -> str:
        return f"node {node} has no map: {MAPLESS[cause].format(by=by)}"

    def say_place(self, block: Block, line: Line, partition: str, nodes: str) -> str:
        return f"{self.names.partition(partition)}: the list over all declared nodes is {nodes}"

    def say_hash(self, block: Block, line: Line, digest: str, partition: str) -> str:
        return f"{self.record(digest)} has the digest {digest}, and is in partition {partition}"

    def say_holds(self, block: Block, line: Line, node: str, digest: str, version: str) -> str:
        stopped = ", which is stopped," if line.number in self.reading.was_stopped else ""
        return f"node {node}{stopped} holds {self.version(self.reading.records.get(digest), version_of(version))}"

    def say_table(self, block: Block, line: Line, view: str) -> str:
        round, principal = map(int, view.split("."))
        if self.table and (round, principal) < self.table:
            kept = "{}.{}".format(*self.table)
            return f"a table of the view {view} reaches the client, which goes by that of {kept}, whose key is greater"
        self.table = round, principal
        return f"a table of the view {view} reaches the client"

    def say_calm(self, block: Block, line: Line, rounds: str) -> str:
        return f"all is at rest after {rounds} round{'' if rounds == '1' else 's'}"

    def say_down(self, block: Block, line: Line, node: str) -> str:
        return f"node {node} is stopped{', and has no tick' if block.entry.word == 'tick' else ' already'}"

    def say_up(self, block: Block, line: Line, node: str) -> str:
        return f"node {node} is up already"

    # ---- ticks and messages

    def say_tick(self, block: Block, line: Line, node: str) -> str:
        return f"node {node} has a tick"

    def say_sent(self, block: Block, line: Line, message: str, sender: str, receiver: str, spelled: str) -> str:
        kind = MESSAGES.get(int(spelled[:2], 16), "another message")
        size = f"{len(spelled) // 2} byte{'s' if len(spelled) > 2 else ''}"
        return f"message {message} of {end_of(sender)} leaves for {end_of(receiver)}: {kind}, {size}"

    def say_full(self, block: Block, line: Line, message: str) -> str:
        return f"message {message} is lost at once, since too many are in flight"

    def say_deliver(self, block: Block, line: Line, message: str, sender: str, receiver: str) -> str:
        return f"message {message} of {end_of(sender)} reaches {end_of(receiver)}"

    def say_repeat(self, block: Block, line: Line, message: str, sender: str, receiver: str) -> str:
        return f"message {message} of {end_of(sender)} reaches {end_of(receiver)}, and stays in flight"

    def say_cut(self, block: Block, line: Line, message: str, sender: str, receiver: str, length: str) -> str:
        return f"message {message} of {end_of(sender)} reaches {end_of(receiver)}, cut to {length} bytes"

    def say_lost(self, block: Block, line: Line, message: str) -> str:
        return f"message {message} is lost"

    def say_blocked(self, block: Block, line: Line, message: str) -> str:
        return f"message {message} can't arrive: its ends are apart, or its receiver is stopped"

    def say_nomessage(self, block: Block, line: Line, message: str) -> str:
        return f"message {message} isn't in flight"

    def say_short(self, block: Block, line: Line, receiver: str) -> str:
        return f"it is cut too short for {end_of(receiver)} to read"

    def say_stale(self, block: Block, line: Line, receiver: str) -> str:
        return f"it is of another view or proposal, and {end_of(receiver)} passes it over"

    def say_spent(self, block: Block, line: Line, receiver: str) -> str:
        return f"nothing at {end_of(receiver)} awaits it"


def joins(line: Line) -> tuple[str, ...] | None:
    """What lines that are told as one have in common; nothing where a line is told by itself."""
    places = JOINED.get(line.kind)
    return (line.kind, *(line.fields[place] for place in places)) if places else None


def is_echo(block: Block, line: Line) -> bool:
    """Whether the line only repeats its command."""
    word = block.entry.word
    return line.kind == word and (word in ECHOES or word == "tick")
