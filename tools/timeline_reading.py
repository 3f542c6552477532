"""Reads a transcript once, from any program, and keeps what its timeline shows: of each node its views and stops and what
is counted along them, and how the network was divided.

Each word is a reading of docs/READINGS.md. Nothing is asked of the lines but their forms, so a transcript that breaks a law
is read too.
"""
from __future__ import annotations

import enum
from collections import Counter, defaultdict
from dataclasses import dataclass, field
from itertools import accumulate, chain
from typing import NamedTuple

import timeline_lines
from explain_lists import partition_of
from timeline_lines import Transcript

CLIENT = "0"
# Whom a message goes to that no line sends.
NOBODY = "?"
BROKEN = -1
# A line of one of these kinds says that something happened, with which a step begins.
BEGINS = frozenset((
    b"clock", b"groups", b"quiesce", b"unquiesce", b"tick", b"stop", b"start", b"down", b"up", b"deliver", b"repeat", b"cut",
    b"lost", b"blocked", b"nomessage", b"opened", b"refused", b"client", b"nomap", b"map", b"mapless", b"place", b"hash",
    b"holds", b"calm", b"call", b"callfull", b"again", b"noopen", b"scan", b"noscan", b"rescan",
))


class Lane(str, enum.Enum):
    """What is counted along a node, in the order in which it stands below the node's views."""

    PROMISED = "promised"
    HANDED = "handed over"
    SETTLED = "settled"
    LEARNT = "learnt"
    DROPPED = "dropped"
    DONE = "done"
    ANSWERED = "answered"
    REFUSED = "refused"
    DOUBT = "in doubt"
    ABORTED = "aborted"
    OPEN = "open"
    NO_TABLE = "no table"
    TABLES = "tables"
    GIVEN_UP = "given up"
    BLOCKED = "blocked"
    LOST = "lost"

    @property
    def subject(self) -> str:
        """What it is about: agreement, partitions, requests or messages."""
        if self is Lane.PROMISED:
            return "agreement"
        if self in (Lane.HANDED, Lane.SETTLED, Lane.LEARNT, Lane.DROPPED):
            return "partitions"
        return "messages" if self in (Lane.BLOCKED, Lane.LOST) else "requests"


# Lines of these kinds are counted at the node that they name.
COUNTED = {
    "promise": Lane.PROMISED, "handed": Lane.HANDED, "settled": Lane.SETTLED, "learn": Lane.LEARNT, "drop": Lane.DROPPED,
    "done": Lane.DONE, "value": Lane.ANSWERED, "refused": Lane.REFUSED, "doubt": Lane.DOUBT, "aborted": Lane.ABORTED,
}


@dataclass
class Span:
    """What lasts from one line on, up to another or, where there is none, to the end of the transcript."""

    begin: int
    end: int | None = None


@dataclass
class View:
    """A view: its members as a transcript lists them, and who of them has finished the exchange. `left` are the partitions
    of which some member had a record as it entered and that no line has settled yet. The view is settled by the line with
    which none is left and all members have finished the exchange."""

    members: list[str]
    exchanged: set[str] = field(default_factory=set)
    left: set[int] = field(default_factory=set)
    settled_partitions: set[int] = field(default_factory=set)
    settled: int | None = None

    def look(self, number: int) -> None:
        if not self.left and self.settled is None and len(self.exchanged) == len(self.members):
            self.settled = number


@dataclass
class Stay(Span):
    """A node's stay in a view: an `enter` line, up to the node's next one or its stop."""

    key: str = ""
    view: View = field(default_factory=lambda: View([]))
    exchanged: int | None = None

    @property
    def settled(self) -> int | None:
        """The line that settles the view, if the node is still in it."""
        settled = self.view.settled
        return settled if settled and (self.end is None or settled < self.end) else None


@dataclass
class Division(Span):
    """How the network is divided: a `groups` line, up to the next one."""

    groups: list[list[str]] = field(default_factory=list)

    @property
    def is_split(self) -> bool:
        return len(self.groups) > 1

    def group_of(self, node: str) -> int | None:
        return next((at for at, group in enumerate(self.groups) if node in group), None)


@dataclass
class Node:
    """A node or the client, with what happened at it. `events` are the lines that are counted along it."""

    id: str
    rack: str = ""
    is_declared: bool = False
    stays: list[Stay] = field(default_factory=list)
    stops: list[Span] = field(default_factory=list)
    quiesced: list[Span] = field(default_factory=list)
    events: defaultdict[Lane, list[int]] = field(default_factory=lambda: defaultdict(list))

    @property
    def is_node(self) -> bool:
        return self.id not in (CLIENT, NOBODY)

    @property
    def stay(self) -> Stay | None:
        """The stay in the view that it is in."""
        return self.stays[-1] if self.stays and self.stays[-1].end is None else None


class Nodes(dict[str, Node]):
    """Nodes by their ids. One that is asked for is there from then on."""

    def __missing__(self, node: str) -> Node:
        self[node] = Node(node)
        return self[node]


class Request(NamedTuple):
    """A request that a node accepted, and its lines up to now."""

    node: str
    digest: str
    want: str
    lines: list[int]

class Reading:
    """What a transcript's timeline shows. Lines are named by their numbers."""

    def __init__(self, transcript: Transcript):
        self.transcript = transcript
        self.counts: Counter[str] = Counter()
        self.settings = {"script": "1", "factor": "1", "policy": "time"}
        self.nodes = Nodes()
        self.views: dict[str, View] = {}
        self.divisions: list[Division] = []
        self.calms: list[int] = []
        self.causes: Counter[str] = Counter()
        # The step that each line is in, from line 0 on, which is none; the header is step 0.
        self.steps = [0]
        # All `sent` lines; and the messages that don't arrive, each with the line that says so.
        self.sent: list[int] = []
        self.sent_by_message: dict[str, int] | None = None
        self.missed: list[tuple[Lane, int, str]] = []
        # Each open request, by node, key and transaction.
        self.requests: dict[tuple[str, str, str], Request] = {}
        # The lines that stand before a counted one and belong to it.
        self.others: dict[int, list[int]] = {}
        # The partitions that a node has records of, by node; and which partition a digest is in.
        self.held: defaultdict[str, set[int]] = defaultdict(set)
        self.partitions: dict[str, int] = {}
        # The lines that say what became of records: those of nodes and views, of each partition's drops, and of the
        # writes of each record; and the generation of each record's last write, or BROKEN once they don't rise by one.
        self.frame: list[int] = []
        self.drops: defaultdict[int, list[int]] = defaultdict(list)
        self.of_record: defaultdict[str, list[int]] = defaultdict(list)
        self.generations: dict[str, int] = {}
        self.read()
        self.count_steps()
        self.count_missed()

    @property
    def last(self) -> int:
        """The number of the last line."""
        return len(self.steps) - 1

    def read(self) -> None:
        takes = {kind: getattr(self, f"take_{kind}", None) for kind in timeline_lines.FORMS}
        quiet = [kind for kind, take in takes.items() if not take and kind not in COUNTED]
        nodes = self.nodes
        for number, fields in self.transcript.lines(quiet):
            kind = fields[0]
            if kind in COUNTED:
                nodes[fields[1]].events[COUNTED[kind]].append(number)
            take = takes[kind]
            if take:
                take(number, *fields[1:])
        for request in self.requests.values():
            self.leave_open(request)

    def count_steps(self) -> None:
        words, parts = self.transcript.words, self.transcript.parts
        self.counts = Counter({word.decode(): count for word, count in Counter(words).items()})
        self.sent = [number for number, word in enumerate(words, 1) if word == b"sent"]
        # What follows `client` is of one step with it.
        begins = [word in BEGINS and before != b"client" for before, word in zip(chain([b""], words), words)]
        for number in self.sent:
            # The client asks for a table, which no other line says.
            if parts[number - 1].split(b" ", 3)[2] == b"0":
                begins[number - 1] = True
        self.steps = [0, *accumulate(begins)]

    def count(self, lane: Lane, number: int, node: str) -> None:
        self.nodes[node].events[lane].append(number)

    def partition(self, digest: str) -> int:
        found = self.partitions.get(digest)
        if found is None:
            found = self.partitions[digest] = partition_of(digest)
        return found

    # ---- the header, nodes and the network

    def take_script(self, number: int, version: str) -> None:
        self.settings["script"] = version

    def take_factor(self, number: int, factor: str) -> None:
        self.settings["factor"] = factor
        self.frame.append(number)

    def take_policy(self, number: int, policy: str) -> None:
        self.settings["policy"] = policy
        self.frame.append(number)

    def take_node(self, number: int, node: str, rack: str = "") -> None:
        self.nodes[node].rack, self.nodes[node].is_declared = rack, True
        self.frame.append(number)

    def take_stop(self, number: int, node: str) -> None:
        self.leave(node, number)
        begin(self.nodes[node].stops, number)
        self.frame.append(number)

    def take_start(self, number: int, node: str) -> None:
        end(self.nodes[node].stops, number)
        self.frame.append(number)

    def take_quiesce(self, number: int, node: str) -> None:
        begin(self.nodes[node].quiesced, number)

    def take_unquiesce(self, number: int, node: str) -> None:
        end(self.nodes[node].quiesced, number)

    def take_groups(self, number: int, *fields: str) -> None:
        end(self.divisions, number)
        self.divisions.append(Division(number, groups=[group.split() for group in " ".join(fields).split("|")]))

    def take_calm(self, number: int, rounds: str) -> None:
        self.calms.append(number)

    # ---- views

    def leave(self, node: str, number: int) -> None:
        end(self.nodes[node].stays, number)

    def take_enter(self, number: int, node: str, key: str, members: str) -> None:
        self.leave(node, number)
        view = self.views.get(key)
        if view is None:
            view = self.views[key] = View(members.split(","))
        view.left |= self.held[node] - view.settled_partitions
        self.nodes[node].stays.append(Stay(number, key=key, view=view))
        self.frame.append(number)

    def take_exchanged(self, number: int, node: str, key: str) -> None:
        stay = self.nodes[node].stay
        if stay and stay.key == key and stay.exchanged is None:
            stay.exchanged = number
        view = self.views.get(key)
        if view:
            view.exchanged.add(node)
            view.look(number)

    def take_settled(self, number: int, node: str, key: str, partition: str) -> None:
        view = self.views.get(key)
        if view:
            settled = int(partition)
            view.settled_partitions.add(settled)
            view.left.discard(settled)
            if not view.left:
                view.look(number)

    def take_drop(self, number: int, node: str, key: str, partition: str) -> None:
        self.held[node].discard(int(partition))
        self.drops[int(partition)].append(number)

    # ---- requests

    def take_opened(self, number: int, node: str, key: str, transaction: str, digest: str, want: str) -> None:
        before = self.requests.get((node, key, transaction))
        if before:
            self.leave_open(before)
        if want != "get":
            self.of_record[digest].append(number)
        self.requests[node, key, transaction] = Request(node, digest, want, [number])

    def leave_open(self, request: Request) -> None:
        """The request comes to no end: it is counted at the line that accepted it."""
        number, *later = request.lines
        self.others[number] = later
        self.count(Lane.OPEN, number, request.node)

    def take_done(self, number: int, node: str, key: str, transaction: str, *rest: str) -> None:
        """A line that ends a request, also where none opened it."""
        request = self.requests.pop((node, key, transaction), None)
        if request:
            self.others[number] = request.lines
            if request.want != "get":
                self.of_record[request.digest].append(number)

    take_doubt = take_aborted = take_value = take_done

    def take_refused(self, number: int, node: str, digest: str, cause: str, by: str = "") -> None:
        self.causes[cause] += 1

    def take_nomap(self, number: int, partition: str) -> None:
        self.count(Lane.NO_TABLE, number, CLIENT)

    def take_table(self, number: int, key: str) -> None:
        self.count(Lane.TABLES, number, CLIENT)

    # ---- what nodes hold

    def take_apply(self, number: int, node: str, key: str, transaction: str, digest: str, version: str) -> None:
        request = self.requests.get((node, key, transaction))
        if request:
            request.lines.append(number)
        generation = int(version.partition(".")[2].partition("=")[0].rstrip("-"))
        rises = generation == self.generations.get(digest, 0) + 1
        self.generations[digest] = generation if rises else BROKEN
        self.take_merge(number, node, key, digest, version)

    def take_merge(self, number: int, node: str, key: str, digest: str, version: str) -> None:
        self.of_record[digest].append(number)
        self.held[node].add(self.partition(digest))

    # ---- messages

    def take_blocked(self, number: int, message: str) -> None:
        self.missed.append((Lane.BLOCKED, number, message))

    def take_lost(self, number: int, message: str) -> None:
        self.missed.append((Lane.LOST, number, message))

    take_full = take_lost

    def count_missed(self) -> None:
        """Counts each message that doesn't arrive at the node to which it goes."""
        parts = self.transcript.parts
        for lane, number, message in self.missed:
            sent = self.sent_line(message)
            if sent:
                self.others[number] = [sent]
            self.count(lane, number, parts[sent - 1].split(b" ", 4)[3].decode() if sent else NOBODY)

    def sent_line(self, message: str) -> int | None:
        """The line that sends the message. A run numbers its messages from 1 on; other transcripts need not."""
        parts, at = self.transcript.parts, int(message) - 1
        if 0 <= at < len(self.sent) and parts[self.sent[at] - 1].startswith(b"sent %b " % message.encode()):
            return self.sent[at]
        if self.sent_by_message is None:
            self.sent_by_message = {parts[number - 1].split(b" ", 2)[1].decode(): number for number in self.sent}
        return self.sent_by_message.get(message)


def begin(spans: list[Span], number: int) -> None:
    """A span begins with that line, unless one lasts."""
    if not spans or spans[-1].end is not None:
        spans.append(Span(number))


def end(spans: list, number: int) -> None:
    """The span that lasts, if one does, ends with that line."""
    if spans and spans[-1].end is None:
        spans[-1].end = number
