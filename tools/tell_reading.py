"""Reads a run's transcript once, and keeps what its lines are told by: requests, records, views, and who is up.

Each word is a reading of docs/READINGS.md: what a node holds (content), its view, what a view knows of a record (fold).
Two things that the rules promise are checked, and nothing is told where they don't hold: each write makes the next
version of what its view knows, and at the end each store holds what is read here.
"""
from __future__ import annotations

import tell_run
from tell_records import Change, Record, Request
from tell_versions import MOST_GENERATION, Version, version_of

Line = tell_run.Line
REQUESTS = {"put": "put", "get": "get", "del": "del", "cput": "put", "cget": "get", "cdel": "del"}


class Unread(Exception):
    """The transcript isn't as the rules say."""


class View:
    """A view: its members, and at which line each of them entered it."""

    def __init__(self, members: list[str]):
        self.members = members
        self.entered: dict[str, int] = {}


class Reading:
    def __init__(self, run: tell_run.Run):
        self.run = run
        self.policy, self.factor = "time", 1
        self.nodes: list[str] = []
        self.stopped: set[str] = set()
        self.view_of: dict[str, str] = {}
        self.views: dict[str, View] = {}
        self.records: dict[str, Record] = {}
        self.requests: list[Request] = []
        self.transactions: dict[tuple[str, str, str], Request] = {}
        # By the number of a line: the changes of what a node holds; the request that it is about; and of `holds`
        # lines those of a stopped node.
        self.changes: dict[int, list[Change]] = {}
        self.request_at: dict[int, Request] = {}
        self.was_stopped: set[int] = set()
        self.refusals: list[str] = []
        self.without_table = 0
        self.asked = 0
        self.applied_in: dict[tuple[str, str], Version] = {}
        self.digests_at: dict[tuple[str, str], set[str]] = {}
        self.partition_of = {name.digest: name.partition for name in run.names}
        for block in run.blocks:
            self.asked += block.entry.word in REQUESTS
            for line in block.lines:
                self.read(block, line)
        self.check_held()

    def read(self, block: tell_run.Block, line: Line) -> None:
        reader = getattr(self, f"read_{line.kind}", None)
        if reader:
            reader(block, line, *line.fields[1:])

    def record(self, digest: str) -> Record:
        if digest not in self.records:
            self.records[digest] = Record(digest, self.policy)
        return self.records[digest]

    # ---- the header, nodes and views

    def read_policy(self, block: tell_run.Block, line: Line, name: str) -> None:
        self.policy = name

    def read_factor(self, block: tell_run.Block, line: Line, factor: str) -> None:
        self.factor = int(factor)

    def read_node(self, block: tell_run.Block, line: Line, node: str, rack: str = "") -> None:
        self.nodes.append(node)

    def read_stop(self, block: tell_run.Block, line: Line, node: str) -> None:
        self.stopped.add(node)

    def read_start(self, block: tell_run.Block, line: Line, node: str) -> None:
        self.stopped.discard(node)

    def read_enter(self, block: tell_run.Block, line: Line, node: str, view: str, members: str) -> None:
        if view not in self.views:
            self.views[view] = View([member.partition("/")[0] for member in members.split(",")])
        self.views[view].entered[node] = line.number
        self.view_of[node] = view

    def replicas_in(self, view: str) -> int:
        return min(self.factor, len(self.views[view].members))

    # ---- requests

    def read_opened(
        self, block: tell_run.Block, line: Line, node: str, view: str, number: str, digest: str, want: str
    ) -> None:
        request = Request(block.entry.number, want, node, view, digest, line.number)
        self.requests.append(request)
        self.transactions[node, view, number] = request
        self.request_at[line.number] = request

    def read_refused(self, block: tell_run.Block, line: Line, node: str, digest: str, cause: str, by: str = "") -> None:
        self.refusals.append(cause)
        if cause == "busy":
            self.request_at[line.number] = self.transactions[node, self.view_of[node], by]

    def read_nomap(self, block: tell_run.Block, line: Line, partition: str) -> None:
        self.without_table += 1

    def end(self, line: Line, node: str, view: str, number: str) -> Request:
        request = self.transactions[node, view, number]
        request.ended, request.ended_at = line.kind, line.number
        self.request_at[line.number] = request
        return request

    def read_done(self, block: tell_run.Block, line: Line, node: str, view: str, number: str) -> None:
        self.end(line, node, view, number)

    read_doubt = read_aborted = read_done

    def read_value(
        self, block: tell_run.Block, line: Line, node: str, view: str, number: str, digest: str, version: str
    ) -> None:
        self.end(line, node, view, number).version = version_of(version)

    # ---- what nodes hold

    def read_apply(
        self, block: tell_run.Block, line: Line, node: str, view: str, number: str, digest: str, version: str
    ) -> None:
        request = self.transactions[node, view, number]
        record = self.record(digest)
        request.applied, request.version = line.number, version_of(version)
        request.before = self.fold(view, record, line.number)
        if not is_next(request.version, request.before):
            raise Unread
        self.request_at[line.number] = request
        record.add_write(request)
        self.applied_in[view, digest] = record.join(self.applied_in.get((view, digest)), request.version)
        self.hold(line, node, digest, request.version, request.before)

    def read_merge(
        self, block: tell_run.Block, line: Line, node: str, view: str, digest: str, version: str
    ) -> None:
        self.hold(line, node, digest, version_of(version), version_of(version))

    def read_drop(self, block: tell_run.Block, line: Line, node: str, view: str, partition: str) -> None:
        for digest in sorted(self.digests_at.pop((node, partition), ())):
            record = self.record(digest)
            change = record.change(line.number, node, None, record.best)
            self.changes.setdefault(line.number, []).append(change)

    def hold(self, line: Line, node: str, digest: str, version: Version, winner: Version | None) -> None:
        """The node joins the version into what it holds."""
        record = self.record(digest)
        joined = record.join(record.held.get(node), version)
        self.changes.setdefault(line.number, []).append(record.change(line.number, node, joined, winner))
        self.digests_at.setdefault((node, self.partition_of[digest]), set()).add(digest)

    def fold(self, view: str, record: Record, number: int) -> Version | None:
        """What the view knows of the record before that line."""
        entered = self.views[view].entered.items()
        entries = [record.held_before(node, at) for node, at in entered]
        return record.join(*entries, self.applied_in.get((view, record.digest)))

    def check_held(self) -> None:
        """What the program says of the stores at the end is what was read."""
        for held in self.run.held:
            record = self.records.get(held.digest)
            if version_of(held.version) != (record and record.held.get(held.node)):
                raise Unread

    def read_holds(self, block: tell_run.Block, line: Line, node: str, digest: str, version: str) -> None:
        if node in self.stopped:
            self.was_stopped.add(line.number)

    # ---- at the end

    def on_stopped_nodes_only(self) -> list[Record]:
        """The records of which no up node holds the newest version, and some stopped one does."""
        found = []
        for record in self.records.values():
            holders = record.holders(record.best) if record.best else []
            if holders and self.stopped.issuperset(holders):
                found.append(record)
        return found


def is_next(version: Version, before: Version | None) -> bool:
    """Whether the version is the next one of that, but for its value and for a time that the clock gave."""
    if before is None:
        return version.generation == 1
    return version.generation == min(before.generation + 1, MOST_GENERATION) and version.time >= before.time
