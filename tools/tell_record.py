"""Tells what became of one record in a run: its requests, which writes were given up and why, and who holds it."""
from __future__ import annotations

from typing import Iterator

import tell_run
import tell_words
from tell_reading import REQUESTS, Reading
from tell_records import Change, Request
from tell_versions import Version, version_of, why_newer


class Story:
    """What became of the record that is named first in the run."""

    def __init__(self, run: tell_run.Run, reading: Reading):
        self.run, self.reading = run, reading
        self.name = run.names[0]
        self.words = tell_words.Words(reading)
        self.record = reading.record(self.name.digest)
        self.given_up = self.record.given_up()
        self.past_of_best = self.record.past(self.record.best)
        # Of each version that isn't given up one that some store has: itself, or one that follows from it.
        held = [version for version in self.record.held.values() if version is not None]
        self.held_for = {past: version for version in held for past in self.record.past(version)}
        self.held_for |= {version: version for version in held}
        self.keys = {name.key for name in run.names[1:] if name.digest == self.name.digest}

    @property
    def is_named(self) -> bool:
        """Whether some line of the script names the record."""
        return bool(self.keys)

    def told(self) -> Iterator[str]:
        yield f"{self.words.record(self.name.digest)}: digest {self.name.digest}, partition {self.name.partition}"
        yield f"The versions of a record are compared by {self.reading.policy} first."
        yield tell_words.LEGEND
        yield ""
        yield from self.requests()
        yield ""
        yield from self.holders()
        yield ""
        yield from self.losses()

    # ---- requests

    def requests(self) -> Iterator[str]:
        """Each request of the record, and what became of it."""
        accepted = {request.script_line: request for request in self.reading.requests}
        asked = [it for it in self.run.blocks if it.entry.word in REQUESTS and it.entry.key in self.keys]
        if not asked:
            yield "no request of it is made"
        for block in asked:
            yield f"line {block.entry.number}: {block.entry.text()}"
            request = accepted.get(block.entry.number)
            yield from (f"  {line}" for line in (self.fate(request) if request else self.refusal(block)))

    def refusal(self, block: tell_run.Block) -> Iterator[str]:
        for told in self.words.told(block):
            yield f"{told.text} {tell_words.numbered(told.numbers)}"

    def fate(self, request: Request) -> Iterator[str]:
        """What became of a request that a node accepted."""
        where = f"node {request.node} in the view {request.view}"
        if request.ended == "value":
            yield f"answered by {where}: {self.words.version(self.record, request.version)} [{request.ended_at}]"
        elif not request.applied:
            end = f"aborted [{request.ended_at}]" if request.ended else "still open at the end"
            lacks = "not applied" if request.is_write else "not answered"
            yield f"accepted by {where} [{request.opened}], and {end}: {lacks}"
        else:
            before = "the first that its view knows"
            if request.before is not None:
                before = f"which follows from {self.words.version(self.record, request.before)}"
            yield f"applied by {where}: {request.version}, {before} [{request.applied}]"
            yield self.acknowledgement(request)
            yield self.end_of(request.version)

    def acknowledgement(self, request: Request) -> str:
        if request.ended == "done":
            return f"acknowledged, as done [{request.ended_at}]"
        if request.ended == "doubt":
            return f"not acknowledged, but in doubt [{request.ended_at}]"
        return "not acknowledged by the end"

    def end_of(self, version: Version) -> str:
        """What became of a version by the end."""
        record, best = self.record, self.record.best
        holders = record.holders(version)
        hold = "holds" if len(holders) == 1 else "hold"
        held = f", and {tell_words.nodes_of(holders)} still {hold} it" if holders else ""
        if version == best:
            return "the newest version at the end"
        if version in self.given_up:
            return self.giving_up(version, self.given_up[version])
        newest = self.words.version(record, best)
        if version in self.past_of_best:
            return f"overwritten: the newest version at the end, {newest}, follows from it{held}"
        rival = self.held_for[version]
        what = f"to be given up{held}"
        if rival != version:
            what = f"overwritten by {self.words.version(record, rival)}, and to be given up with that"
        why = why_newer(best, rival, record.policy)
        return f"{what}: the newest version at the end, {newest}, doesn't follow from it: {why}"

    def giving_up(self, version: Version, change: Change) -> str:
        record = self.record
        what = "given up"
        if change.old != version:
            what = f"overwritten by {self.words.version(record, change.old)}, and given up with that"
        winner = self.words.version(record, change.winner)
        if change.new is None:
            how = f"node {change.node} drops the last copy, and the newest version, {winner}, doesn't follow from it"
        else:
            how = f"node {change.node} takes {self.words.version(record, change.new)} in place of it"
            how += ", which doesn't follow from it" if change.winner == change.new else f", which follows from {winner}"
        return f"{what}: {how}: {why_newer(change.winner, change.old, record.policy)} [{change.number}]"

    # ---- at the end

    def holders(self) -> Iterator[str]:
        yield "At the end"
        held = {it.node: it.version for it in self.run.held if it.digest == self.name.digest}
        for node in self.reading.nodes:
            state = "stopped" if node in self.reading.stopped else "up"
            yield f"  node {node}, {state}: {self.words.version(self.record, version_of(held[node]))}"

    def losses(self) -> Iterator[str]:
        lost = [it for it in self.record.writes if it.ended == "done" and it.version in self.given_up]
        lines = [f"line {request.script_line}, {request.version}" for request in lost]
        yield f"acknowledged writes given up: {len(lost)}"
        yield from (f"  {line}" for line in lines)
        if self.record in self.reading.on_stopped_nodes_only():
            where = tell_words.nodes_of(self.record.holders(self.record.best))
            yield f"the newest version is on stopped nodes only: {where}"
