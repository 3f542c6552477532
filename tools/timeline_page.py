"""The page of a transcript's timeline: what it is of, what it comes to in numbers, the legend, the drawing, and tables. All
that it needs is in it, and a policy in its head keeps a browser from fetching anything."""
from __future__ import annotations

import base64
import hashlib
import json
from collections import Counter
from typing import Iterator, NamedTuple

import timeline_style as style
from tell_versions import Version
from timeline_layout import BAR_HEIGHT, MOST_ROWS, MOST_SPANS, Range, drawn_nodes
from timeline_lines import Transcript
from timeline_reading import Lane, Reading
from timeline_records import Life
from timeline_svg import MOST_TEXT, SETTLED, WHITE, Drawing, escaped, rect, text

# What lines of each kind are, in the order of the table.
KINDS = {
    "script": "version of the script", "factor": "replication factor", "policy": "policy", "node": "nodes declared",
    "clock": "clocks set", "groups": "divisions of the network", "quiesce": "nodes quiesced", "unquiesce": "marks taken away",
    "tick": "ticks", "stop": "nodes stopped", "start": "nodes started", "down": "ticks and stops of stopped nodes",
    "up": "starts of up nodes", "sent": "messages sent", "deliver": "messages that arrived",
    "repeat": "messages that arrived and stayed in flight", "cut": "messages that arrived cut", "lost": "messages lost",
    "full": "messages lost as too many were in flight", "blocked": "messages that couldn't arrive",
    "nomessage": "commands for messages that weren't in flight", "short": "messages cut too short",
    "stale": "messages of another view", "spent": "answers that nothing awaited", "promise": "keys promised",
    "enter": "views entered", "exchanged": "exchanges finished", "handed": "partitions handed over",
    "settled": "partitions settled", "learn": "copies learnt to be whole", "drop": "copies dropped",
    "client": "requests of the client", "nomap": "requests of the client without a table", "table": "tables for the client",
    "opened": "requests accepted", "refused": "requests refused", "value": "reads answered", "apply": "writes applied",
    "done": "writes acknowledged", "doubt": "writes in doubt", "aborted": "requests aborted", "merge": "versions taken",
    "map": "maps shown", "mapless": "maps refused", "place": "lists shown", "hash": "digests shown", "holds": "stores shown",
    "calm": "times at rest",
}
LANES = {
    Lane.PROMISED: "cluster keys promised", Lane.HANDED: "partitions handed over", Lane.SETTLED: "partitions settled",
    Lane.LEARNT: "copies learnt to be whole", Lane.DROPPED: "copies dropped", Lane.DONE: "writes acknowledged",
    Lane.ANSWERED: "reads answered", Lane.REFUSED: "requests refused", Lane.DOUBT: "writes in doubt",
    Lane.ABORTED: "requests aborted", Lane.OPEN: "requests without an end", Lane.NO_TABLE: "the client had no table",
    Lane.TABLES: "tables for the client", Lane.GIVEN_UP: "acknowledged writes given up",
    Lane.BLOCKED: "messages to it that couldn't arrive", Lane.LOST: "messages to it that were lost",
}
MOST_VERSIONS, MOST_HOLDERS = 300, 12


class Source(NamedTuple):
    """Where a transcript comes from: the name of its file, or nothing for standard input; and the key that is asked for,
    as it was written."""

    file: str | None
    key: str | None = None

    @property
    def title(self) -> str:
        return self.file or "standard input"


def hash_of(content: str) -> str:
    return "'sha256-" + base64.b64encode(hashlib.sha256(content.encode()).digest()).decode() + "'"


def counted(count: int, what: str) -> str:
    return f"{count:,} {what}{'' if count == 1 else 's'}"


class Page:
    def __init__(self, transcript: Transcript, reading: Reading, source: Source, asked: Range | None, drawn: Range,
                 life: Life | None, is_told: bool):
        self.transcript, self.reading, self.source, self.asked, self.drawn = transcript, reading, source, asked, drawn
        self.life, self.is_told = life, is_told
        self.drawing = Drawing(reading, drawn, drawn_nodes(reading), life)

    def html(self) -> str:
        drawing = self.drawing.svg()
        return "\n".join([*self.head(), *self.body(drawing), "</html>"])

    def head(self) -> Iterator[str]:
        policy = f"default-src 'none'; style-src {hash_of(style.STYLE)}; script-src {hash_of(style.SCRIPT)}"
        yield '<!DOCTYPE html>\n<html lang="en" xmlns="http://www.w3.org/1999/xhtml">\n<head>\n<meta charset="utf-8" />'
        yield f'<meta http-equiv="Content-Security-Policy" content="{policy}" />'
        yield '<meta name="viewport" content="width=device-width" />'
        yield f"<title>{escaped(self.title)}</title>\n<style>{style.STYLE}</style>\n</head>"

    @property
    def title(self) -> str:
        of = f"The life of {self.source.key} in " if self.life else "Timeline of "
        return of + self.source.title

    def body(self, drawing: str) -> Iterator[str]:
        yield f"<body>\n<main>\n<h1>{escaped(self.title)}</h1>"
        yield from self.facts()
        yield from self.notices()
        yield from self.counts()
        yield from self.legend()
        yield f'<div class="drawing">\n{drawing}\n</div>'
        yield '<p class="facts">Hover over a mark to see its lines; a click pins them here.</p>'
        yield '<section id="pinned" aria-label="pinned marks"></section>'
        if self.life and self.life.is_told:
            yield from self.versions(self.life)
        yield from self.table()
        yield '<div id="hint" hidden="hidden"></div>\n</main>'
        yield f'<script type="application/json" id="lines">{self.texts()}</script>'
        yield f"<script>{style.SCRIPT}</script>\n</body>"

    def texts(self) -> str:
        """The lines that marks show, by their numbers. None has a `<`; it is kept out whatever they have."""
        said = {}
        for number in sorted(self.drawing.shown.numbers):
            line = self.transcript.parts[number - 1].decode()
            said[number] = line if len(line) <= MOST_TEXT else f"{line[:MOST_TEXT]}.."
        written = json.dumps(said, separators=(",", ":"))
        return written.replace("&", "\\u0026").replace("<", "\\u003c").replace(">", "\\u003e")

    # ---- what it is of

    def facts(self) -> Iterator[str]:
        reading, settings = self.reading, self.reading.settings
        declared = sum(node.is_declared for node in reading.nodes.values())
        facts = [
            counted(reading.last, "line"), counted(reading.steps[-1], "step"), counted(declared, "node"),
            f"factor {settings['factor']}", f"policy {settings['policy']}", counted(len(reading.views), "view"), self.end(),
        ]
        yield f'<p class="facts">{escaped(" · ".join(facts))}</p>'
        if self.life:
            name = self.life.name
            yield f'<p class="facts">digest {name.digest} · partition {name.partition}</p>'

    def end(self) -> str:
        calms = self.reading.calms
        if not calms:
            return "no calm line"
        return "ends with a calm" if calms[-1] == self.reading.last else f"last calm in line {calms[-1]:,}"

    def notices(self) -> Iterator[str]:
        last, drawn = self.reading.last, self.drawn
        if drawn != Range(1, last):
            said = f"Drawn are the lines {drawn.first:,} to {drawn.last:,}. The others are summed up in the table below."
            if drawn.last < min(last, self.asked.last if self.asked else last):
                said += f" A page has room for {MOST_SPANS:,} views, stops and splits: --lines draws others."
            yield notice(said)
        if len(self.reading.nodes) > MOST_ROWS:
            yield notice(f"Of {len(self.reading.nodes):,} nodes the first {MOST_ROWS} are drawn.")
        if not self.is_told:
            yield notice(
                "Which writes were given up isn't drawn, nor what nodes hold: the transcript isn't as the rules say. "
                "./replay --audit says which law it breaks."
            )

    # ---- what it comes to

    def counts(self) -> Iterator[str]:
        """What the whole transcript comes to, also where a range of it is drawn."""
        of = {lane: sum(len(node.events.get(lane, ())) for node in self.reading.nodes.values()) for lane in Lane}
        causes = ", ".join(f"{cause} {count:,}" for cause, count in sorted(self.reading.causes.items()))
        given_up = of[Lane.GIVEN_UP] if self.is_told else "?"
        cells = [
            (of[Lane.DONE], "writes acknowledged", ""),
            (of[Lane.DOUBT], "writes in doubt", "doubtful" if of[Lane.DOUBT] else ""),
            (given_up, "acknowledged writes given up", "bad" if of[Lane.GIVEN_UP] else ""),
            (of[Lane.ANSWERED], "reads answered", ""),
            (of[Lane.REFUSED], f"requests refused{f' ({causes})' if causes else ''}", ""),
        ]
        # What seldom comes has a cell only where it came.
        seldom = {Lane.ABORTED: "requests aborted", Lane.OPEN: "requests open at the end", Lane.NO_TABLE: "without a table",
                  Lane.BLOCKED: "messages blocked", Lane.LOST: "messages lost"}
        cells += [(of[lane], what, "") for lane, what in seldom.items() if of[lane]]
        yield '<ul class="counts">'
        for count, what, kind in cells:
            number = count if isinstance(count, str) else f"{count:,}"
            marked = f' class="{kind}"' if kind else ""
            yield f"<li{marked}><b>{number}</b> {escaped(what)}</li>"
        yield "</ul>"

    def table(self) -> Iterator[str]:
        """How many lines of each kind the transcript has, before, in and behind the range that is drawn."""
        drawn, whole = self.drawn, self.reading.counts
        is_part = drawn != Range(1, self.reading.last)
        heads = ["whole"]
        columns = [whole]
        if is_part:
            words = [word.decode() for word in self.transcript.words]
            columns = [Counter(words[: drawn.first - 1]), Counter(words[drawn.first - 1 : drawn.last]),
                       Counter(words[drawn.last :]), whole]
            heads = [f"before line {drawn.first:,}", "drawn", f"behind line {drawn.last:,}", "whole"]
        yield '<details open="open">' if is_part else "<details>"
        yield "<summary>Lines of each kind</summary>\n<table>"
        yield "<tr><th>kind</th>" + "".join(f'<th class="number">{head}</th>' for head in heads) + "<th>they are</th></tr>"
        order = {kind: at for at, kind in enumerate(KINDS)}
        for kind in sorted(whole, key=lambda kind: order.get(kind, len(order))):
            numbers = "".join(f'<td class="number">{column[kind]:,}</td>' for column in columns)
            yield f"<tr><td>{escaped(kind)}</td>{numbers}<td>{KINDS.get(kind, 'not drawn')}</td></tr>"
        yield "</table></details>"

    # ---- the legend

    def legend(self) -> Iterator[str]:
        yield '<ul class="legend">'
        view = rect(0, 0, 30, BAR_HEIGHT - 4, style.PALE[0], ' stroke="#39424f"')
        yield entry(view, "a node's view, in the colour of its key, with its members")
        yield entry(view + rect(0, 0, 30, BAR_HEIGHT - 4, "url(#exchanging)"), "it exchanges, and takes no requests yet")
        yield entry(rect(0, 5, 30, 5, "url(#migrating)"), "partitions of the view aren't settled yet")
        yield entry(rect(0, 5, 30, 5, SETTLED), "all are settled")
        yield entry(rect(0, 0, 30, 14, "url(#stopped)", ' stroke="#6b7380" stroke-dasharray="3 2"'), "stopped")
        yield entry('<line x1="0" y1="7" x2="30" y2="7" stroke="#8a93a3" stroke-dasharray="1 4" />', "up, in no view")
        if self.drawing.has_splits:
            band = rect(0, 0, 30, 14, style.TINTS[0], f' stroke="{style.EDGES[0]}"') + rect(0, 0, 14, 14, style.EDGES[0])
            yield entry(band + text(4, 11, "A", 10.5, WHITE), "nodes of one group of a split")
        if any(node.quiesced for node in self.reading.nodes.values()):
            yield entry(rect(0, 5, 30, 3, "#6a3d9a"), "quiesced")
        if self.life and self.life.is_told:
            held = rect(0, 0, 30, 14, style.version_colour(1), ' rx="4"') + text(4, 11, "#1", 10, WHITE)
            yield entry(held, "the version that it holds")
            cross = '<path d="M3 2l7 9m0 -9l-7 9" stroke="#b3001b" stroke-width="2" />'
            yield entry(rect(0, 0, 13, 14, "#fff", ' rx="2" stroke="#b3001b"') + cross, "that version is given up", 14)
        used = {lane for row in self.drawing.rows for lane in row.lanes}
        for lane in (lane for lane in Lane if lane in used):
            chip = rect(0, 1, 18, 12, style.LANE_COLOURS[lane], ' rx="2.5"') + text(5, 10.6, "3", 10, WHITE)
            yield entry(chip, f"{lane.value}: {LANES[lane]}", 20)
        yield "</ul>"

    # ---- one record

    def versions(self, life: Life) -> Iterator[str]:
        """Each version of the record: who wrote it, who held it, and what became of it."""
        versions = list(life.story.record.makers)
        shown = versions if len(versions) <= MOST_VERSIONS else versions[: MOST_VERSIONS // 2] + versions[-MOST_VERSIONS // 2 :]
        yield f"<h2>Its versions, compared by {self.reading.settings['policy']} first</h2>"
        if len(shown) < len(versions):
            yield notice(f"Of {len(versions):,} versions the first and the last {MOST_VERSIONS // 2} are listed.")
        yield '<table class="versions">'
        yield "<tr><th>#</th><th>version</th><th>written</th><th>held by</th><th>what became of it</th></tr>"
        for version in shown:
            drawn = rect(0, 0, 12, 12, style.version_colour(life.number_of(version)))
            swatch = f'<svg class="swatch" width="12" height="12">{drawn}</svg>'
            cells = [f"{swatch} #{life.number_of(version)}", escaped(str(version)), items(self.written(life, version)),
                     items(self.held(life, version)), escaped(life.story.end_of(version))]
            yield "<tr>" + "".join(f"<td>{cell}</td>" for cell in cells) + "</tr>"
        yield "</table>"
        if not versions:
            yield "<p>No line writes it.</p>"

    def written(self, life: Life, version: Version) -> Iterator[str]:
        for request in life.story.record.makers[version]:
            ended = {"done": "acknowledged", "doubt": "in doubt"}.get(request.ended or "", "not acknowledged")
            at = f" in line {request.ended_at}" if request.ended in ("done", "doubt") else ""
            yield f"by node {request.node} in the view {request.view}, line {request.applied}; {ended}{at}"

    def held(self, life: Life, version: Version) -> Iterator[str]:
        holders = sorted(life.holders[version], key=lambda held: held[1].begin)
        for node, holding in holders[:MOST_HOLDERS]:
            if holding.end is None:
                yield f"node {node} from line {holding.begin} to the end"
                continue
            then = f"replaced by #{life.number_of(holding.after)}" if holding.after else "its copy is dropped"
            yield f"node {node} from line {holding.begin} to {holding.end}: {then}"
        if len(holders) > MOST_HOLDERS:
            yield f"and {len(holders) - MOST_HOLDERS} more times"


def notice(said: str) -> str:
    return f'<p class="notice">{escaped(said)}</p>'


def entry(drawn: str, said: str, width: int = 32) -> str:
    return f'<li><svg width="{width}" height="15">{drawn}</svg>{escaped(said)}</li>'


def items(lines: Iterator[str]) -> str:
    return "<ul>" + "".join(f"<li>{escaped(line)}</li>" for line in lines) + "</ul>"
