"""Draws the timeline of a transcript as SVG: a row for each node, with its views, stops and counts along the time."""
from __future__ import annotations

import html
from itertools import groupby
from typing import Iterable, Iterator, Sequence, TypeVar

import explain_fault
import timeline_style as style
from tell_words import listed
from timeline_layout import (
    BAR_HEIGHT, CHIP_HEIGHT, GUTTER, HELD_HEIGHT, PLOT, ROW_GAP, STRIP_HEIGHT, WIDTH,
    Chip, Range, Row, Scale, chips_of, edges_of, rows_of,
)
from timeline_reading import CLIENT, NOBODY, Division, Lane, Node, Reading, Span, Stay
from timeline_records import Holding, Life

# Of a mark that stands for many lines the first ones are shown, and all marks together show about so many.
MOST_SHOWN, MOST_SHOWN_IN_ALL = 12, 8_000
MOST_TEXT = 120
SomeSpan = TypeVar("SomeSpan", bound=Span)
LETTER, BOLD_LETTER, LEAST_HELD = 6.3, 8.0, 5.0
# So far a band begins above its first row, where its letter stands; and so far below a row a line parts it from the next.
BAND_ABOVE, BELOW_ROW = 17, 5
PATTERNS = """<defs>
<pattern id="stopped" width="6" height="6" patternUnits="userSpaceOnUse"><path d="M0 6L6 0" stroke="#9aa3b0" /></pattern>
<pattern id="exchanging" width="5" height="5" patternUnits="userSpaceOnUse"><path d="M0 0L5 5M0 5L5 0" stroke="#fff" \
stroke-width="1.6" /></pattern>
<pattern id="migrating" width="8" height="5" patternUnits="userSpaceOnUse"><rect width="8" height="5" fill="#fff" />\
<rect width="4" height="5" fill="#a85b00" /></pattern>
</defs>"""
SETTLED = "#1f7a3d"
GREY, WHITE = ' fill="#4a5363"', ' fill="#fff"'
# What keeps a text legible on a pattern.
HALO = ' paint-order="stroke" stroke="#fff" stroke-width="3.5" stroke-linejoin="round"'


def escaped(text: str) -> str:
    """The text as it stands in the page, between tags or in quotation marks."""
    if not text.isprintable():
        text = explain_fault.printable(text.encode(errors="surrogateescape"))
    return html.escape(text)


def lines_of(numbers: Sequence[int]) -> str:
    if len(numbers) == 1:
        return f"line {numbers[0]}"
    return f"{len(numbers)} lines, {numbers[0]} to {numbers[-1]}"


def name_of(node: str) -> str:
    return {CLIENT: "client", NOBODY: "receiver not known"}.get(node, f"node {node}")


class Shown:
    """The lines that marks show, each mark the first few of its own."""

    def __init__(self, marks: int):
        self.most = max(1, min(MOST_SHOWN, MOST_SHOWN_IN_ALL // max(1, marks)))
        self.numbers: set[int] = set()

    def mark(self, kind: str, title: str, numbers: Iterable[int | None], inside: str, count: int | None = None) -> str:
        """A mark of that kind with what is said of it, and its lines, of which there are so many in all."""
        own = list(dict.fromkeys(number for number in numbers if number))
        first = own[: self.most]
        self.numbers.update(first)
        lines = " ".join(map(str, first))
        return f'<g class="{kind}" data-l="{lines}" data-n="{count or len(own)}"><title>{escaped(title)}</title>{inside}</g>'


def rect(x: float, y: float, width: float, height: float, fill: str, more: str = "") -> str:
    return f'<rect x="{x:.1f}" y="{y:.1f}" width="{width:.1f}" height="{height:g}" fill="{fill}"{more} />'


def text(x: float, y: float, said: str, size: float = 10, more: str = "") -> str:
    return f'<text x="{x:.1f}" y="{y:.1f}" font-size="{size:g}"{more}>{escaped(said)}</text>'


def line(x: float, y: float, to_x: float, to_y: float, colour: str, more: str = "") -> str:
    return f'<line x1="{x:.1f}" y1="{y:.1f}" x2="{to_x:.1f}" y2="{to_y:.1f}" stroke="{colour}"{more} />'


def letters(said: str) -> int:
    return len(said) + sum(not letter.isascii() for letter in said)


def fitting(width: float, *ways: str) -> str:
    """The first of these that fits into that width, or nothing. Letters beyond ASCII are taken to be twice as wide."""
    return next((way for way in ways if letters(way) * LETTER + 8 <= width), "")


def label(x: float, y: float, width: float, *ways: str, more: str = "") -> str:
    said = fitting(width, *ways)
    return text(x + 4, y, said, 10.5, more) if said else ""


class Drawing:
    """The drawing of the lines of a range. Where a life is given, what nodes hold of its record is drawn too."""

    def __init__(self, reading: Reading, drawn: Range, nodes: list[Node], life: Life | None = None):
        self.reading, self.drawn, self.nodes, self.life = reading, drawn, nodes, life
        self.scale = Scale(reading.steps, drawn)
        self.colours = {key: style.PALE[at % len(style.PALE)] for at, key in enumerate(reading.views)}
        self.divisions = [it for it in reading.divisions if drawn.meets(it)]
        self.has_splits = any(division.is_split for division in self.divisions)
        self.calms = chips_of(drawn.of(reading.calms), self.scale, 0, edges_of(self.scale, self.divisions))
        top = 34 + 22 * self.has_splits + 17 * bool(self.calms) + ROW_GAP
        self.rows = rows_of(nodes, self.scale, top, life is not None and life.is_told, self.divisions)
        self.bottom = self.rows[-1].bottom if self.rows else top
        # A bar of what a node holds is drawn by itself where it is so wide at least.
        self.narrow = max(LEAST_HELD, len(self.rows) / 3)
        self.shown = Shown(sum(len(chips) for row in self.rows for chips in row.lanes.values()) + self.spans())

    def spans(self) -> int:
        """How many marks there are about besides those of lanes."""
        held = len(self.rows) * int(PLOT / self.narrow) if self.life else 0
        return held + sum(self.drawn.meets(it) for node in self.nodes for it in (*node.stays, *node.stops, *node.quiesced))

    def svg(self) -> str:
        height = self.bottom + ROW_GAP
        named = f"the nodes of lines {self.drawn.first} to {self.drawn.last} along the time, a row a node"
        parts = [
            f'<svg xmlns="http://www.w3.org/2000/svg" width="{WIDTH}" height="{height:g}" viewBox="0 0 {WIDTH} {height:g}" '
            f'role="group" aria-label="{named}">',
            PATTERNS, '<g font-family="system-ui, DejaVu Sans, sans-serif">', rect(0, 0, WIDTH, height, "#fff"),
            *self.axis(), *self.network(), *self.bands(),
        ]
        for row in self.rows:
            parts += self.row(row)
        return "\n".join([*parts, "</g>", "</svg>"])

    # ---- above the rows

    def axis(self) -> Iterator[str]:
        yield text(GUTTER - 8, 14, "step", 10, ' text-anchor="end"' + GREY)
        yield text(GUTTER - 8, 27, "line", 10, ' text-anchor="end"' + GREY)
        for x, step, number in self.scale.ticks():
            yield line(x, 31, x, self.bottom, "#e3e7ed")
            yield text(x, 14, f"{step:,}", 10, GREY)
            yield text(x, 27, f"{number:,}", 10, GREY)
        yield line(GUTTER, 31, GUTTER + PLOT, 31, "#8a93a3")

    def network(self) -> Iterator[str]:
        """How the network is divided, and where all is at rest."""
        y = 36
        if self.has_splits:
            yield text(GUTTER - 8, y + 13, "network", 10, ' text-anchor="end"' + GREY)
            yield from (self.division(division, y) for division in self.divisions)
            y += 22
        if self.calms:
            yield text(GUTTER - 8, y + 10, "at rest", 10, ' text-anchor="end"' + GREY)
        for chip in self.calms:
            yield line(chip.x, y, chip.x, self.bottom, "#1f7a3d", ' stroke-dasharray="2 3"')
            yield self.chip(chip, y, "all is at rest", style.LANE_COLOURS[Lane.SETTLED], "rest")

    def division(self, division: Division, y: float) -> str:
        x, width = self.scale.span(division)
        named = [" ".join(group) for group in division.groups]
        lettered = [f"{letter_of(at)}: {group}" for at, group in enumerate(named)]
        said = f"the network is split into {' | '.join(lettered)}" if division.is_split else "all nodes reach each other"
        fill = "#d9dfe8" if division.is_split else "#f4f6f9"
        inside = rect(x, y, width, 18, fill, ' stroke="#8a93a3" stroke-width="0.5"')
        letters_alone = "|".join(letter_of(at) for at in range(len(named)))
        ways = ["  |  ".join(lettered), f"{len(named)} groups", "split", letters_alone] if division.is_split else ["joined"]
        title = f"{said}: {span_of(division)}"
        return self.shown.mark("network", title, [division.begin, division.end], inside + label(x, y + 13, width, *ways))

    def bands(self) -> Iterator[str]:
        """A band over the rows of each group of a split, one for rows that are neighbours."""
        for division in self.divisions:
            if division.is_split:
                for group, rows in neighbours(division, self.rows):
                    yield self.band(division, group, rows)

    def band(self, division: Division, group: int, rows: list[Row]) -> str:
        x, width = self.scale.span(division)
        y, height = rows[0].y - BAND_ABOVE, rows[-1].bottom - rows[0].y + BAND_ABOVE + 3
        tint, edge = (colours[group % len(colours)] for colours in (style.TINTS, style.EDGES))
        inside = rect(x, y, width, height, tint, f' stroke="{edge}" stroke-width="0.7"') + rect(x, y, min(3, width), height, edge)
        if width > 22:
            inside += rect(x, y, 15, 13, edge) + text(x + 4, y + 10.5, letter_of(group), 10.5, ' fill="#fff" font-weight="700"')
        title = f"group {letter_of(group)} of a split: nodes {' '.join(division.groups[group])}: {span_of(division)}"
        return self.shown.mark("group", title, [division.begin, division.end], inside)

    # ---- a row

    def row(self, row: Row) -> Iterator[str]:
        node, y = row.node, row.y
        middle = y + BAR_HEIGHT / 2
        yield text(10, y + 14, name_of(node.id), 13, ' font-weight="700"')
        if node.rack not in ("", "0"):
            yield text(10 + BOLD_LETTER * (len(name_of(node.id)) + 1), y + 14, f"rack {node.rack}", 10, GREY)
        yield from (text(10, y + below, said, 10, GREY) for below, said in zip((27, 39), self.state(node)))
        if row.has_views:
            yield line(GUTTER, middle, GUTTER + PLOT, middle, "#8a93a3", ' stroke-dasharray="1 4"')
        yield from (self.stay(node, stay, y) for stay in node.stays if self.drawn.meets(stay))
        yield from (self.stop(node, stop, y) for stop in node.stops if self.drawn.meets(stop))
        yield from (self.quiesced(node, span, y) for span in node.quiesced if self.drawn.meets(span))
        if self.life is not None and row.has_record:
            yield from self.held(self.life, row)
        for lane_y, lane, chips in row.placed():
            yield text(GUTTER - 8, lane_y + 9.5, lane.value, 10, ' text-anchor="end"' + GREY)
            what = f"{name_of(node.id)}: {lane.value}"
            yield from (self.chip(chip, lane_y, what, style.LANE_COLOURS[lane]) for chip in chips)
        yield line(0, row.bottom + BELOW_ROW, WIDTH, row.bottom + BELOW_ROW, "#e3e7ed")

    def state(self, node: Node) -> list[str]:
        """How the node stands behind the last line that is drawn, in two lines, the first of which says when that is."""
        if not node.is_node:
            return []
        if not node.is_declared:
            return ["not declared"]
        stay = at_line(node.stays, self.drawn.last)
        ended = "stopped" if at_line(node.stops, self.drawn.last) else f"in {stay.key}" if stay else "in no view"
        is_whole = self.drawn.last == self.reading.last
        return ["at the end:" if is_whole else f"behind line {self.drawn.last:,}:", ended]

    def stay(self, node: Node, stay: Stay, y: float) -> str:
        x, width = self.scale.span(stay)
        end = x + width
        exchanged = self.scale.x(stay.exchanged) if stay.exchanged else end
        settled = min(end, self.scale.x(stay.settled)) if stay.settled else end
        members = ",".join(stay.view.members)
        inside = rect(x, y, width, BAR_HEIGHT, self.colours[stay.key], ' stroke="#39424f" stroke-width="0.6"')
        if exchanged > x:
            inside += rect(x, y, exchanged - x, BAR_HEIGHT, "url(#exchanging)")
        if settled > x:
            inside += rect(x, y + BAR_HEIGHT, settled - x, STRIP_HEIGHT, "url(#migrating)")
        if end > settled:
            inside += rect(settled, y + BAR_HEIGHT, end - settled, STRIP_HEIGHT, SETTLED)
        ways = (f"{stay.key}: {members}", stay.key)
        inside += label(exchanged, y + 13, end - exchanged, *ways) or label(x, y + 13, width, *ways, more=HALO)
        title = f"{name_of(node.id)} in the view {stay.key} of {nodes_in_words(stay.view.members)}: {told_of(stay)}"
        return self.shown.mark("view", title, [stay.begin, stay.exchanged, stay.settled, stay.end], inside)

    def stop(self, node: Node, stop: Span, y: float) -> str:
        x, width = self.scale.span(stop)
        inside = rect(x, y, width, BAR_HEIGHT, "#fff") + rect(
            x, y, width, BAR_HEIGHT, "url(#stopped)", ' stroke="#6b7380" stroke-dasharray="3 2"'
        )
        inside += label(x, y + 13, width, "stopped", more=HALO)
        return self.shown.mark("stop", f"{name_of(node.id)} is stopped: {span_of(stop)}", [stop.begin, stop.end], inside)

    def quiesced(self, node: Node, span: Span, y: float) -> str:
        x, width = self.scale.span(span)
        inside = rect(x, y - 4, width, 3, "#6a3d9a") + label(x, y - 6, width, "quiesced", more=' fill="#6a3d9a"')
        return self.shown.mark("quiesced", f"{name_of(node.id)} is quiesced: {span_of(span)}", [span.begin, span.end], inside)

    def chip(self, chip: Chip, y: float, what: str, colour: str, kind: str = "count") -> str:
        others = self.reading.others
        numbers = chip.numbers
        few = numbers[: self.shown.most]
        shown = sorted({other for number in few for other in (*others.get(number, ()), number)})
        count = len(shown) if len(numbers) == 1 else len(numbers)
        inside = rect(chip.x, y, chip.width, CHIP_HEIGHT, colour, ' rx="2.5"')
        inside += text(chip.x + 4.5, y + 9.6, chip.label, 10, WHITE)
        return self.shown.mark(kind, f"{what}, {lines_of(numbers)}", shown, inside, count)

    # ---- one record

    def held(self, life: Life, row: Row) -> Iterator[str]:
        """What the node holds of the record. Bars that would be too narrow are drawn as one."""
        holdings = [it for it in life.holdings.get(row.node.id, ()) if self.drawn.meets(it)]
        if holdings:
            yield text(GUTTER - 8, row.record_y + 11, "holds", 10, ' text-anchor="end"' + GREY)
        for is_narrow, group in groupby(holdings, key=lambda it: self.scale.span(it)[1] < self.narrow):
            some = list(group)
            if is_narrow and len(some) > 1:
                yield from self.many_held(row, some)
            else:
                yield from (self.holding(life, row, holding, row.record_y) for holding in some)

    def many_held(self, row: Row, holdings: list[Holding]) -> Iterator[str]:
        """Narrow bars side by side, as few bars that are wide enough."""
        begin = 0
        while begin < len(holdings):
            x, end = self.scale.x(holdings[begin].begin), begin + 1
            while end < len(holdings) and self.scale.x(holdings[end].begin) < x + self.narrow:
                end += 1
            some = holdings[begin:end]
            whole = Span(some[0].begin, some[-1].end)
            width = self.scale.span(whole)[1]
            inside = rect(x, row.record_y, width, HELD_HEIGHT - 4, "#5b6575")
            title = f"{name_of(row.node.id)} holds {len(some)} versions one after the other: {span_of(whole)}"
            given_up = sum(it.is_given_up for it in some)
            title += f"; {given_up} of them are given up" if given_up else ""
            yield self.shown.mark("held", title, [it.begin for it in some], inside)
            begin = end

    def holding(self, life: Life, row: Row, holding: Holding, y: float) -> str:
        x, width = self.scale.span(holding)
        number = life.number_of(holding.version)
        fill = style.version_colour(number)
        inside = rect(x, y, width, HELD_HEIGHT - 4, fill, ' rx="4" stroke="#39424f" stroke-width="0.6"')
        inside += label(x, y + 11.5, width, f"#{number} {holding.version.body()}", f"#{number}", more=WHITE)
        if holding.is_given_up:
            inside += rect(x + width - 12, y, 12, HELD_HEIGHT - 4, "#fff", ' rx="2" stroke="#b3001b"')
            inside += f'<path d="M{x + width - 9.5:.1f} {y + 3:.1f}l7 9m0 -9l-7 9" stroke="#b3001b" stroke-width="2" />'
        title = f"{name_of(row.node.id)} holds version #{number}, {holding.version}: {span_of(holding)}"
        return self.shown.mark("held", title, [holding.begin, holding.end], inside)


def neighbours(division: Division, rows: list[Row]) -> Iterator[tuple[int, list[Row]]]:
    """The rows of each group that stand one below the other."""
    last, held = None, []
    for row in rows:
        group = division.group_of(row.node.id)
        if group != last and held:
            yield last, held
            held = []
        last = group
        if group is not None:
            held.append(row)
    if held:
        yield last, held


def letter_of(group: int) -> str:
    return chr(ord("A") + group)


def at_line(spans: list[SomeSpan], number: int) -> SomeSpan | None:
    """The span that lasts behind that line."""
    return next((span for span in reversed(spans) if span.begin <= number and (span.end is None or span.end > number)), None)


def span_of(span: Span) -> str:
    return f"from line {span.begin} on" + (f", up to line {span.end}" if span.end else ", to the end")


def nodes_in_words(members: list[str]) -> str:
    return f"node{'s' if len(members) > 1 else ''} {listed(members)}"


def told_of(stay: Stay) -> str:
    """What became of a node's stay in a view."""
    exchanged = f"exchanged in line {stay.exchanged}" if stay.exchanged else "not exchanged"
    settled = f"settled by line {stay.settled}" if stay.settled else "not settled while it is there"
    return f"{span_of(stay)}; {exchanged}; {settled}"
