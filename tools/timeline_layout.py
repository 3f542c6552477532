"""Where things stand in the timeline of a transcript: which lines are drawn, where a line stands in time, and which marks
are drawn as one since they would cover each other."""
from __future__ import annotations

import math
from bisect import bisect_left, bisect_right
from dataclasses import dataclass
from typing import Iterable, Iterator, NamedTuple, Sequence

from timeline_reading import Lane, Node, Reading, Span

# Lengths are in pixels. What is written left of the plot, the plot, and what a last mark may need beyond it.
GUTTER, PLOT, MARGIN = 158, 1120, 40
WIDTH = GUTTER + PLOT + MARGIN
BAR_HEIGHT, STRIP_HEIGHT, HELD_HEIGHT, LANE_HEIGHT, CHIP_HEIGHT = 18, 5, 19, 14, 12
ROW_GAP, LEAST_ROW, LANE_GAP = 24, 44, 4
# A page stays below 5 MB: so many rows, spans, and marks of lanes at most.
MOST_ROWS, MOST_SPANS, MOST_CHIPS = 64, 4000, 6000
# Between two labels of the axis there is about as much.
TICK_DISTANCE = 110


class Range(NamedTuple):
    """The lines that are drawn, from the first to the last; the first is above the last where there is none."""

    first: int
    last: int

    def has(self, number: int) -> bool:
        return self.first <= number <= self.last

    def meets(self, span: Span) -> bool:
        return span.begin <= self.last and (span.end is None or span.end > self.first)

    def of(self, numbers: Sequence[int]) -> Sequence[int]:
        """Those of rising numbers that it has."""
        return numbers[bisect_left(numbers, self.first) : bisect_right(numbers, self.last)]


def drawn_range(reading: Reading, asked: Range | None) -> Range:
    """What is drawn: the lines that are asked for or all, but no more than a page has room for."""
    wanted = asked or Range(1, reading.last)
    wanted = Range(wanted.first, min(wanted.last, reading.last))
    begins = [(span.begin, 1) for node in reading.nodes.values() for span in (*node.stays, *node.stops, *node.quiesced)]
    rows = min(MOST_ROWS, len(reading.nodes))
    begins += [(division.begin, rows) for division in reading.divisions]
    room = MOST_SPANS
    for begin, count in sorted(begins):
        room -= count if wanted.has(begin) else 0
        if room < 0:
            return Range(wanted.first, max(wanted.first, begin - 1))
    return wanted


class Scale:
    """Where lines stand from left to right: each step has the same width."""

    def __init__(self, steps: list[int], drawn: Range):
        self.steps, self.drawn = steps, drawn
        self.first = steps[drawn.first] if drawn.first <= drawn.last else 0
        self.last = steps[drawn.last] if drawn.first <= drawn.last else 0
        self.unit = PLOT / (self.last - self.first + 1)

    def x(self, number: int) -> float:
        """Where the line's step begins; at the edge for lines that aren't drawn."""
        if number <= self.drawn.first:
            return GUTTER
        if number > self.drawn.last:
            return GUTTER + PLOT
        return GUTTER + (self.steps[number] - self.first) * self.unit

    def line_at(self, x: float) -> int:
        """The first line that stands there or further right."""
        return bisect_left(self.steps, (x - GUTTER) / self.unit + self.first)

    def span(self, span: Span) -> tuple[float, float]:
        """Where it begins, and its width."""
        begin = self.x(span.begin)
        return begin, max(1.0, (GUTTER + PLOT if span.end is None else self.x(span.end)) - begin)

    def ticks(self) -> Iterator[tuple[float, int, int]]:
        """Places of the axis: where, the step, and its first line."""
        by = round_number(TICK_DISTANCE / self.unit)
        for step in range(-(-self.first // by) * by, self.last + 1, by):
            yield GUTTER + (step - self.first) * self.unit, step, max(1, bisect_left(self.steps, step))


def round_number(least: float) -> int:
    """The least of 1, 2, 5, 10, 20, 50 and so on that is no less."""
    power = 10 ** math.floor(math.log10(max(least, 1)))
    return next(power * times for times in (1, 2, 5, 10) if power * times >= least)


@dataclass
class Chip:
    """Lines of one kind, at one node, that are drawn as one mark with their number."""

    x: float
    numbers: list[int]

    @property
    def label(self) -> str:
        count = len(self.numbers)
        return str(count) if count < 10_000 else f"{count // 1000}k"

    @property
    def width(self) -> float:
        return label_width(len(self.numbers))


def label_width(count: int) -> float:
    return 9.0 + 6.5 * (1 if count < 10 else 2 if count < 100 else 3 if count < 1000 else 4)


def chips_of(numbers: Sequence[int], scale: Scale, least: float, edges: Sequence[float] = ()) -> list[Chip]:
    """Rising lines as marks, none of which covers another: each of at least that width. `edges` are where something else
    begins in the row, from left to right."""
    chips: list[Chip] = []
    begin = 0
    while begin < len(numbers):
        x, end = scale.x(numbers[begin]), begin + 1
        while True:
            limit = scale.line_at(x + max(least, label_width(end - begin)))
            further = bisect_left(numbers, limit, end)
            if further == end:
                break
            end = further
        chips.append(Chip(x, list(numbers[begin:end])))
        begin = end
    place_within(chips, scale, edges)
    return chips


def place_within(chips: list[Chip], scale: Scale, edges: Sequence[float]) -> None:
    """Moves each mark to the left as far as it would lie over what begins behind its lines, or pass the end of the axis. Where
    there is too little room between two edges it stands over the middle of it."""
    left = float(GUTTER)
    for chip in chips:
        before, behind = bisect_right(edges, chip.x), bisect_right(edges, scale.x(chip.numbers[-1]))
        begin = edges[before - 1] if before else GUTTER
        end = edges[behind] if behind < len(edges) else GUTTER + PLOT
        room = end - chip.width
        # The mark before it was moved to the left too, if at all.
        chip.x = max(left, min(chip.x, room if room >= begin else (begin + room) / 2))
        left = chip.x + chip.width


@dataclass
class Row:
    """A node's row: where it begins, whether there is a place for views, and for what the node holds of one record; and what
    it has of each lane that has something."""

    node: Node
    y: float
    has_views: bool
    has_record: bool
    lanes: dict[Lane, list[Chip]]

    @property
    def record_y(self) -> float:
        return self.y + (BAR_HEIGHT + STRIP_HEIGHT + 2) * self.has_views

    def placed(self) -> Iterator[tuple[float, Lane, list[Chip]]]:
        """The lanes with their places. What doesn't belong together stands a little apart."""
        y, last = self.record_y + HELD_HEIGHT * self.has_record, None
        for lane, chips in self.lanes.items():
            y += LANE_GAP * (last is not None and last.subject != lane.subject)
            yield y, lane, chips
            y, last = y + LANE_HEIGHT, lane

    @property
    def bottom(self) -> float:
        lanes = [y + LANE_HEIGHT for y, _, _ in self.placed()]
        return max([self.y + LEAST_ROW, self.record_y + HELD_HEIGHT * self.has_record, *lanes[-1:]])


def edges_of(scale: Scale, spans: Iterable[Span]) -> list[float]:
    """Where these begin or end within the lines that are drawn, from left to right."""
    numbers = {number for span in spans for number in (span.begin, span.end) if number and scale.drawn.has(number)}
    return sorted({scale.x(number) for number in numbers})


def rows_of(nodes: list[Node], scale: Scale, top: float, has_record: bool, divisions: Sequence[Span] = ()) -> list[Row]:
    """A row for each node that has a place for something, one below the other; `divisions` are those that are drawn."""
    held = {node.id: lanes_of(node, scale.drawn) for node in nodes}
    nodes = [node for node in nodes if node.is_node or held[node.id]]
    count = sum(len(lanes) for lanes in held.values())
    least = PLOT * count / MOST_CHIPS
    rows: list[Row] = []
    for node in nodes:
        edges = edges_of(scale, (*node.stays, *node.stops, *divisions))
        lanes = {lane: chips_of(numbers, scale, least, edges) for lane, numbers in held[node.id].items()}
        y = rows[-1].bottom + ROW_GAP if rows else top
        rows.append(Row(node, y, node.is_node, has_record and node.is_node, lanes))
    return rows


def lanes_of(node: Node, drawn: Range) -> dict[Lane, Sequence[int]]:
    """The lines that are drawn of each lane that has some."""
    found = {lane: drawn.of(node.events[lane]) for lane in Lane if lane in node.events}
    return {lane: numbers for lane, numbers in found.items() if numbers}


def drawn_nodes(reading: Reading) -> list[Node]:
    """The nodes that have rows: the declared ones in their order, others that lines name, and the client if it has marks."""
    ranks = {True: 0, False: 1}
    return sorted(reading.nodes.values(), key=lambda node: ranks[node.is_declared])[:MOST_ROWS]
