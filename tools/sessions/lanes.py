"""The picture of a session: a lane for each author, time downward, deliveries as arrows."""
from __future__ import annotations

from dataclasses import dataclass

from . import lines as kinds
from .comparing import Difference
from .histories import history_of
from .layout import Laid, columns, lay, wrap
from .replay import Event, Part, Replay
from .svg import (
    AMBER,
    CHAR,
    Colours,
    FOLDED,
    GREEN,
    HEAD,
    INK,
    MUTED,
    RED,
    ROW,
    SMALL,
    SMALL_ROW,
    caret,
    circle,
    element,
    laid_text,
    line,
    marker,
    picture,
    text,
)
from .wording import Head, heads_of

GUTTER, TOP, INDENT, GAP, BETWEEN = 76, 74, 18, 15, 150
SENT = 0
"""The lane of operations as they are sent, which happen at no replica."""


@dataclass
class Block:
    """Words cut to a lane, and a text laid below them."""

    lane: int
    heads: list[Head]
    laid: Laid | None

    def height(self) -> float:
        """How high it is."""
        texts = self.laid.rows + (self.laid.left_out > 0) if self.laid else 0
        return len(self.heads) * SMALL_ROW + texts * ROW

    def width(self) -> float:
        """How wide it is."""
        widths = [columns(head.words) * SMALL for head in self.heads]
        return max([self.laid.width() * CHAR if self.laid else 0, *widths])


@dataclass
class Row(Block):
    """An event as it is drawn, and what it made at other lanes."""

    event: Event
    others: list[Block]
    y: float = 0

    def row_height(self) -> float:
        """How high the row is."""
        return max(block.height() for block in [self, *self.others]) + GAP


@dataclass
class Lane:
    """Where a lane's line is, and where its words begin: to the left of the line where `is_mirrored`."""

    x: float
    left: float
    is_mirrored: bool


class Lanes:
    """Lays the events of a session and draws them. Of several lanes the first has its words to the left of its line,
    since arrows go to the right of it.
    """

    def __init__(self, replay: Replay, found: list[Difference], colours: Colours) -> None:
        self.replay, self.colours = replay, colours
        self.wrong: dict[int, list[Difference]] = {}
        for difference in found:
            if difference.event:
                self.wrong.setdefault(difference.event.place, []).append(difference)
        sent = any(event.replica is None for event in replay.events)
        self.lanes = [SENT] * sent + list(replay.session.header.replicas)
        self.most = {1: 88, 2: 46}.get(len(self.lanes), 38)
        self.first = {
            number: lay(history_of(frozenset(replica.applied[:1])), self.most)
            for number, replica in replay.replicas.items()
        }
        self.rows = [self._row(event) for event in replay.events]
        self.places: dict[int, Lane] = {}
        self.width = self._place_lanes()
        self.marks: dict[int, tuple[float, float]] = {}
        self.bottom = self._place_rows()

    def _row(self, event: Event) -> Row:
        heads = heads_of(event)
        for difference in self.wrong.get(event.place, []):
            heads.append(Head(f"the report says: {difference.given or 'nothing'}", RED))
        most = int(self.most * CHAR / SMALL)
        cut = [Head(words, head.colour) for head in heads for words in wrap(head.words, most)]
        laid = None
        if event.history and not isinstance(event.line, kinds.MarkLine):
            laid = lay(event.history, self.most)
        others = [
            Block(
                part.replica,
                [Head(f"operation {part.number}, stamp {part.operation.stamp}")],
                lay(part.history, self.most),
            )
            for part in event.parts
        ]
        return Row(event.replica or SENT, cut, laid, event, others)

    def _words_width(self, lane: int) -> float:
        blocks = [block for row in self.rows for block in [row, *row.others]]
        widths = [block.width() for block in blocks if block.lane == lane]
        if lane == SENT:
            widths.append(columns(self._sent_name()) * HEAD)
        else:
            widths.append(self.first[lane].width() * CHAR)
        return max([16 * CHAR, *widths])

    def _place_lanes(self) -> float:
        """Places the lanes side by side; how wide they are together."""
        x: float = GUTTER
        for at, lane in enumerate(self.lanes):
            width, is_mirrored = self._words_width(lane), at == 0 and len(self.lanes) > 1
            if is_mirrored:
                self.places[lane] = Lane(x + width + INDENT, x, True)
                x += width + INDENT + BETWEEN
            else:
                self.places[lane] = Lane(x, x + INDENT, False)
                x += width + INDENT + 40
        return x

    def _place_rows(self) -> float:
        """Places the rows below each other; where the last one ends."""
        deepest = max(laid.rows + (laid.left_out > 0) for laid in self.first.values())
        y: float = TOP + deepest * ROW + GAP
        for row in self.rows:
            row.y = y
            y += row.row_height()
            count = kinds.number_count(row.event.line, len(self.replay.replicas))
            for number in range(row.event.number or 0, (row.event.number or 0) + count):
                self.marks[number] = (self.places[row.lane].x, row.y)
            for part in row.event.parts:
                self.marks[part.number] = (self.places[part.replica].x, row.y)
        return y

    def _colour(self, lane: int) -> str:
        return MUTED if lane == SENT else self.colours.of(lane)

    def draw(self, is_file: bool = False) -> str:
        """The whole picture."""
        arrows = [
            self._arrow(row) for row in self.rows if isinstance(row.event.line, kinds.GiveLine)
        ]
        parts = [_arrow_heads(), *self._frame(), *arrows]
        for row in self.rows:
            parts += self._event(row)
        label = "what each author did, and what came of it, line by line"
        return picture(self.width, self.bottom + 6, label, parts, is_file)

    def _sent_name(self) -> str:
        """What stands above the lane of what happens at no replica."""
        lines = [row.event.line for row in self.rows if row.lane == SENT]
        sent = any(isinstance(line, (kinds.OpLine, kinds.UopLine)) for line in lines)
        shown = any(isinstance(line, (kinds.MultiLine, kinds.MeditLine)) for line in lines)
        if sent and shown:
            return "operations as they are sent, and excerpts"
        return "excerpts" if shown else "operations as they are sent"

    def _frame(self) -> list[str]:
        """The lines of the lanes, their names, and the base at the head of each."""
        parts = []
        for number, lane in self.places.items():
            colour = self._colour(number)
            parts.append(line(lane.x, TOP - 34, lane.x, self.bottom, colour, 2))
            name = self._sent_name() if number == SENT else f"author {number}"
            parts.append(
                text(lane.left if lane.is_mirrored else lane.x, TOP - 46, name, colour, "head")
            )
            if number != SENT:
                parts += [
                    circle(lane.x, TOP - 20, 4, INK),
                    text(lane.left, TOP - 16, "the base", MUTED, "small"),
                ]
                parts += laid_text(self.first[number], self.colours, lane.left, TOP + 2)
        return parts

    def _event(self, row: Row) -> list[str]:
        event, lane = row.event, self.places[row.lane]
        parts = [text(8, row.y + 4, f"line {event.place}", MUTED, "small"), self._mark(row)]
        if lane.is_mirrored:
            end = lane.left + columns(row.heads[0].words) * SMALL + 8
            parts.insert(0, line(min(end, lane.x - 10), row.y, lane.x, row.y, "#dddddd", 1))
        for at, head in enumerate(row.heads):
            colour = head.colour or self._colour(row.lane)
            parts.append(text(lane.left, row.y + 4 + at * SMALL_ROW, head.words, colour, "small"))
        for block, part in zip(row.others, event.parts):
            parts += self._made_at(block, part, row.y)
        if row.laid:
            base = row.y + 6 + len(row.heads) * SMALL_ROW
            for start, end in event.ranges:
                parts += marker(row.laid, start, end, lane.left, base)
            for start, end in event.folded:
                parts += marker(row.laid, start, end, lane.left, base, FOLDED)
            parts += laid_text(row.laid, self.colours, lane.left, base)
            if isinstance(event.line, (kinds.SelectLine, kinds.SelectedLine, kinds.ExcerptLine)):
                for start, end in event.ranges:
                    if start == end:
                        parts.append(caret(row.laid, start, "right", lane.left, base))
            if event.offset is not None:
                parts.append(caret(row.laid, event.offset, event.side, lane.left, base))
        return parts

    def _made_at(self, block: Block, part: Part, y: float) -> list[str]:
        """What an edit of excerpts made at a replica: its number, its words and the text after it."""
        lane, colour = self.places[block.lane], self._colour(block.lane)
        heads = [
            text(lane.left, y + 4 + at * SMALL_ROW, head.words, colour, "small")
            for at, head in enumerate(block.heads)
        ]
        assert block.laid is not None
        base = y + 6 + len(block.heads) * SMALL_ROW
        shown = laid_text(block.laid, self.colours, lane.left, base)
        return [_numbered(lane.x, y, part.number, colour), *heads, *shown]

    def _mark(self, row: Row) -> str:
        event, x = row.event, self.places[row.lane].x
        if isinstance(event.line, kinds.OPERATION_LINES):
            fill = RED if event.operation is None else self._colour(row.lane)
            return _numbered(x, row.y, event.number or 0, fill)
        if isinstance(event.line, kinds.GiveLine):
            return circle(x, row.y, 6, "#fff", _tone(event))
        return element("rect", x=x - 4, y=row.y - 4, width=8, height=8, fill=MUTED)

    def _arrow(self, row: Row) -> str:
        assert isinstance(row.event.line, kinds.GiveLine)
        start, tone = self.marks[row.event.line.number], _tone(row.event)
        return element(
            "path",
            d=_way(start, (self.places[row.lane].x, row.y)),
            fill="none",
            stroke=tone,
            stroke_width=1.6,
            opacity="0.75",
            stroke_dasharray={AMBER: "6 4", MUTED: "2 4"}.get(tone, ""),
            marker_end=f"url(#to-{tone[1:]})",
        )


def _numbered(x: float, y: float, number: int, fill: str) -> str:
    """A disc with the number of an operation."""
    shown = str(number)
    words = text(x - len(shown) * SMALL / 2, y + 4, shown, "#fff", "small bold bare")
    return circle(x, y, 9 if len(shown) < 3 else 12, fill) + words


def _way(start: tuple[float, float], end: tuple[float, float]) -> str:
    """The way of an arrow; one from an author to itself goes round on the left."""
    (from_x, from_y), (x, y) = start, end
    middle, near = (from_x + x) / 2, x - 9 if from_x <= x else x + 9
    if from_x == x:
        middle, from_x = x - 40, x - 9
    bend = f"{middle:.1f} {from_y:.1f},{middle:.1f} {y:.1f}"
    return f"M{from_x:.1f} {from_y:.1f}C{bend},{near:.1f} {y:.1f}"


def _tone(event: Event) -> str:
    """The colour of a delivery: applied, waits, a repeat or nothing, or refused."""
    word = event.answer.word if event.answer else ""
    return {"applied": GREEN, "waits": AMBER, "repeat": MUTED, "nothing": MUTED}.get(word, RED)


def _arrow_heads() -> str:
    heads = ""
    for tone in (GREEN, AMBER, MUTED, RED):
        head = element("path", d="M0 0L8 4L0 8z", fill=tone)
        size = {"markerWidth": 7, "markerHeight": 7, "refX": 7, "refY": 4}
        names = {"id": f"to-{tone[1:]}", "viewBox": "0 0 8 8", "orient": "auto"}
        heads += element("marker", head, **names, **size)
    return element("defs", heads)
