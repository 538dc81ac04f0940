"""The lines of a session, one class for each kind."""
from __future__ import annotations

from dataclasses import dataclass
from typing import Union

Ranges = tuple[tuple[int, int, str], ...]
Spans = tuple[tuple[int, int], ...]


@dataclass(frozen=True)
class EditLine:
    """A replica replaces ranges of its text."""

    replica: int
    pieces: Ranges


@dataclass(frozen=True)
class UndoLine:
    """A replica undoes or redoes the edits of operation lines."""

    replica: int
    numbers: tuple[int, ...]


@dataclass(frozen=True)
class OpLine:
    """An edit operation as it is sent."""

    stamp: tuple[int, int]
    version: dict[int, int]
    pieces: Ranges


@dataclass(frozen=True)
class UopLine:
    """An undo operation as it is sent: a count is a stamp's value and replica, and the count it gets."""

    stamp: tuple[int, int]
    version: dict[int, int]
    counts: tuple[tuple[int, int, int], ...]


@dataclass(frozen=True)
class GiveLine:
    """A replica takes the operation of an operation line."""

    replica: int
    number: int


@dataclass(frozen=True)
class TextLine:
    """A replica's text is reported."""

    replica: int


@dataclass(frozen=True)
class AnchorLine:
    """An anchor is made at an offset, to one side, and kept under a name."""

    replica: int
    name: str
    offset: int
    side: str


@dataclass(frozen=True)
class WhereLine:
    """The place of an anchor at a replica is reported."""

    replica: int
    name: str


@dataclass(frozen=True)
class MarkLine:
    """A replica's version is kept under a name."""

    replica: int
    name: str


@dataclass(frozen=True)
class SinceLine:
    """The edits since a mark are reported."""

    replica: int
    name: str


@dataclass(frozen=True)
class FindLine:
    """Query: where the needle stands."""

    replica: int
    needle: str


@dataclass(frozen=True)
class PointLine:
    """Query: which point an offset is."""

    replica: int
    offset: int


@dataclass(frozen=True)
class OffsetLine:
    """Query: which offset a point is."""

    replica: int
    row: int
    column: int


@dataclass(frozen=True)
class ReopenLine:
    """A replica is opened again with the operations that it has applied. Version 2 has it alone."""

    replica: int


@dataclass(frozen=True)
class SelectLine:
    """A replica selects ranges of its text, and what it makes of them is kept under a name. Version 2 has it alone."""

    replica: int
    name: str
    ranges: Spans


@dataclass(frozen=True)
class ShareLine:
    """A replica takes the selections under a name. Version 2 has it alone."""

    replica: int
    name: str


@dataclass(frozen=True)
class SelectedLine:
    """Where an author's selections are in a replica's text is reported. Version 2 has it alone."""

    replica: int
    author: int


@dataclass(frozen=True)
class FoldLine:
    """A replica folds a range of its text. Version 2 has it alone."""

    replica: int
    start: int
    end: int


@dataclass(frozen=True)
class UnfoldLine:
    """A replica unfolds what has a byte in a range of its text. Version 2 has it alone."""

    replica: int
    start: int
    end: int


@dataclass(frozen=True)
class FoldedLine:
    """A replica's text is reported as it is folded. Version 2 has it alone."""

    replica: int


@dataclass(frozen=True)
class DisplayLine:
    """Where an offset of a replica's text is shown is reported. Version 2 has it alone."""

    replica: int
    offset: int


@dataclass(frozen=True)
class ExcerptLine:
    """A range of a replica's text becomes an excerpt under a name. Version 2 has it alone."""

    name: str
    replica: int
    start: int
    end: int


@dataclass(frozen=True)
class MultiLine:
    """The text of the excerpts under a name is reported. Version 2 has it alone."""

    name: str


@dataclass(frozen=True)
class MeditLine:
    """The text of the excerpts under a name is edited in their replicas. Version 2 has it alone."""

    name: str
    pieces: Ranges


Line = Union[
    EditLine,
    UndoLine,
    OpLine,
    UopLine,
    GiveLine,
    TextLine,
    AnchorLine,
    WhereLine,
    MarkLine,
    SinceLine,
    FindLine,
    PointLine,
    OffsetLine,
    ReopenLine,
    SelectLine,
    ShareLine,
    SelectedLine,
    FoldLine,
    UnfoldLine,
    FoldedLine,
    DisplayLine,
    ExcerptLine,
    MultiLine,
    MeditLine,
]
OPERATION_LINES = (EditLine, UndoLine, OpLine, UopLine)
QUERY_LINES = (FindLine, PointLine, OffsetLine)
FOLD_LINES = (FoldLine, UnfoldLine, FoldedLine, DisplayLine)


@dataclass(frozen=True)
class Header:
    """Line 1: the version of the format, the base text and the replicas in their order."""

    version: int
    base: str
    replicas: tuple[int, ...]


@dataclass(frozen=True)
class Session:
    """A session without a bad line; line 2 is the first of `lines`."""

    header: Header
    lines: tuple[Line, ...]

    def front(self, most: int) -> Session:
        """The session of its first lines, the header being one of them."""
        return Session(self.header, self.lines[: most - 1])


def number_count(line: Line, replicas: int) -> int:
    """How many numbers of operation lines the line takes in a session of so many replicas."""
    return replicas if isinstance(line, MeditLine) else isinstance(line, OPERATION_LINES)
