"""What replicas have selected: ranges of a text, kept by anchors, as operations that replicas send one another."""
from __future__ import annotations

from typing import NamedTuple, Sequence

from . import answers
from .answers import Anchor
from .histories import History
from .operations import LAST_REPLICA, LAST_VALUE, Stamp, clock_after, is_boundary
from .replicas import Answer

MOST_RANGES = 1024
"""The most ranges of an operation."""

Range = tuple[int, int]


class Selections(NamedTuple):
    """An operation: the ranges that an author has selected, each by the anchors at its ends."""

    stamp: Stamp
    ranges: tuple[tuple[Anchor, Anchor], ...]


class Sets:
    """What a replica keeps: of each author the operation with the greatest stamp. Their clock is their own."""

    def __init__(self, replica: int) -> None:
        self.replica, self.clock = replica, 1
        self.kept: dict[int, Selections] = {}

    def set(self, history: History, ranges: Sequence[Range]) -> Selections | Answer:
        """Makes the operation that selects the ranges, or gives the fault that they meet."""
        fault = range_fault(history.text, ranges)
        if fault is None and len(ranges) > MOST_RANGES:
            fault = Answer("toomany", (len(ranges),))
        if fault is None and self.clock == LAST_VALUE:
            fault = Answer("clockend")
        if fault:
            return fault
        made = Selections(
            Stamp(self.clock, self.replica), tuple(_anchors_of(history, *range) for range in ranges)
        )
        self._keep(made)
        return made

    def take(self, taken: Selections) -> Answer:
        """Keeps an operation if it is later than the one that is kept of its author."""
        value, author = taken.stamp
        if value in (0, LAST_VALUE) or not 1 <= author <= LAST_REPLICA:
            return Answer("badstamp")
        if len(taken.ranges) > MOST_RANGES:
            return Answer("toomany", (len(taken.ranges),))
        kept = self.kept.get(author)
        if kept is None or kept.stamp < taken.stamp:
            self._keep(taken)
            return Answer("set")
        if kept.stamp > taken.stamp:
            return Answer("old", (kept.stamp,))
        return Answer("repeat") if kept == taken else Answer("conflict", (taken.stamp,))

    def _keep(self, selections: Selections) -> None:
        self.kept[selections.stamp.replica] = selections
        self.clock = clock_after(self.clock, selections.stamp.value)


def range_fault(text: bytes, ranges: Sequence[Range]) -> Answer | None:
    """A range that starts past its end, or else ends past the text, or else has an end inside a character."""
    for at, (start, end) in enumerate(ranges):
        if end < start:
            return Answer("reversed", (at,))
    for at, (start, end) in enumerate(ranges):
        if end > len(text):
            return Answer("pastend", (at, len(text)))
    for at, (start, end) in enumerate(ranges):
        if not (is_boundary(text, start) and is_boundary(text, end)):
            return Answer("insidechar", (at,))
    return None


def _anchors_of(history: History, start: int, end: int) -> tuple[Anchor, Anchor]:
    """Both ends keep to the bytes inside; those of an empty range keep to the byte after it."""
    last = answers.anchor_at(history, end, "right" if start == end else "left")
    return answers.anchor_at(history, start, "right"), last


def unknown_range(history: History, selections: Selections) -> int | None:
    """The first range with an anchor that is not known."""
    for at, anchors in enumerate(selections.ranges):
        if not all(answers.is_known(history, anchor) for anchor in anchors):
            return at
    return None


def places_of(history: History, selections: Selections) -> list[Range]:
    """Where the ranges are, of each the lesser place first; their anchors are known."""
    places = [
        sorted(answers.place_of(history, anchor) for anchor in anchors)
        for anchors in selections.ranges
    ]
    return [(first, last) for first, last in places]
