"""Excerpts of the texts of several replicas, shown as one text with an LF between two."""
from __future__ import annotations

from dataclasses import dataclass
from typing import Mapping, Sequence

from . import answers
from .answers import Anchor
from .histories import History
from .operations import TEXT_LIMIT, Piece
from .replicas import Answer, order_fault, range_fault, total_of
from .selections import range_fault as one_range_fault

Changes = Sequence[tuple[int, int, str]]


@dataclass
class Excerpt:
    """A range of a replica's text: a left anchor at its start and a right one at its end, and their places there."""

    replica: int
    ends: tuple[Anchor, Anchor]
    start: int
    end: int


class Excerpts:
    """Excerpts in the order in which they were made."""

    def __init__(self) -> None:
        self.excerpts: list[Excerpt] = []
        self.texts: dict[int, bytes] = {}

    def sync(self, replica: int, history: History) -> None:
        """Finds the excerpts of a replica in its text, and anchors them there."""
        self.texts[replica] = history.text
        for excerpt in self.excerpts:
            if excerpt.replica == replica:
                places = (answers.place_of(history, anchor) for anchor in excerpt.ends)
                excerpt.start, excerpt.end = places
                excerpt.ends = _anchors_of(history, excerpt.start, excerpt.end)

    def push(self, replica: int, history: History, start: int, end: int) -> int | Answer:
        """Makes an excerpt; its index, or the fault that the range meets."""
        fault = one_range_fault(history.text, [(start, end)])
        if fault:
            return fault
        self.excerpts.append(Excerpt(replica, _anchors_of(history, start, end), start, end))
        return len(self.excerpts) - 1

    def text(self) -> bytes:
        """The excerpts' texts with an LF between two."""
        return b"\n".join(self.texts[it.replica][it.start : it.end] for it in self.excerpts)

    def split(self, changes: Changes) -> Mapping[int, list[tuple[int, int, str]]] | Answer:
        """The pieces of each replica, or the fault that the changes meet."""
        pieces = [Piece(start, end, text.encode()) for start, end, text in changes]
        fault = order_fault(pieces) or range_fault(pieces, self.text())
        if fault is None and total_of(pieces) > TEXT_LIMIT:
            fault = Answer("textlimit", (total_of(pieces),))
        if fault:
            return fault
        found = [self._excerpt_of(start, end) for start, end, _ in changes]
        for at, place in enumerate(found):
            if place is None:
                return Answer("crosses", (at,))
        split: dict[int, list[tuple[int, int, str]]] = {}
        for at, (place, (start, end, text)) in enumerate(zip(found, changes)):
            assert place is not None
            index, shift = place
            excerpt = self.excerpts[index]
            start, end = start + shift, end + shift
            shared = self._shared(index, start, end)
            if shared is not None:
                return Answer("shared", (at, shared))
            split.setdefault(excerpt.replica, []).append((start, end, text))
        for parts in split.values():
            parts.sort(key=lambda part: part[0])
        return split

    def _excerpt_of(self, start: int, end: int) -> tuple[int, int] | None:
        """The excerpt that has the whole range of the text, and what its offsets are more there."""
        at = 0
        for index, excerpt in enumerate(self.excerpts):
            length = excerpt.end - excerpt.start
            if at <= start and end <= at + length:
                return index, excerpt.start - at
            at += length + 1
        return None

    def _shared(self, index: int, start: int, end: int) -> int | None:
        """The first other excerpt of the replica that has a place of the range of its text."""
        replica = self.excerpts[index].replica
        for at, other in enumerate(self.excerpts):
            if at != index and other.replica == replica:
                if start <= other.end and other.start <= end:
                    return at
        return None


def _anchors_of(history: History, start: int, end: int) -> tuple[Anchor, Anchor]:
    first = answers.anchor_at(history, start, "left")
    return first, answers.anchor_at(history, end, "right")
