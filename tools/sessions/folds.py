"""A text with folds: each range that is folded is shown as one ⋯."""
from __future__ import annotations

from . import answers
from .answers import Anchor
from .histories import History
from .operations import is_boundary
from .replicas import Answer
from .selections import Range, range_fault

DOTS = "⋯".encode()


class Folds:
    """The folds of a replica: each a right anchor at its start and a left one at its end."""

    def __init__(self) -> None:
        self.folds: list[tuple[Anchor, Anchor]] = []

    def fold(self, history: History, start: int, end: int) -> Answer | None:
        """Folds a range, or gives the fault that it meets."""
        fault = fold_fault(history.text, start, end)
        if fault is None:
            left = answers.anchor_at(history, end, "left")
            self.folds.append((answers.anchor_at(history, start, "right"), left))
        return fault

    def unfold(self, history: History, start: int, end: int) -> int | Answer:
        """Takes away each fold that has a byte in the range; how many, or the fault that the range meets."""
        fault = fold_fault(history.text, start, end)
        if fault:
            return fault
        before = len(self.folds)
        self.folds = [
            fold
            for fold in self.folds
            for first, last in [_range_of(history, fold)]
            if max(first, start) >= min(last, end)
        ]
        return before - len(self.folds)

    def dots(self, history: History) -> list[Range]:
        """The ranges that are each shown as one ⋯: of folds, joined where they share a byte."""
        joined: list[Range] = []
        for start, end in sorted(_range_of(history, fold) for fold in self.folds):
            if joined and start < joined[-1][1]:
                joined[-1] = joined[-1][0], max(end, joined[-1][1])
            elif start < end:
                joined.append((start, end))
        return joined

    def text(self, history: History) -> bytes:
        """The text as it is folded."""
        shown, at = b"", 0
        for start, end in self.dots(history):
            shown, at = shown + history.text[at:start] + DOTS, end
        return shown + history.text[at:]

    def places(self, history: History, offset: int) -> Range | None:
        """Where an offset of the text is shown, to the left and to the right; None where it is no place of the text."""
        if offset > len(history.text) or not is_boundary(history.text, offset):
            return None
        place = at = 0
        for start, end in self.dots(history):
            if offset <= start:
                break
            place += start - at
            if offset < end:
                return place, place + len(DOTS)
            place, at = place + len(DOTS), end
        return place + offset - at, place + offset - at


def fold_fault(text: bytes, start: int, end: int) -> Answer | None:
    """Why a range is not folded or unfolded."""
    fault = range_fault(text, [(start, end)])
    return Answer("emptyrange") if fault is None and start == end else fault


def _range_of(history: History, fold: tuple[Anchor, Anchor]) -> Range:
    return answers.place_of(history, fold[0]), answers.place_of(history, fold[1])
