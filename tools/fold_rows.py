#!/usr/bin/env python3
"""Writes sessions of folds that are drawn by chance, with what is shown, worked out from the definitions and apart from the
program: the rows of crates/fold_map_tests/src/drawn.rt.

usage: tools/fold_rows.py [--check]     writes that file; --check fails where it differs
"""
from __future__ import annotations

import random
import sys
from pathlib import Path

from sessions import answers
from sessions.histories import History
from sessions.operations import Stamp, is_boundary
from sessions.replicas import Replica

FILE = Path(__file__).resolve().parent.parent / "crates/fold_map_tests/src/drawn.rt"
LISTS, SESSIONS, STEPS = 3, 4, 26
TEXTS = ["", "", "x", "yé", "⋯", "zz"]
ELLIPSIS = "⋯".encode()
HEAD = """//! Sessions of two authors, drawn by chance: what is shown. `tools/fold_rows.py` made the rows from the definitions.
use crate::rows::{Row, Step};
"""


class Folds:
    """A history with folds, by the definitions."""

    def __init__(self, history: History) -> None:
        self.history = history
        self.folds: list[tuple[answers.Anchor, answers.Anchor]] = []

    def fold(self, start: int, end: int) -> None:
        self.folds.append(
            (
                answers.anchor_at(self.history, start, "right"),
                answers.anchor_at(self.history, end, "left"),
            )
        )

    def range(self, fold: tuple[answers.Anchor, answers.Anchor]) -> tuple[int, int]:
        return answers.place_of(self.history, fold[0]), answers.place_of(self.history, fold[1])

    def unfold(self, start: int, end: int) -> int:
        kept = []
        for fold in self.folds:
            s, e = self.range(fold)
            if not max(s, start) < min(e, end):
                kept.append(fold)
        count = len(self.folds) - len(kept)
        self.folds = kept
        return count

    def marks(self) -> list[str]:
        ranges = [self.range(fold) for fold in self.folds]
        marks = []
        for i in range(len(self.history.text)):
            if any(s < i < e for s, e in ranges):
                marks.append("inner")
            elif any(s <= i < e for s, e in ranges):
                marks.append("first")
            else:
                marks.append("plain")
        return marks

    def shown(self) -> bytes:
        shown = b""
        for mark, byte in zip(self.marks(), self.history.text):
            shown += {"plain": bytes([byte]), "first": ELLIPSIS, "inner": b""}[mark]
        return shown

    def shown_place(self, place: int, side: str) -> int:
        marks = self.marks()
        before = sum({"plain": 1, "first": 3, "inner": 0}[mark] for mark in marks[:place])
        inside = place < len(marks) and marks[place] == "inner"
        return before - 3 if inside and side == "left" else before

    def to_shown(self, place: int) -> tuple[int, int] | None:
        if place > len(self.history.text) or not is_boundary(self.history.text, place):
            return None
        return self.shown_place(place, "left"), self.shown_place(place, "right")

    def to_text(self, shown: int) -> tuple[int, int] | None:
        text, marks = self.history.text, self.marks()
        for place in range(len(text) + 1):
            inner = place < len(text) and marks[place] == "inner"
            if not inner and is_boundary(text, place) and self.shown_place(place, "left") == shown:
                return place, place
            if place < len(text) and marks[place] == "first":
                at = self.shown_place(place, "left")
                if at < shown < at + 3:
                    end = place + 1
                    while end < len(text) and marks[end] == "inner":
                        end += 1
                    return place, end
        return None


def places(text: bytes) -> list[int]:
    return [i for i in range(len(text) + 1) if is_boundary(text, i)]


def option(pair: tuple[int, int] | None) -> str:
    return "None" if pair is None else f"Some(({pair[0]}, {pair[1]}))"


class Session:
    """One author with folds, and another."""

    def __init__(self, chance: random.Random) -> None:
        self.chance = chance
        self.base = "".join(chance.choice("abcdé⋯😀") for _ in range(chance.randrange(6, 18)))
        self.own = Replica(1, self.base.encode(), False)
        self.other = Replica(2, self.base.encode(), False)
        self.own_new: list = []
        self.other_new: list = []
        self.folds = Folds(self.own.history)
        self.steps: list[str] = []

    def change(self, replica: Replica) -> tuple[int, int, str]:
        at = places(replica.history.text)
        start = self.chance.choice(at)
        end = self.chance.choice([place for place in at if place >= start][:4])
        return start, end, self.chance.choice(TEXTS)

    def edit(self, kind: str) -> None:
        replica, made = (self.other, self.other_new) if kind == "Theirs" else (self.own, self.own_new)
        start, end, text = self.change(replica)
        made.append(replica.edit([(start, end, text)]))
        self.steps.append(f'Step::{kind}({start}, {end}, "{text}")')

    def undo(self) -> None:
        edits = [it.stamp for it in self.own.history.edits() if it.stamp.replica == 1]
        if edits:
            stamp = self.chance.choice(edits)
            self.own_new.append(self.own.undo([stamp]))
            self.steps.append(f"Step::Undo({stamp.value})")
            self.go_on()

    def meet(self) -> None:
        for operation in self.own_new:
            self.other.take(operation)
        for operation in self.other_new:
            self.own.take(operation)
        self.own_new, self.other_new = [], []
        self.steps.append("Step::Meet")
        self.go_on()

    def go_on(self) -> None:
        self.folds.history = self.own.history
        self.show()

    def range(self) -> tuple[int, int] | None:
        at = places(self.folds.history.text)
        if len(at) < 2:
            return None
        first = self.chance.randrange(len(at) - 1)
        last = self.chance.randrange(first + 1, min(first + 6, len(at)))
        return at[first], at[last]

    def fold(self) -> None:
        if found := self.range():
            self.folds.fold(*found)
            self.steps.append(f"Step::Fold({found[0]}, {found[1]})")

    def unfold(self) -> None:
        if found := self.range():
            count = self.folds.unfold(*found)
            self.steps.append(f"Step::Unfold({found[0]}, {found[1]}, {count})")
            self.show()

    def show(self) -> None:
        self.steps.append(f'Step::Shows("{self.folds.shown().decode()}")')
        if self.chance.random() < 0.3:
            place = self.chance.randrange(len(self.folds.history.text) + 2)
            self.steps.append(f"Step::ShownAt(({place}, {option(self.folds.to_shown(place))}))")
        if self.chance.random() < 0.3:
            place = self.chance.randrange(len(self.folds.shown()) + 2)
            self.steps.append(f"Step::From(({place}, {option(self.folds.to_text(place))}))")

    def row(self, name: str) -> str:
        kinds = [
            (self.fold, 6),
            (self.unfold, 1),
            (lambda: self.edit("Quiet"), 5),
            (lambda: (self.edit("Edit"), self.go_on()), 4),
            (self.undo, 2),
            (lambda: self.edit("Theirs"), 3),
            (self.meet, 2),
        ]
        for _ in range(STEPS):
            self.chance.choices([kind for kind, _ in kinds], [weight for _, weight in kinds])[0]()
        self.meet()
        steps = "".join(f"            {step},\n" for step in self.steps)
        return (
            f'    Row {{\n        name: "{name}",\n        base: "{self.base}",\n'
            f"        steps: &[\n{steps}        ],\n    }},\n"
        )


def rows(seeds: range) -> str:
    drawn = [Session(random.Random(seed)).row(f"drawn {seed}") for seed in seeds]
    return f"\npub(crate) const SEEDS_{seeds[0]}_TO_{seeds[-1]}: &[Row] = &[\n" + "".join(drawn) + "];\n"


def page() -> str:
    return HEAD + "".join(rows(range(first, first + SESSIONS)) for first in range(0, LISTS * SESSIONS, SESSIONS))


def main() -> int:
    if sys.argv[1:] == ["--check"]:
        return int(FILE.read_text() != page())
    FILE.write_text(page())
    return 0


if __name__ == "__main__":
    sys.exit(main())
