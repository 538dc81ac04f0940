"""What is asked of a text: anchors, the edits since a version, and the queries."""
from __future__ import annotations

from typing import NamedTuple

from .histories import History, history_of
from .operations import Cell, Version, is_boundary


class Anchor(NamedTuple):
    """A place that keeps to the byte before it (left) or after it (right); without a cell, to an end of the text."""

    side: str
    cell: Cell | None


def anchor_fault(history: History, offset: int) -> str | None:
    """Why no anchor is made at the offset."""
    if offset > len(history.text):
        return f"pastend {len(history.text)}"
    return None if is_boundary(history.text, offset) else "insidechar"


def anchor_at(history: History, offset: int, side: str) -> Anchor:
    """The anchor at an offset without a fault."""
    at = offset - 1 if side == "left" else offset
    return Anchor(side, history.shown_cells[at] if 0 <= at < len(history.shown_cells) else None)


def is_known(history: History, anchor: Anchor) -> bool:
    """Whether the history has the byte to which the anchor keeps, at a place where a character ends or begins."""
    if anchor.cell is None:
        return True
    if not history.has_edit(anchor.cell.stamp):
        return False
    new = history.edit(anchor.cell.stamp).bytes
    edge = anchor.cell.k + (anchor.side == "left")
    return anchor.cell.k < len(new) and is_boundary(new, edge)


def place_of(history: History, anchor: Anchor) -> int:
    """Where a known anchor is in the text."""
    if anchor.cell is None:
        return 0 if anchor.side == "left" else len(history.text)
    at = history.sequence.index(anchor.cell) + (anchor.side == "left")
    return sum(cell in history.shown for cell in history.sequence[:at])


class Change(NamedTuple):
    """The bytes of `old` in the text then have become the bytes of `new` in the text now."""

    old: tuple[int, int]
    new: tuple[int, int]

    def __str__(self) -> str:
        return f"{self.old[0]}..{self.old[1]} -> {self.new[0]}..{self.new[1]}"


def since_fault(history: History, version: Version) -> str | None:
    """Why there are no edits since the version."""
    unseen = version.passing(history.version)
    if unseen:
        return f"unseen {unseen[0]}"
    open_replica = history.open_replica(version)
    return None if open_replica is None else f"openversion {open_replica}"


def changes_since(history: History, version: Version) -> list[Change]:
    """One change for each run of cells that holds no cell shown both then and now."""
    then, changes = history_of(history.seen(version)).shown, []
    old = new = old_start = new_start = 0
    for cell in [*history.sequence, None]:
        if cell is None or cell in then and cell in history.shown:
            if (old, new) != (old_start, new_start):
                changes.append(Change((old_start, old), (new_start, new)))
            old, new = old + 1, new + 1
            old_start, new_start = old, new
        else:
            old, new = old + (cell in then), new + (cell in history.shown)
    return changes


def starts_of(text: bytes, needle: bytes) -> list[int]:
    """All places where the needle stands, also where these overlap."""
    starts, at = [], text.find(needle)
    while at >= 0:
        starts.append(at)
        at = text.find(needle, at + 1)
    return starts


def clip(text: bytes, at: int, step: int) -> int:
    """The nearest place at or before (step -1) or at or past (step 1) an offset of the text."""
    at = min(at, len(text))
    while not is_boundary(text, at):
        at += step
    return at


def point_at(text: bytes, at: int) -> tuple[int, int]:
    """The row and the column in bytes."""
    return text.count(b"\n", 0, at), at - (text.rfind(b"\n", 0, at) + 1)


def utf16_units(text: bytes) -> int:
    """The length of a text in UTF-16."""
    return len(text.decode().encode("utf-16-le")) // 2


def find_answer(text: bytes, needle: str) -> str:
    """The places of the needle, as the report has them."""
    if not needle:
        return "empty needle"
    return " ".join(map(str, starts_of(text, needle.encode()))) or "none"


def point_answer(text: bytes, offset: int) -> str:
    """The point of an offset, as the report has it."""
    if offset > len(text) or not is_boundary(text, offset):
        return f"none {clip(text, offset, -1)} {clip(text, offset, 1)}"
    row, column = point_at(text, offset)
    units = utf16_units(text[:offset])
    return f"{row}:{column} {units} {row}:{utf16_units(text[offset - column:offset])}"


def offset_answer(text: bytes, row: int, column: int) -> str:
    """The offset of a point, as the report has it."""
    rows = text.split(b"\n")
    if row >= len(rows):
        end = "{}:{}".format(*point_at(text, len(text)))
        return f"none {end} {end}"
    if column <= len(rows[row]) and is_boundary(rows[row], column):
        return str(sum(len(before) + 1 for before in rows[:row]) + column)
    return f"none {row}:{clip(rows[row], column, -1)} {row}:{clip(rows[row], column, 1)}"
