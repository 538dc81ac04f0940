"""Where the characters of a text stand on a page: columns, rows, and runs of one colour."""
from __future__ import annotations

import unicodedata
from dataclasses import dataclass, field
from typing import NamedTuple

from .histories import History
from .operations import Cell, Stamp

SIGNS = {"\n": "↵", "\t": "→", "\r": "␍"}


def visible(text: str) -> str:
    """The text with a sign in the place of each character that is not seen."""
    return "".join(SIGNS.get(char, char if char.isprintable() else "·") for char in text)


def columns(text: str) -> int:
    """How many columns of a fixed-width font the text takes."""
    return sum(
        0 if unicodedata.combining(char) else 2 if unicodedata.east_asian_width(char) in "WF" else 1
        for char in text
    )


def wrap(words: str, most: int) -> list[str]:
    """The words in lines of so many columns; a word that is longer is cut."""
    lines, line = [], ""
    for word in words.split(" "):
        while columns(word) > most:
            if line:
                lines.append(line)
                line = ""
            lines.append(word[: most // 2])
            word = word[most // 2 :]
        longer = f"{line} {word}" if line else word
        if columns(longer) > most:
            lines.append(line)
            longer = word
        line = longer
    return [*lines, line]


def shortened(text: str, most: int) -> str:
    """The text, with a sign in the place of its middle where it has more characters."""
    return text if len(text) <= most else f"{text[:most // 2]} ⋯ {text[-(most // 2 - 3):]}"


class Run(NamedTuple):
    """Neighbouring characters of one edit, all shown or all hidden, in one row."""

    row: int
    column: int
    text: str
    stamp: Stamp
    is_shown: bool


@dataclass
class Laid:
    """A history's bytes, hidden ones too, in rows of a limited width."""

    runs: list[Run] = field(default_factory=list)
    rows: int = 1
    places: list[tuple[int, int]] = field(default_factory=list)
    """The row and column before each shown byte, and those at the end."""
    ends: list[tuple[int, int]] = field(default_factory=lambda: [(0, 0)])
    """The row and column after each number of shown bytes."""
    left_out: int = 0
    """How many bytes of the end are not laid."""

    def caret(self, offset: int, side: str) -> tuple[int, int]:
        """The row and column of an offset of the text: after the byte before it, or before the byte after it."""
        marks = self.ends if side == "left" else self.places
        return marks[min(offset, len(marks) - 1)]

    def width(self) -> int:
        """The columns of the widest row."""
        return max((run.column + columns(run.text) for run in self.runs), default=0)


def characters(history: History, cells: list[Cell]) -> list[tuple[str, list[Cell]]]:
    """The characters of the cells, each with the cells of its bytes."""
    found: list[tuple[bytearray, list[Cell]]] = []
    for cell in cells:
        byte = history.byte(cell)
        if byte & 0xC0 != 0x80 or not found:
            found.append((bytearray(), []))
        found[-1][0].append(byte)
        found[-1][1].append(cell)
    return [(raw.decode("utf-8", "replace"), cells) for raw, cells in found]


def lay(history: History, most_columns: int, most_rows: int = 8) -> Laid:
    """Lays the bytes of a history; a row ends after a shown LF, and where it is full."""
    laid, row, column, done = Laid(), 0, 0, 0
    for char, cells in characters(history, history.sequence):
        shown, sign = cells[0] in history.shown, visible(char)
        wide = columns(sign)
        if column + wide > most_columns:
            row, column = row + 1, 0
        if row == most_rows:
            laid.left_out = len(history.sequence) - done
            break
        if shown:
            laid.places += [(row, column)] * len(cells)
        _add(laid, Run(row, column, sign, cells[0].stamp, shown))
        column, done, laid.rows = column + wide, done + len(cells), row + 1
        if shown:
            laid.ends += [(row, column)] * len(cells)
        if shown and char == "\n":
            row, column = row + 1, 0
    laid.places.append((min(row, most_rows - 1), column))
    return laid


def _add(laid: Laid, run: Run) -> None:
    last = laid.runs[-1] if laid.runs else None
    if last and (last.row, last.stamp, last.is_shown) == (run.row, run.stamp, run.is_shown):
        laid.runs[-1] = last._replace(text=last.text + run.text)
    else:
        laid.runs.append(run)
