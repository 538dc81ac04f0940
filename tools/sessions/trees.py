"""The picture of an insertion tree: in preorder it is the text."""
from __future__ import annotations

from typing import NamedTuple

from .histories import History
from .layout import columns, shortened, visible
from .operations import Cell
from .svg import CHAR, Attribute, Colours, MUTED, RED, SMALL, element, line, name_of, picture, text

STEP, HIGH, LEFT = 30, 27, 14
MOST_ROWS, DEEPEST, LONGEST = 200, 16, 60


class Branch(NamedTuple):
    """Cells of one edit that stand below each other, all shown or all hidden."""

    depth: int
    cells: list[Cell]
    words: str
    is_shown: bool
    note: str


def branches_of(history: History) -> list[Branch]:
    """The branches in preorder. One that is alone after the last byte of another stands at the same depth."""
    found: list[Branch] = []
    rest: list[tuple[Cell, int]] = [(cell, 0) for cell in reversed(history.children.get(None, []))]
    while rest:
        cell, depth = rest.pop()
        run = [cell]
        while _goes_on(history, run[-1]):
            run.append(Cell(cell.stamp, run[-1].k + 1))
        found.append(_branch(history, run, depth))
        below = history.children.get(run[-1], [])
        own = Cell(cell.stamp, run[-1].k + 1)
        rest += [
            (child, depth if child == own or len(below) == 1 else depth + 1)
            for child in reversed(below)
        ]
    return found


def _goes_on(history: History, cell: Cell) -> bool:
    """The next byte of the edit is the only one below the cell, and is shown or hidden as the cell is."""
    following = Cell(cell.stamp, cell.k + 1)
    return history.children.get(cell) == [following] and (following in history.shown) == (
        cell in history.shown
    )


def _branch(history: History, run: list[Cell], depth: int) -> Branch:
    words = visible(bytes(map(history.byte, run)).decode("utf-8", "replace"))
    shown = run[0] in history.shown
    note = "base" if run[0].stamp.replica == 0 else str(run[0].stamp)
    if not shown:
        deleters = {
            stamp
            for cell in run
            for stamp in history.deleters.get(cell, [])
            if not history.is_undone(stamp)
        }
        why = ["undone"] if history.is_undone(run[0].stamp) else []
        why += [f"deleted by {', '.join(map(str, sorted(deleters)))}"] if deleters else []
        note = f"{note}, {' and '.join(why)}"
    return Branch(min(depth, DEEPEST), run, shortened(words, LONGEST), shown, note)


def draw_tree(history: History, colours: Colours) -> str:
    """A box for each branch; what was inserted after a byte stands below it, one step to the right."""
    branches = branches_of(history)
    parts: list[str] = []
    parents: dict[int, tuple[float, int]] = {}
    widest = 0.0
    for at, branch in enumerate(branches[:MOST_ROWS]):
        y = 22 + at * HIGH
        parts += _joint(branch, y, parents)
        parts += _boxed(branch, y, colours)
        widest = max(
            widest,
            LEFT
            + branch.depth * STEP
            + columns(branch.words) * CHAR
            + columns(branch.note) * SMALL
            + 40,
        )
        parents = {depth: place for depth, place in parents.items() if depth < branch.depth}
        parents[branch.depth] = (y, at)
    rows = min(len(branches), MOST_ROWS)
    if len(branches) > MOST_ROWS:
        parts.append(
            text(
                LEFT,
                26 + rows * HIGH,
                f"and {len(branches) - MOST_ROWS} branches more",
                MUTED,
                "small",
            )
        )
        rows += 1
    return picture(max(widest, 240), rows * HIGH + 20, "the insertion tree", parts)


def _joint(branch: Branch, y: float, parents: dict[int, tuple[float, int]]) -> list[str]:
    """The line from the branch above to this one."""
    x = LEFT + branch.depth * STEP
    if branch.depth in parents:
        return [line(x + 6, parents[branch.depth][0] + 10, x + 6, y - 10, "#aaa")]
    if branch.depth - 1 in parents:
        above = parents[branch.depth - 1][0] + 10
        way = f"M{x - STEP + 12} {above}V{y}H{x}"
        return [element("path", d=way, fill="none", stroke="#aaa")]
    return []


def _boxed(branch: Branch, y: float, colours: Colours) -> list[str]:
    first, shown = branch.cells[0], branch.is_shown
    x, colour = LEFT + branch.depth * STEP, colours.of(first.stamp.replica)
    width = max(1, columns(branch.words)) * CHAR + 14
    dash = "" if shown else "3 3"
    frame: dict[str, Attribute] = {"x": x, "y": y - 10, "width": width, "height": 20, "rx": 5}
    frame |= {"stroke_width": 1.6 if shown else 1, "stroke_dasharray": dash}
    parts = [element("rect", fill="#fff", stroke=colour, **frame)]
    title = f"from byte {first.k} of {name_of(first.stamp)}"
    parts.append(text(x + 7, y + 4.5, branch.words, colour, "" if shown else "hidden", title))
    if not shown:
        parts.append(line(x + 7, y, x + width - 7, y, RED))
    parts.append(text(x + width + 8, y + 4, branch.note, MUTED, "small"))
    return parts
