"""What a set of operations means: the order of its bytes, and which of them are shown.

Every byte of every edit is a cell. A cell stands below its left neighbour in the insertion tree, and all cells in order
are that tree in preorder, the newest sibling first. A cell is shown where its edit is not undone and each edit that
deletes it is.
"""
from __future__ import annotations

from functools import cached_property, lru_cache
from itertools import islice
from typing import Iterator, Optional

from .operations import Cell, Edit, Operation, Stamp, Undo, Version, version_of


Parent = Optional[Cell]
"""A left neighbour; None is the root, where a text begins."""


class History:
    """A set of operations with distinct stamps. What it means is worked out when it is asked for."""

    def __init__(self, operations: frozenset[Operation]) -> None:
        self.operations = operations

    @cached_property
    def by_stamp(self) -> dict[Stamp, Operation]:
        """The operations by their stamps, the oldest first."""
        return {
            operation.stamp: operation
            for operation in sorted(self.operations, key=lambda it: it.stamp)
        }

    @cached_property
    def version(self) -> Version:
        """The greatest value for each replica."""
        return version_of(self.operations)

    def edits(self) -> Iterator[Edit]:
        """The edits by their stamps, the oldest first."""
        return (operation for operation in self.by_stamp.values() if isinstance(operation, Edit))

    def seen(self, version: Version) -> frozenset[Operation]:
        """The part that the version sees."""
        return frozenset(it for it in self.operations if version.sees(it.stamp))

    @cached_property
    def children(self) -> dict[Parent, list[Cell]]:
        """The insertion tree: the cells of which each cell is the left neighbour, the newest first."""
        return self._tree()

    def _tree(self) -> dict[Parent, list[Cell]]:
        children: dict[Parent, list[Cell]] = {}
        for edit in self.edits():
            cells = iter(edit.cells)
            for left, piece in zip(lefts_of(edit, self.seen(edit.version)), edit.pieces):
                for cell in islice(cells, len(piece.text)):
                    children.setdefault(left, []).append(cell)
                    left = cell
        for siblings in children.values():
            if len(siblings) > 1:
                siblings.sort(key=lambda cell: (-cell.stamp.value, -cell.stamp.replica, cell.k))
        return children

    @cached_property
    def sequence(self) -> list[Cell]:
        """All cells in order: the insertion tree in preorder."""
        children = self._tree()
        order: list[Cell] = []
        rest = list(reversed(children.get(None, [])))
        while rest:
            cell = rest.pop()
            order.append(cell)
            rest.extend(reversed(children.get(cell, [])))
        return order

    @cached_property
    def counts(self) -> dict[Stamp, int]:
        """The greatest undo count of each edit that has one."""
        counts: dict[Stamp, int] = {}
        for operation in self.operations:
            for stamp, count in operation.counts if isinstance(operation, Undo) else ():
                counts[stamp] = max(count, counts.get(stamp, 0))
        return counts

    def count(self, stamp: Stamp) -> int:
        """The undo count of an edit, 0 where no undo gives it one."""
        return self.counts.get(stamp, 0)

    def is_undone(self, stamp: Stamp) -> bool:
        """Whether the undo count is odd."""
        return self.count(stamp) % 2 == 1

    @cached_property
    def deleters(self) -> dict[Cell, list[Stamp]]:
        """The edits that delete each cell: it stands at one of their ranges, and was shown to their authors."""
        deleters: dict[Cell, list[Stamp]] = {}
        for edit in self.edits():
            for cell in deleted_by(edit, self.seen(edit.version)):
                deleters.setdefault(cell, []).append(edit.stamp)
        return deleters

    @cached_property
    def shown(self) -> frozenset[Cell]:
        """The cells that are not hidden."""
        return frozenset(
            cell
            for cell in self.sequence
            if not self.is_undone(cell.stamp)
            and all(map(self.is_undone, self.deleters.get(cell, [])))
        )

    @cached_property
    def shown_cells(self) -> list[Cell]:
        """The shown cells in order; one stands at each byte of the text."""
        return [cell for cell in self.sequence if cell in self.shown]

    def byte(self, cell: Cell) -> int:
        """The byte of a cell."""
        return self.edit(cell.stamp).bytes[cell.k]

    def edit(self, stamp: Stamp) -> Edit:
        """The edit with the stamp."""
        operation = self.by_stamp[stamp]
        assert isinstance(operation, Edit)
        return operation

    def has_edit(self, stamp: Stamp) -> bool:
        """Whether the stamp is that of an edit."""
        return isinstance(self.by_stamp.get(stamp), Edit)

    @cached_property
    def text(self) -> bytes:
        """The bytes of the shown cells."""
        return bytes(map(self.byte, self.shown_cells))

    @cached_property
    def full(self) -> bytes:
        """The bytes of all cells; the offsets of operations count in it."""
        return bytes(map(self.byte, self.sequence))

    @cached_property
    def full_offsets(self) -> list[int]:
        """The number of all cells before each shown one, and of all cells at the end."""
        return [at for at, cell in enumerate(self.sequence) if cell in self.shown] + [
            len(self.sequence)
        ]

    def open_replica(self, version: Version) -> int | None:
        """The least replica of which the version has a value that no operation has, or one that saw more than it."""
        for replica, value in sorted(version.items()):
            cause = self.by_stamp.get(Stamp(value, replica))
            if value and (cause is None or not cause.version.is_within(version)):
                return replica
        return None


@lru_cache(maxsize=64)
def history_of(operations: frozenset[Operation]) -> History:
    """The meaning of the set."""
    return History(operations)


@lru_cache(maxsize=None)
def lefts_of(edit: Edit, seen: frozenset[Operation]) -> tuple[Parent, ...]:
    """The left neighbour of each piece's first cell, by what the edit's version sees."""
    if not any(piece.start for piece in edit.pieces):
        return tuple(None for _ in edit.pieces)
    sequence = history_of(seen).sequence
    return tuple(sequence[piece.start - 1] if piece.start else None for piece in edit.pieces)


@lru_cache(maxsize=None)
def deleted_by(edit: Edit, seen: frozenset[Operation]) -> tuple[Cell, ...]:
    """The cells at the edit's ranges that are shown in what its version sees."""
    ranges = [(piece.start, piece.end) for piece in edit.pieces if piece.end > piece.start]
    if not ranges:
        return ()
    before = history_of(seen)
    return tuple(
        cell for start, end in ranges for cell in before.sequence[start:end] if cell in before.shown
    )
