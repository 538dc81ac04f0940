"""Stamps, versions and operations."""
from __future__ import annotations

from dataclasses import dataclass
from functools import cached_property
from typing import Iterable, NamedTuple, Union

LAST_VALUE = 4_294_967_295
"""Where clocks, values and undo counts end."""
LAST_REPLICA = 1023
TEXT_LIMIT = 65_536
"""The most bytes that the new texts of one operation have together."""


class Stamp(NamedTuple):
    """The name of an operation; stamps are ordered by value, then by replica."""

    value: int
    replica: int

    def __str__(self) -> str:
        return f"{self.value}.{self.replica}"


class Cell(NamedTuple):
    """Byte k of the new texts of the edit with the stamp."""

    stamp: Stamp
    k: int


class Version(dict[int, int]):
    """For each replica the greatest value that is seen; 0, where none is, has no entry."""

    def at(self, replica: int) -> int:
        """The replica's value."""
        return self.get(replica, 0)

    def sees(self, stamp: Stamp) -> bool:
        """Whether the operation with the stamp is seen."""
        return stamp.value <= self.at(stamp.replica)

    def passing(self, other: Version) -> list[int]:
        """The replicas, ascending, of which this version has more than the other."""
        return sorted(replica for replica, value in self.items() if value > other.at(replica))

    def is_within(self, other: Version) -> bool:
        """Whether no entry passes that of the other."""
        return not self.passing(other)


class Piece(NamedTuple):
    """A range of bytes, and the text in its place."""

    start: int
    end: int
    text: bytes


@dataclass(frozen=True)
class Edit:
    """Pieces in full offsets: hidden bytes count too."""

    stamp: Stamp
    version: Version
    pieces: tuple[Piece, ...]

    def __hash__(self) -> int:
        return hash(self.stamp)

    @cached_property
    def bytes(self) -> bytes:
        """The new texts, one after the other: byte k of them is cell k of the edit."""
        return b"".join(piece.text for piece in self.pieces)

    @cached_property
    def cells(self) -> tuple[Cell, ...]:
        """A cell for each of those bytes."""
        return tuple(Cell(self.stamp, k) for k in range(len(self.bytes)))


@dataclass(frozen=True)
class Undo:
    """The counts that edits get: an edit whose greatest count is odd is undone."""

    stamp: Stamp
    version: Version
    counts: tuple[tuple[Stamp, int], ...]

    def __hash__(self) -> int:
        return hash(self.stamp)


Operation = Union[Edit, Undo]


def base(text: bytes) -> Edit:
    """The operation that every history begins with."""
    return Edit(Stamp(1, 0), Version(), (Piece(0, 0, text),))


def version_of(operations: Iterable[Operation]) -> Version:
    """The greatest value for each replica."""
    version = Version()
    for operation in operations:
        replica, value = operation.stamp.replica, operation.stamp.value
        version[replica] = max(version.at(replica), value)
    return version


def clock_after(clock: int, value: int) -> int:
    """A clock at `clock` after it has met a stamp with the value."""
    return min(max(clock, value) + 1, LAST_VALUE)


def is_boundary(text: bytes, at: int) -> bool:
    """A character begins at the place, or the text ends there."""
    return at == len(text) or at < len(text) and text[at] & 0xC0 != 0x80
