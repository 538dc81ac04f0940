"""Operations as the bytes of records, and streams of records as operations. docs/RECORDS.md has the format."""
from __future__ import annotations

from typing import Iterable, Iterator, NamedTuple

from .json_values import write_value
from .lines import number_count
from .operations import Edit, Operation, Piece, Stamp, Undo, Version
from .reading import BadLine, check_size
from .replay import Replay

MOST = 65_536
"""The most entries, pieces or counts of a record, and the most bytes of its texts together."""
EDIT, UNDO = 1, 2


class TooLong(Exception):
    """An operation has more of something than a record may have."""


class BadRecord(Exception):
    """The first fault of a stream: its word and the offset of its field; the message is the report."""

    def __init__(self, word: str, at: int) -> None:
        super().__init__(f"record at {at}: {word}")
        self.word, self.at = word, at


def _number(value: int, size: int) -> bytes:
    return value.to_bytes(size, "big")


def _amount(count: int) -> bytes:
    if count > MOST:
        raise TooLong
    return _number(count, 4)


def _stamp(stamp: Stamp) -> bytes:
    return _number(stamp.value, 4) + _number(stamp.replica, 2)


def record_of(operation: Operation) -> bytes:
    """The record of an operation. Fails with `TooLong`."""
    kind = EDIT if isinstance(operation, Edit) else UNDO
    entries = sorted(operation.version.items())
    record = _number(kind, 1) + _stamp(operation.stamp) + _amount(len(entries))
    record += b"".join(_number(replica, 2) + _number(value, 4) for replica, value in entries)
    if isinstance(operation, Edit):
        return record + _amount(len(operation.pieces)) + _pieces(operation.pieces)
    counts = b"".join(_stamp(stamp) + _number(count, 4) for stamp, count in operation.counts)
    return record + _amount(len(operation.counts)) + counts


def _pieces(pieces: Iterable[Piece]) -> bytes:
    texts, parts = 0, []
    for piece in pieces:
        texts += len(piece.text)
        if texts > MOST:
            raise TooLong
        parts.append(_number(piece.start, 8) + _number(piece.end, 8))
        parts.append(_number(len(piece.text), 4) + piece.text)
    return b"".join(parts)


class _Cut(Exception):
    """The bytes end inside a field."""


class _Field(NamedTuple):
    """A number of a stream and the offset of its field."""

    value: int
    at: int


class _Bytes:
    """A stream that is read field by field."""

    def __init__(self, stream: bytes) -> None:
        self.stream, self.at = stream, 0

    def take(self, size: int) -> bytes:
        """The next bytes. Fails with `_Cut`."""
        if len(self.stream) - self.at < size:
            raise _Cut
        self.at += size
        return self.stream[self.at - size : self.at]

    def number(self, size: int) -> _Field:
        """The next number."""
        at = self.at
        return _Field(int.from_bytes(self.take(size), "big"), at)

    def amount(self) -> int:
        """The next number, which counts what follows."""
        field = self.number(4)
        if field.value > MOST:
            raise BadRecord("long", field.at)
        return field.value

    def stamp(self) -> Stamp:
        """The next stamp."""
        return Stamp(self.number(4).value, self.number(2).value)


def _version(stream: _Bytes) -> Version:
    version, before = Version(), -1
    for _ in range(stream.amount()):
        replica = stream.number(2)
        if replica.value <= before:
            raise BadRecord("order", replica.at)
        value = stream.number(4)
        if value.value == 0:
            raise BadRecord("zero", value.at)
        before = replica.value
        version[before] = value.value
    return version


def _read_pieces(stream: _Bytes) -> Iterator[Piece]:
    texts = 0
    for _ in range(stream.amount()):
        start, end, size = stream.number(8), stream.number(8), stream.number(4)
        texts += size.value
        if texts > MOST:
            raise BadRecord("long", size.at)
        at, text = stream.at, stream.take(size.value)
        try:
            text.decode()
        except UnicodeDecodeError:
            raise BadRecord("utf8", at) from None
        yield Piece(start.value, end.value, text)


def _operation(stream: _Bytes) -> Operation:
    kind = stream.number(1)
    if kind.value not in (EDIT, UNDO):
        raise BadRecord("kind", kind.at)
    stamp, version = stream.stamp(), _version(stream)
    if kind.value == EDIT:
        return Edit(stamp, version, tuple(_read_pieces(stream)))
    counts = tuple((stream.stamp(), stream.number(4).value) for _ in range(stream.amount()))
    return Undo(stamp, version, counts)


def operations_of(raw: bytes) -> list[Operation]:
    """The operations of a stream. Fails with `BadRecord`."""
    stream, operations = _Bytes(raw), []
    while stream.at < len(raw):
        start = stream.at
        try:
            operations.append(_operation(stream))
        except _Cut:
            raise BadRecord("cut", start) from None
    return operations


def line_of(operation: Operation) -> str:
    """An operation as a line of a session."""
    version = [list(entry) for entry in sorted(operation.version.items())]
    if isinstance(operation, Edit):
        pieces = [[start, end, text.decode()] for start, end, text in operation.pieces]
        return write_value(["op", list(operation.stamp), version, pieces])
    counts = [[*stamp, count] for stamp, count in operation.counts]
    return write_value(["uop", list(operation.stamp), version, counts])


def packed(replay: Replay) -> bytes:
    """The records of a session's operations, by their numbers. Fails with `BadLine` where one is too long."""
    records = []
    for event in replay.events:
        count = number_count(event.line, len(replay.replicas))
        first = (event.number or 1) - 1
        for operation in replay.operations[first : first + count]:
            if operation is None:
                continue
            try:
                records.append(record_of(operation))
            except TooLong:
                reason = f"operation {operation.stamp} has more of something than a record may have"
                raise BadLine(event.place, "long", reason) from None
    return b"".join(records)


def unpacked(raw: bytes) -> str:
    """The lines of the operations of a stream. Fails with `BadRecord`, or with `TooLarge`."""
    check_size(raw)
    return "".join(f"{line_of(operation)}\n" for operation in operations_of(raw))
