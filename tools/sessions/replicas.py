"""One replica: what it has applied, what waits there, and what it answers to edits, undos and operations of others."""
from __future__ import annotations

from typing import Callable, Iterable, NamedTuple, Sequence, Union

from .histories import History, history_of
from .operations import (
    LAST_REPLICA,
    LAST_VALUE,
    TEXT_LIMIT,
    Edit,
    Operation,
    Piece,
    Stamp,
    Undo,
    base,
    clock_after,
    is_boundary,
)


class Answer(NamedTuple):
    """A word of the report and its numbers: `applied 2`, `waits 1 5`, `repeat`, or a fault such as `pastend 0 6`."""

    word: str
    numbers: tuple[int | Stamp, ...] = ()

    def __str__(self) -> str:
        return " ".join([self.word, *map(str, self.numbers)])

    @property
    def is_fault(self) -> bool:
        """Whether the operation is refused, and not kept."""
        return self.word not in ("applied", "waits", "repeat", "nothing")


def first_piece(pieces: Sequence[Piece], is_bad: Callable[[Piece], bool]) -> int | None:
    """The number of the first piece that is bad."""
    return next((at for at, piece in enumerate(pieces) if is_bad(piece)), None)


def order_fault(pieces: Sequence[Piece]) -> Answer | None:
    """A piece that starts past its end, or else before the end of the one before it."""
    reversed_at = first_piece(pieces, lambda piece: piece.end < piece.start)
    if reversed_at is not None:
        return Answer("reversed", (reversed_at,))
    for at, (before, piece) in enumerate(zip(pieces, pieces[1:]), 1):
        if piece.start < before.end:
            return Answer("overlap", (at,))
    return None


def range_fault(pieces: Sequence[Piece], text: bytes) -> Answer | None:
    """A piece that ends past the text, or else one that starts or ends inside a character."""
    past = first_piece(pieces, lambda piece: piece.end > len(text))
    if past is not None:
        return Answer("pastend", (past, len(text)))
    inside = first_piece(
        pieces, lambda piece: not (is_boundary(text, piece.start) and is_boundary(text, piece.end))
    )
    return None if inside is None else Answer("insidechar", (inside,))


def total_of(pieces: Iterable[Piece]) -> int:
    """How many bytes the new texts have together."""
    return sum(len(piece.text) for piece in pieces)


def shape_fault(operation: Operation) -> Answer | None:
    """The fault that shows in the operation alone."""
    stamp, version = operation.stamp, operation.version
    if (
        stamp.value in (0, LAST_VALUE)
        or not 1 <= stamp.replica <= LAST_REPLICA
        or any(replica > LAST_REPLICA or value >= stamp.value for replica, value in version.items())
    ):
        return Answer("badstamp")
    if version.at(0) != 1:
        return Answer("nobase")
    pieces = operation.pieces if isinstance(operation, Edit) else ()
    if total_of(pieces) > TEXT_LIMIT:
        return Answer("textlimit", (total_of(pieces),))
    return order_fault(pieces)


def lf(text: bytes) -> bytes:
    """The text with each CR LF, and each other CR, as one LF."""
    return text.replace(b"\r\n", b"\n").replace(b"\r", b"\n")


class Replica:
    """A buffer over the base. With `lf_alone` texts enter it with LFs alone."""

    def __init__(self, number: int, text: bytes, lf_alone: bool) -> None:
        self.number, self.lf_alone = number, lf_alone
        self.applied: list[Operation] = [base(lf(text) if lf_alone else text)]
        self.waiting: list[Operation] = []
        self.refused: list[tuple[Operation, Answer]] = []

    @property
    def history(self) -> History:
        """What is applied, as a set."""
        return history_of(frozenset(self.applied))

    @property
    def clock(self) -> int:
        """The value of the next stamp."""
        clock = 1
        for operation in self.applied:
            clock = clock_after(clock, operation.stamp.value)
        return clock

    def edit(self, pieces: Iterable[tuple[int, int, str]]) -> Union[Edit, Answer]:
        """Makes and applies an edit of ranges of the text, or gives the fault that it meets."""
        entered = [Piece(start, end, self._entered(text)) for start, end, text in pieces]
        history, total = self.history, total_of(entered)
        fault = order_fault(entered) or range_fault(entered, history.text)
        if fault is None and total > TEXT_LIMIT:
            fault = Answer("textlimit", (total,))
        if fault is None and self.clock == LAST_VALUE:
            fault = Answer("clockend")
        if fault:
            return fault
        made = Edit(
            self._stamp(),
            history.version,
            tuple(_full(piece, history.full_offsets) for piece in entered),
        )
        self.applied.append(made)
        return made

    def undo(self, stamps: Sequence[Stamp]) -> Union[Undo, Answer]:
        """Gives each edit one more than its undo count, or gives the fault that this meets."""
        history = self.history
        fault = _undo_fault(history, stamps)
        if fault is None and self.clock == LAST_VALUE:
            fault = Answer("clockend")
        if fault:
            return fault
        counts = tuple((stamp, history.count(stamp) + 1) for stamp in stamps)
        made = Undo(self._stamp(), history.version, counts)
        self.applied.append(made)
        return made

    def take(self, operation: Operation) -> Answer:
        """Applies an operation and what waited for it, or keeps it until it misses nothing, or refuses it."""
        answer = self._answer(operation, self.waiting)
        if answer is None:
            self.applied.append(operation)
            return Answer("applied", (1 + self.settle(),))
        if answer.word == "waits":
            self.waiting.append(operation)
        return answer

    def settle(self) -> int:
        """Applies what waits and misses nothing, in passes by stamps until one applies nothing; how many it applied."""
        before = len(self.applied)
        while True:
            applied = len(self.applied)
            for operation in sorted(self.waiting, key=lambda it: it.stamp):
                self._turn(operation)
            if len(self.applied) == applied:
                return applied - before

    def reopen(self) -> None:
        """Keeps what is applied alone: what waits or was refused is gone."""
        self.waiting, self.refused = [], []

    def _turn(self, operation: Operation) -> None:
        if not operation.version.is_within(self.history.version):
            return
        self.waiting.remove(operation)
        answer = self._answer(operation, [])
        if answer is None:
            self.applied.append(operation)
        elif answer.is_fault:
            self.refused.append((operation, answer))

    def _stamp(self) -> Stamp:
        return Stamp(self.clock, self.number)

    def _entered(self, text: str) -> bytes:
        return lf(text.encode()) if self.lf_alone else text.encode()

    def _answer(self, operation: Operation, waiting: Sequence[Operation]) -> Answer | None:
        """What stands against the operation, the first reason that applies; None where it can be applied."""
        fault = shape_fault(operation) or self._return_fault(operation)
        if fault:
            return fault
        history, known = self.history, [*self.applied, *waiting]
        if operation in known:
            return Answer("repeat")
        if any(it.stamp == operation.stamp for it in known):
            return Answer("conflict", (operation.stamp,))
        kept = history.version.at(operation.stamp.replica)
        if kept > operation.version.at(operation.stamp.replica):
            return Answer("forked", (kept,))
        missing = operation.version.passing(history.version)
        if missing:
            return Answer("waits", (missing[0], operation.version.at(missing[0])))
        open_replica = history.open_replica(operation.version)
        if open_replica is not None:
            return Answer("openversion", (open_replica,))
        return _fault_against(operation, history_of(history.seen(operation.version)))

    def _return_fault(self, operation: Operation) -> Answer | None:
        if not self.lf_alone or not isinstance(operation, Edit):
            return None
        at = first_piece(operation.pieces, lambda piece: b"\r" in piece.text)
        return None if at is None else Answer("carriage", (at,))


def _full(piece: Piece, offsets: Sequence[int]) -> Piece:
    """The piece in full offsets: an empty range stays empty, another ends one past its last shown cell."""
    start = offsets[piece.start]
    return Piece(
        start, start if piece.start == piece.end else offsets[piece.end - 1] + 1, piece.text
    )


def _undo_fault(history: History, stamps: Sequence[Stamp]) -> Answer | None:
    for stamp in stamps:
        if not history.has_edit(stamp):
            return Answer("nosuchedit", (stamp,))
    for at, stamp in enumerate(stamps):
        if stamp in stamps[:at]:
            return Answer("twice", (stamp,))
    for stamp in stamps:
        if history.count(stamp) == LAST_VALUE:
            return Answer("countend", (stamp,))
    return None


def _fault_against(operation: Operation, seen: History) -> Answer | None:
    """The fault of an operation against what its version sees."""
    if isinstance(operation, Edit):
        return range_fault(operation.pieces, seen.full)
    for stamp, _ in operation.counts:
        if not seen.has_edit(stamp):
            return Answer("nosuchedit", (stamp,))
    return None
