"""What each line of a session came to, and what a refused one lacks, as lines of text."""
from __future__ import annotations

from typing import Iterator

from . import lines as kinds
from .reading import BadLine, TooLarge, cut_lines, read_session
from .reasons import Fault, Reason, event_reason, fault_reason
from .replay import Event, Replay

FORMS = "docs/SESSIONS.md has the form of every line, and every word of a report"
ACCEPTED = {
    "json": "one JSON text (RFC 8259) on the line, in UTF-8",
    "header": '["zedbuf",1,BASE,[R,..]] or ["zedbuf",2,BASE,[R,..]], with 1 to 64 ids of 1 to 1023',
    "shape": "one of the forms of a line, each member a value of its kind",
    "replica": "a replica of the header, or a header with that replica",
    "number": "the number of an operation line before this one, counted from 1",
    "cr": "texts without CR, or a session of version 2 already",
    "name": (
        "a name that an earlier line keeps: one of `anchor` lines for `where`, of `mark` for `since`, "
        "of `select` for `share`, of `excerpt` for `multi` and `medit`"
    ),
    "too large: bytes": "at most 67,108,864 bytes",
    "too large: lines": "at most 1,048,576 lines",
}
"""What would be accepted in the place of a bad line or a session that is too large, by its word."""


def _shown(line: bytes) -> str:
    words = line.decode("utf-8", "replace")
    return words if len(words) <= 160 else f"{words[:150]} .."


def _reason_lines(reason: Reason) -> list[str]:
    return [f"  {reason.word}: {reason.says}", f"  accepted: {reason.accepted}"]


def _bad_lines(error: BadLine) -> list[str]:
    return _reason_lines(Reason(error.word, error.reason, ACCEPTED[error.word]))


class Explanation:
    """A session, which is to be written as one of version 2 or not, and what can be said of its lines."""

    def __init__(self, raw: bytes, is_migrated: bool = False) -> None:
        self.large: TooLarge | None = None
        self.bad: BadLine | None = None
        self.replay: Replay | None = None
        self.raw_lines: list[bytes] = []
        try:
            self.raw_lines = cut_lines(raw)
            self.replay = Replay(read_session(raw, is_migrated))
        except TooLarge as error:
            self.large = error
        except BadLine as error:
            self.bad = error

    def _event_lines(self, event: Event) -> list[str]:
        """What is said of a line that is refused or waits, or brings in operations that are refused."""
        assert self.replay is not None
        reason = event_reason(self.replay, event)
        said = _reason_lines(reason) if reason else []
        for operation, answer in event.refused:
            assert event.replica is not None and event.history is not None
            late = fault_reason(Fault(self.replay, event.replica, event.history, operation, answer))
            turn = f"{operation.stamp} had waited, and is refused at its turn"
            said.append(f"  {turn}: {late.word}: {late.says}")
            said.append(f"  accepted: {late.accepted}")
        return said

    def of_line(self, number: int) -> list[str]:
        """What is said of one line."""
        if self.large:
            return [str(self.large), f"  accepted: {ACCEPTED[str(self.large)]}"]
        if not 1 <= number <= max(1, len(self.raw_lines)):
            return [f"there is no line {number}; the session has {len(self.raw_lines)}"]
        head = [f"line {number}: {_shown(self.raw_lines[number - 1]) if self.raw_lines else ''}"]
        if self.bad:
            if number == self.bad.number:
                return head + _bad_lines(self.bad)
            when = "it is a good line" if number < self.bad.number else "it is not looked at"
            return head + [f"  {when}; the session is refused for line {self.bad.number}"]
        assert self.replay is not None
        if number == 1:
            return head + ["  it is a header, and nothing is refused"]
        event = self.replay.events[number - 2]
        return head + (self._event_lines(event) or ["  it does what it says", *_said(event)])

    def of_all(self) -> Iterator[str]:
        """What is said of every line that is refused, waits or has no answer."""
        if self.large:
            yield from self.of_line(1)
        elif self.bad:
            yield from self.of_line(self.bad.number)
        elif self.replay:
            for event in self.replay.events:
                if self._event_lines(event):
                    yield from self.of_line(event.place)


def _said(event: Event) -> list[str]:
    if isinstance(event.line, (kinds.OpLine, kinds.UopLine)):
        return [f"  report: {event.said[0]} (it is applied where a give line gives it)"]
    return [f"  report: {line}" for line in event.said]
