"""Compares a report that is given with the one that the definitions give."""
from __future__ import annotations

from typing import NamedTuple

from .replay import Event, Query, Replay


class Difference(NamedTuple):
    """A line of the given report that is not the one that is wanted; None where there is no line."""

    number: int
    given: str | None
    wanted: str | None
    event: Event | None

    def __str__(self) -> str:
        given, wanted = self.given or "nothing", self.wanted or "nothing"
        return f"line {self.number} of the report: {given}; wanted: {wanted}"


def differences(replay: Replay, given: list[str], whole: bool = True) -> list[Difference]:
    """Where the given report differs. A query may be answered on a later text of its replica, as by a worker.

    Of a session that is not worked to its end only the lines of its events are compared.
    """
    wanted: list[tuple[str, Event | None, Query | None]] = [
        (said, event, None) for said, event in replay.event_lines()
    ]
    if whole:
        wanted += [(query.event.said[0], query.event, query) for query in replay.queries]
        wanted += [(said, None, None) for said in replay.last_lines()]
    else:
        given = given[: len(wanted)]
    found = []
    for at in range(max(len(wanted), len(given))):
        said, event, query = wanted[at] if at < len(wanted) else (None, None, None)
        line = given[at] if at < len(given) else None
        if line != said and not (query and line and is_later_answer(replay, query, line)):
            found.append(Difference(at + 1, line, said, event))
    return found


def is_later_answer(replay: Replay, query: Query, line: str) -> bool:
    """The line is the answer on a text with some of the operations that the replica applied after the query."""
    last = len(replay.replicas[query.event.replica or 0].applied) - 1
    return any(
        line == replay.query_line(query, applied) for applied in range(query.applied, last + 1)
    )
