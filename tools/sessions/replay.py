"""Works a session line by line, and writes its report."""
from __future__ import annotations

from dataclasses import dataclass, field

from . import answers, lines as kinds
from .answers import Anchor, Change
from .histories import History, history_of
from .json_values import write_string
from .operations import Edit, Operation, Piece, Stamp, Undo, Version
from .replicas import Answer, Replica
from .excerpts import Excerpts
from .folds import Folds
from .selections import Selections, Sets, places_of, unknown_range


@dataclass(frozen=True)
class Part:
    """What an edit of excerpts made at one replica, under a number, and what the replica has after it."""

    replica: int
    number: int
    operation: Operation
    history: History


@dataclass
class Event:
    """What one line of the session did, and what is so after it."""

    place: int
    """The number of the line, the header being line 1."""
    line: kinds.Line
    replica: int | None = None
    """The replica at which it happens; an operation as it is sent happens nowhere."""
    number: int | None = None
    """The number of the operation line or of the query."""
    said: list[str] = field(default_factory=list)
    """Its lines of the report."""
    answer: Answer | None = None
    """What a `give` came to, or the fault of an edit or undo."""
    operation: Operation | None = None
    """The operation that is made, sent or taken."""
    brought: tuple[Stamp, ...] = ()
    """The operations that waited and are applied after it."""
    refused: tuple[tuple[Operation, Answer], ...] = ()
    """The operations that waited and are refused after it."""
    history: History | None = None
    waiting: tuple[Stamp, ...] = ()
    offset: int | None = None
    """Where an anchor is."""
    side: str = "left"
    anchor: Anchor | None = None
    """The anchor that a `where` line names."""
    mark: Version | None = None
    """The version that a `since` line names."""
    ranges: tuple[tuple[int, int], ...] = ()
    """The ranges that a line speaks of: found, changed since a mark, selected, or an excerpt. An empty one is a caret."""
    selections: Selections | None = None
    """What a `select` line makes, or a `share` or `selected` line speaks of."""
    parts: tuple[Part, ...] = ()
    """What a `medit` line made, in the order of the replicas."""
    folded: tuple[tuple[int, int], ...] = ()
    """The ranges of the text that are each shown as one ⋯ after a line of folds."""


@dataclass(frozen=True)
class Query:
    """A query, and how many operations its replica had applied at its place, without the base."""

    event: Event
    applied: int


class Replay:
    """A session that is worked."""

    def __init__(self, session: kinds.Session) -> None:
        self.session = session
        base, lf_alone = session.header.base.encode(), session.header.version == 2
        self.replicas = {
            number: Replica(number, base, lf_alone) for number in session.header.replicas
        }
        self.operations: list[Operation | None] = []
        self.anchors: dict[str, Anchor] = {}
        self.marks: dict[str, Version] = {}
        self.sets = {number: Sets(number) for number in session.header.replicas}
        self.selects: dict[str, Selections] = {}
        self.folds = {number: Folds() for number in session.header.replicas}
        self.excerpts: dict[str, Excerpts] = {}
        self.queries: list[Query] = []
        self.events = [self._event(place, line) for place, line in enumerate(session.lines, 2)]

    def _event(self, place: int, line: kinds.Line) -> Event:
        event = Event(place, line, getattr(line, "replica", None))
        work = {
            kinds.EditLine: self._edit,
            kinds.UndoLine: self._undo,
            kinds.OpLine: self._sent,
            kinds.UopLine: self._sent,
            kinds.GiveLine: self._give,
            kinds.TextLine: self._text,
            kinds.AnchorLine: self._anchor,
            kinds.WhereLine: self._where,
            kinds.MarkLine: self._mark,
            kinds.SinceLine: self._since,
            kinds.ReopenLine: self._reopen,
            kinds.SelectLine: self._select,
            kinds.ShareLine: self._share,
            kinds.SelectedLine: self._selected,
            kinds.FoldLine: self._fold,
            kinds.UnfoldLine: self._unfold,
            kinds.FoldedLine: self._folded,
            kinds.DisplayLine: self._display,
            kinds.ExcerptLine: self._excerpt,
            kinds.MultiLine: self._multi,
            kinds.MeditLine: self._medit,
        }
        replica = self.replicas.get(event.replica or 0)
        before = (len(replica.applied), len(replica.refused)) if replica else (0, 0)
        work.get(type(line), self._query)(event)
        if replica:
            event.brought = tuple(it.stamp for it in replica.applied[before[0] + 1 :])
            event.refused = tuple(replica.refused[before[1] :])
            event.history = replica.history
            event.waiting = tuple(sorted(operation.stamp for operation in replica.waiting))
            if isinstance(line, kinds.FOLD_LINES):
                event.folded = tuple(self.folds[line.replica].dots(replica.history))
        return event

    def _edit(self, event: Event) -> None:
        assert isinstance(event.line, kinds.EditLine)
        self._made(event, self.replicas[event.line.replica].edit(event.line.pieces))

    def _undo(self, event: Event) -> None:
        assert isinstance(event.line, kinds.UndoLine)
        named = [self.operations[number - 1] for number in event.line.numbers]
        if None in named:
            result: Operation | Answer = Answer("nothing", (event.line.numbers[named.index(None)],))
        else:
            stamps = [operation.stamp for operation in named if operation]
            result = self.replicas[event.line.replica].undo(stamps)
        self._made(event, result)

    def _made(self, event: Event, result: Operation | Answer) -> None:
        event.number = len(self.operations) + 1
        if isinstance(result, Answer):
            event.answer = result
            self.operations.append(None)
            event.said.append(f"{event.number}: {result}")
            return
        event.operation = result
        self.operations.append(result)
        event.said.append(f"{event.number}: {result.stamp}")
        settled = self.replicas[event.replica or 0].settle()
        if settled:
            event.said.append(f"settled {event.replica}: {settled}")

    def _sent(self, event: Event) -> None:
        assert isinstance(event.line, (kinds.OpLine, kinds.UopLine))
        event.operation, event.number = operation_of(event.line), len(self.operations) + 1
        self.operations.append(event.operation)
        event.said.append(f"{event.number}: {event.operation.stamp}")

    def _give(self, event: Event) -> None:
        assert isinstance(event.line, kinds.GiveLine)
        event.operation = self.operations[event.line.number - 1]
        if event.operation is None:
            event.answer = Answer("nothing")
        else:
            event.answer = self.replicas[event.line.replica].take(event.operation)
        event.said.append(f"give {event.line.number} to {event.replica}: {event.answer}")

    def _text(self, event: Event) -> None:
        text = self.replicas[event.replica or 0].history.text
        row, column = answers.point_at(text, len(text))
        event.said.append(
            f"text {event.replica}: {len(text)} bytes, end {row}:{column}, {row + 1} rows, "
            + write_string(text.decode())
        )

    def _anchor(self, event: Event) -> None:
        assert isinstance(event.line, kinds.AnchorLine)
        history = self.replicas[event.line.replica].history
        fault = answers.anchor_fault(history, event.line.offset)
        if fault is None:
            self.anchors[event.line.name] = answers.anchor_at(
                history, event.line.offset, event.line.side
            )
            event.offset, event.side = event.line.offset, event.line.side
        event.said.append(f"anchor {write_string(event.line.name)}: {fault or 'set'}")

    def _where(self, event: Event) -> None:
        assert isinstance(event.line, kinds.WhereLine)
        history, anchor = self.replicas[event.line.replica].history, self.anchors.get(
            event.line.name
        )
        event.anchor, answer = anchor, "nothing"
        if anchor:
            answer = "unknown"
            if answers.is_known(history, anchor):
                event.offset, event.side = answers.place_of(history, anchor), anchor.side
                answer = str(event.offset)
        event.said.append(f"where {write_string(event.line.name)} at {event.replica}: {answer}")

    def _mark(self, event: Event) -> None:
        assert isinstance(event.line, kinds.MarkLine)
        self.marks[event.line.name] = self.replicas[event.line.replica].history.version
        event.said.append(f"mark {write_string(event.line.name)}: set")

    def _since(self, event: Event) -> None:
        assert isinstance(event.line, kinds.SinceLine)
        history, version = self.replicas[event.line.replica].history, self.marks[event.line.name]
        event.mark, answer = version, answers.since_fault(history, version)
        if answer is None:
            changes: list[Change] = answers.changes_since(history, version)
            event.ranges = tuple(change.new for change in changes)
            answer = ", ".join(map(str, changes)) or "none"
        event.said.append(f"since {write_string(event.line.name)} at {event.replica}: {answer}")

    def _reopen(self, event: Event) -> None:
        replica = self.replicas[event.replica or 0]
        replica.reopen()
        event.said.append(f"reopen {event.replica}: {len(replica.applied) - 1}")

    def _select(self, event: Event) -> None:
        assert isinstance(event.line, kinds.SelectLine)
        history = self.replicas[event.line.replica].history
        result = self.sets[event.line.replica].set(history, event.line.ranges)
        if isinstance(result, Answer):
            event.answer, said = result, str(result)
        else:
            event.selections, event.ranges = result, event.line.ranges
            self.selects[event.line.name], said = result, str(result.stamp)
        event.said.append(f"select {write_string(event.line.name)}: {said}")

    def _share(self, event: Event) -> None:
        assert isinstance(event.line, kinds.ShareLine)
        event.selections = self.selects.get(event.line.name)
        if event.selections is None:
            event.answer = Answer("nothing")
        else:
            event.answer = self.sets[event.line.replica].take(event.selections)
        said = f"share {write_string(event.line.name)} to {event.replica}: {event.answer}"
        event.said.append(said)

    def _selected(self, event: Event) -> None:
        assert isinstance(event.line, kinds.SelectedLine)
        history = self.replicas[event.line.replica].history
        event.selections, said = self.sets[event.line.replica].kept.get(event.line.author), "none"
        if event.selections:
            unknown = unknown_range(history, event.selections)
            if unknown is None:
                event.ranges = tuple(places_of(history, event.selections))
                said = ", ".join(f"{start}..{end}" for start, end in event.ranges) or "empty"
            else:
                said = f"unknown {unknown}"
        event.said.append(f"selected {event.line.author} at {event.replica}: {said}")

    def _fold(self, event: Event) -> None:
        assert isinstance(event.line, kinds.FoldLine)
        line, history = event.line, self.replicas[event.line.replica].history
        event.answer = self.folds[line.replica].fold(history, line.start, line.end)
        event.said.append(f"fold {line.replica}: {event.answer or 'set'}")

    def _unfold(self, event: Event) -> None:
        assert isinstance(event.line, kinds.UnfoldLine)
        line, history = event.line, self.replicas[event.line.replica].history
        result = self.folds[line.replica].unfold(history, line.start, line.end)
        event.answer = result if isinstance(result, Answer) else None
        event.said.append(f"unfold {line.replica}: {result}")

    def _folded(self, event: Event) -> None:
        assert isinstance(event.line, kinds.FoldedLine)
        text = self.folds[event.line.replica].text(self.replicas[event.line.replica].history)
        event.said.append(
            f"folded {event.replica}: {len(text)} bytes, {write_string(text.decode())}"
        )

    def _display(self, event: Event) -> None:
        assert isinstance(event.line, kinds.DisplayLine)
        line, history = event.line, self.replicas[event.line.replica].history
        places = self.folds[line.replica].places(history, line.offset)
        said = f"{places[0]} {places[1]}" if places else "none"
        event.offset = line.offset if places else None
        event.said.append(f"display {line.offset} at {line.replica}: {said}")

    def _excerpts_of(self, name: str) -> Excerpts:
        """The excerpts under a name, found in the texts of all replicas."""
        excerpts = self.excerpts.setdefault(name, Excerpts())
        for number, replica in self.replicas.items():
            excerpts.sync(number, replica.history)
        return excerpts

    def _excerpt(self, event: Event) -> None:
        assert isinstance(event.line, kinds.ExcerptLine)
        line, history = event.line, self.replicas[event.line.replica].history
        result = self._excerpts_of(line.name).push(line.replica, history, line.start, line.end)
        if isinstance(result, Answer):
            event.answer = result
        else:
            event.ranges = ((line.start, line.end),)
        event.said.append(f"excerpt {write_string(line.name)}: {result}")

    def _multi(self, event: Event) -> None:
        assert isinstance(event.line, kinds.MultiLine)
        text = self._excerpts_of(event.line.name).text()
        event.said.append(
            f"multi {write_string(event.line.name)}: {len(text)} bytes, "
            + write_string(text.decode())
        )

    def _medit(self, event: Event) -> None:
        assert isinstance(event.line, kinds.MeditLine)
        name, split = event.line.name, self._excerpts_of(event.line.name).split(event.line.pieces)
        made: list[Operation | Answer] = []
        for number, replica in self.replicas.items():
            pieces = {} if isinstance(split, Answer) else split
            edited = number in pieces
            made.append(replica.edit(pieces[number]) if edited else Answer("nothing"))
        event.number = len(self.operations) + 1
        numbered = zip(self.replicas.values(), range(event.number, event.number + len(made)), made)
        event.parts = tuple(
            Part(replica.number, number, result, replica.history)
            for replica, number, result in numbered
            if not isinstance(result, Answer)
        )
        said = []
        for number, result in enumerate(made, event.number):
            is_made = not isinstance(result, Answer)
            self.operations.append(result if is_made else None)
            said.append(f"{number} {result.stamp if is_made else result}")
        event.answer = split if isinstance(split, Answer) else None
        event.said.append(f"medit {write_string(name)}: {event.answer or ', '.join(said)}")
        for (number, replica), result in zip(self.replicas.items(), made):
            settled = 0 if isinstance(result, Answer) else replica.settle()
            if settled:
                event.said.append(f"settled {number}: {settled}")

    def _query(self, event: Event) -> None:
        event.number = len(self.queries) + 1
        query = Query(event, len(self.replicas[event.replica or 0].applied) - 1)
        self.queries.append(query)
        event.said.append(self.query_line(query, query.applied))
        if isinstance(event.line, kinds.FindLine):
            needle, text = (
                event.line.needle.encode(),
                self.replicas[event.line.replica].history.text,
            )
            event.ranges = tuple(
                (at, at + len(needle)) for at in answers.starts_of(text, needle) if needle
            )

    def query_line(self, query: Query, applied: int) -> str:
        """The report's line for a query that is answered after so many operations of its replica."""
        line, number = query.event.line, query.event.number
        text = history_of(
            frozenset(self.replicas[query.event.replica or 0].applied[: applied + 1])
        ).text
        if isinstance(line, kinds.FindLine):
            return f"find {number} at {applied}: {answers.find_answer(text, line.needle)}"
        if isinstance(line, kinds.PointLine):
            return f"point {number} at {applied}: {answers.point_answer(text, line.offset)}"
        assert isinstance(line, kinds.OffsetLine)
        return f"offset {number} at {applied}: {answers.offset_answer(text, line.row, line.column)}"

    def event_lines(self) -> list[tuple[str, Event]]:
        """The report's lines of events, each with its event."""
        return [
            (said, event)
            for event in self.events
            if not isinstance(event.line, kinds.QUERY_LINES)
            for said in event.said
        ]

    def last_lines(self) -> list[str]:
        """The lines of the replicas, with which the report ends."""
        said = []
        for number, replica in self.replicas.items():
            text = replica.history.text
            applied, waiting = len(replica.applied) - 1, len(replica.waiting)
            said.append(
                f"replica {number}: {len(text)} bytes, {text.count(10) + 1} rows, "
                f"{applied} applied, {waiting} waiting, {len(replica.refused)} refused"
            )
            said += [f"refused {number}: {it.stamp} {fault}" for it, fault in replica.refused]
            said.append(f"final {number}: {write_string(text.decode())}")
        return said

    def report(self) -> list[str]:
        """The report of `--workers 0`."""
        queries = [self.query_line(query, query.applied) for query in self.queries]
        return [said for said, _ in self.event_lines()] + queries + self.last_lines()


def operation_of(line: kinds.OpLine | kinds.UopLine) -> Operation:
    """The operation that the line has as it is sent."""
    if isinstance(line, kinds.OpLine):
        pieces = tuple(Piece(start, end, text.encode()) for start, end, text in line.pieces)
        return Edit(Stamp(*line.stamp), Version(line.version), pieces)
    counts = tuple((Stamp(value, author), count) for value, author, count in line.counts)
    return Undo(Stamp(*line.stamp), Version(line.version), counts)


def counts_line(session: kinds.Session) -> str:
    """What `zedbuf check` writes for a session."""
    replicas = len(session.header.replicas)
    operations = sum(kinds.number_count(line, replicas) for line in session.lines)
    queries = sum(isinstance(line, kinds.QUERY_LINES) for line in session.lines)
    return (
        f"session ok: {len(session.lines) + 1} lines, {len(session.header.replicas)} replicas, "
        f"{operations} operations, {queries} queries"
    )
