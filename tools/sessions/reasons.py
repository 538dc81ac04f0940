"""Why a line is refused, in words: what its answer says, and what would be accepted in its place."""
from __future__ import annotations

from typing import Callable, NamedTuple

from . import answers, lines as kinds
from .histories import History, history_of
from .operations import (
    LAST_REPLICA,
    LAST_VALUE,
    TEXT_LIMIT,
    Edit,
    Operation,
    Piece,
    Stamp,
    Undo,
    Version,
)
from .replay import Event, Replay
from .replicas import Answer
from .selections import MOST_RANGES, unknown_range


class Reason(NamedTuple):
    """The word of the report with its numbers, what it says of this line, and what would be accepted."""

    word: str
    says: str
    accepted: str


class Fault(NamedTuple):
    """A fault of an edit, an undo or an operation that is taken, and what it is about."""

    replay: Replay
    replica: int
    history: History
    """What the replica has applied, before the line and after it."""
    subject: Operation | kinds.EditLine | kinds.UndoLine
    answer: Answer

    def number(self, at: int = 0) -> int:
        """A number of the answer that is no stamp."""
        number = self.answer.numbers[at]
        assert isinstance(number, int)
        return number

    def stamp(self) -> Stamp:
        """The stamp of the answer."""
        stamp = self.answer.numbers[0]
        assert isinstance(stamp, Stamp)
        return stamp

    def operation(self) -> Operation:
        """The operation that is taken."""
        assert isinstance(self.subject, (Edit, Undo))
        return self.subject

    def pieces(self) -> list[Piece]:
        """The pieces that the fault is about, in the offsets that they have."""
        if isinstance(self.subject, Edit):
            return list(self.subject.pieces)
        assert isinstance(self.subject, kinds.EditLine)
        return [Piece(start, end, text.encode()) for start, end, text in self.subject.pieces]

    def bytes(self) -> bytes:
        """The bytes in which the offsets of the pieces count."""
        if isinstance(self.subject, kinds.EditLine):
            return self.history.text
        return history_of(self.history.seen(self.operation().version)).full

    def counted(self) -> str:
        """What those bytes are, in words."""
        if isinstance(self.subject, kinds.EditLine):
            return f"the text of replica {self.replica}"
        return "what its version sees, hidden bytes counted,"

    def line_of(self, stamp: Stamp) -> str:
        """Which operation line has the stamp."""
        return line_of(self.replay, stamp)


def line_of(replay: Replay, stamp: Stamp) -> str:
    """Which operation line of the session has made or has the stamp, in words."""
    if stamp == Stamp(1, 0):
        return "the base"
    for number, operation in enumerate(replay.operations, 1):
        if operation and operation.stamp == stamp:
            return f"operation line {number}"
    return "no operation line of the session"


def _bad_stamp(fault: Fault) -> tuple[str, str]:
    operation = fault.operation()
    value, author = operation.stamp
    if value in (0, LAST_VALUE):
        says = f"its value is {value}"
    elif not 1 <= author <= LAST_REPLICA:
        says = f"its author is {author}"
    else:
        replica, seen = next(
            it for it in sorted(operation.version.items()) if it[0] > LAST_REPLICA or it[1] >= value
        )
        passed = (
            "an id that no replica has" if replica > LAST_REPLICA else f"not below its own {value}"
        )
        says = f"its version has the value {seen} for replica {replica}, {passed}"
    return says, (
        f"a value of 1 to {LAST_VALUE - 1} that is above each value of its version, and ids of 1 to "
        f"{LAST_REPLICA} (0 in the version is the base)"
    )


def _no_base(fault: Fault) -> tuple[str, str]:
    seen = fault.operation().version.at(0)
    says = f"its version has the value {seen} for replica 0, which owns the base; the base has 1"
    return says, "a version with the entry [0,1]"


def _text_limit(fault: Fault) -> tuple[str, str]:
    says = f"its new texts have {fault.number()} bytes together, as they enter"
    return says, f"at most {TEXT_LIMIT} bytes; a longer text goes in by several edits"


def _reversed(fault: Fault) -> tuple[str, str]:
    at = fault.number()
    piece = fault.pieces()[at]
    return f"piece {at} starts at {piece.start}, past its end {piece.end}", "a start up to the end"


def _overlap(fault: Fault) -> tuple[str, str]:
    at = fault.number()
    before, piece = fault.pieces()[at - 1 : at + 1]
    says = f"piece {at} starts at {piece.start}, before {before.end}, where piece {at - 1} ends"
    return says, "pieces in ascending order that share no byte; they may touch"


def _carriage(fault: Fault) -> tuple[str, str]:
    says = f"the text of piece {fault.number()} has a CR, and a session of version 2 has LFs alone"
    return says, "an operation without a CR, or a session of version 1"


def _conflict(fault: Fault) -> tuple[str, str]:
    stamp = fault.stamp()
    says = (
        f"another operation with the stamp {stamp} is applied or waits at replica {fault.replica}, "
        "with another version or other parts"
    )
    return says, "an equal operation, which is a repeat, or one with a stamp of its own"


def _forked(fault: Fault) -> tuple[str, str]:
    author, seen = fault.operation().stamp.replica, fault.operation().version
    says = (
        f"replica {fault.replica} has applied {fault.number()}.{author}, which its author had not "
        f"seen: its version has {seen.at(author)} for replica {author}"
    )
    return says, f"a version with the entry [{author},{fault.number()}]"


def _open_version(fault: Fault) -> tuple[str, str]:
    says = open_words(fault.history, fault.operation().version, fault.number())
    return says, "a version that some replica had: it has all that the operations in it had seen"


def open_words(history: History, version: dict[int, int], replica: int) -> str:
    """Why a version is not closed at a replica."""
    cause = Stamp(version[replica], replica)
    operation = history.by_stamp.get(cause)
    if operation is None:
        return f"its version has the value {cause.value} for replica {replica}, and no {cause} is applied"
    passed = [it for it, value in sorted(operation.version.items()) if value > version.get(it, 0)]
    seen = ", ".join(f"{operation.version[it]} of replica {it}" for it in passed) or "more"
    return f"its version sees {cause}, but not all that {cause} had seen, which is {seen}"


def _past_end(fault: Fault) -> tuple[str, str]:
    at, length = fault.number(), fault.number(1)
    end = fault.pieces()[at].end
    return (
        f"piece {at} ends at {end}, and {fault.counted()} has {length} bytes",
        f"an end up to {length}",
    )


def _inside_char(fault: Fault) -> tuple[str, str]:
    at, text = fault.number(), fault.bytes()
    piece = fault.pieces()[at]
    for place, name in ((piece.start, "starts"), (piece.end, "ends")):
        near = answers.clip(text, place, -1), answers.clip(text, place, 1)
        if near[0] != near[1]:
            says = (
                f"piece {at} {name} at {place}, inside a character of {fault.counted().rstrip(',')}"
            )
            return says, f"a place where a character begins or ends, such as {near[0]} or {near[1]}"
    raise AssertionError("a piece inside a character starts or ends there")


def _no_such_edit(fault: Fault) -> tuple[str, str]:
    stamp = fault.stamp()
    found = fault.history.by_stamp.get(stamp)
    if isinstance(found, Undo):
        why = "is an undo, not an edit"
    elif found is None:
        why = f"is not applied at replica {fault.replica}"
    else:
        why = "is not seen by the operation's version"
    says = f"{stamp}, which {fault.line_of(stamp)} has, {why}"
    return says, "edits that are applied; an undo is redone by naming its edit once more"


def _twice(fault: Fault) -> tuple[str, str]:
    says = f"it names {fault.stamp()}, of {fault.line_of(fault.stamp())}, twice"
    return says, "each edit once; naming it in a second line redoes it"


def _count_end(fault: Fault) -> tuple[str, str]:
    says = f"the undo count of {fault.stamp()} is {LAST_VALUE}, the last one"
    return says, "no undo and no redo of that edit; others are still undone"


def _clock_end(fault: Fault) -> tuple[str, str]:
    says = f"the clock of replica {fault.replica} is at {LAST_VALUE}, its end, so it makes nothing more"
    return says, "a line of a replica that has not taken such a stamp"


def _full(fault: Fault) -> tuple[str, str]:
    _, held, adds = fault.answer.numbers
    says = f"replica {fault.replica} holds {held} {fault.answer.numbers[0]}, and this adds {adds}"
    return says, "less; a session's own buffers have limits that no session reaches"


def _nothing(fault: Fault) -> tuple[str, str]:
    says = f"operation line {fault.number()} made no operation, since it was refused"
    return says, "the number of an operation line that made an operation"


FAULTS: dict[str, Callable[[Fault], tuple[str, str]]] = {
    "badstamp": _bad_stamp,
    "nobase": _no_base,
    "textlimit": _text_limit,
    "reversed": _reversed,
    "overlap": _overlap,
    "carriage": _carriage,
    "conflict": _conflict,
    "forked": _forked,
    "openversion": _open_version,
    "pastend": _past_end,
    "insidechar": _inside_char,
    "nosuchedit": _no_such_edit,
    "twice": _twice,
    "countend": _count_end,
    "clockend": _clock_end,
    "full": _full,
    "nothing": _nothing,
}


def fault_reason(fault: Fault) -> Reason:
    """The reason of a fault."""
    return Reason(str(fault.answer), *FAULTS[fault.answer.word](fault))


def event_reason(replay: Replay, event: Event) -> Reason | None:
    """Why the line of an event is refused, or waits, or has no answer; None where it does what it says."""
    line = event.line
    if isinstance(line, kinds.MeditLine):
        return _medit_reason(event.answer, line) if event.answer else None
    if event.history is None:
        return None
    if isinstance(line, (kinds.EditLine, kinds.UndoLine)):
        if event.answer is None:
            return None
        return fault_reason(Fault(replay, line.replica, event.history, line, event.answer))
    if isinstance(line, kinds.GiveLine):
        return _give_reason(replay, event, line)
    if isinstance(line, kinds.SelectLine):
        return _select_reason(event, line)
    if isinstance(line, kinds.ShareLine):
        return _share_reason(event, line)
    if isinstance(line, kinds.SelectedLine):
        return _selected_reason(event, line)
    if isinstance(line, (kinds.FoldLine, kinds.UnfoldLine, kinds.ExcerptLine)):
        ranges = ((line.start, line.end),)
        return _range_reason(event.answer, ranges, event.history.text) if event.answer else None
    return _asked_reason(event, event.history)


def _give_reason(replay: Replay, event: Event, line: kinds.GiveLine) -> Reason | None:
    answer, operation = event.answer, event.operation
    assert answer is not None and event.history is not None
    if answer.word == "applied":
        return None
    if operation is None:
        says = f"operation line {line.number} made no operation, since it was refused"
        return Reason("nothing", says, "the number of an operation line that made an operation")
    if answer.word == "repeat":
        says = f"replica {line.replica} has {operation.stamp} already: it is applied, or waits"
        return Reason("repeat", says, "nothing else is wanted; a repeat changes nothing")
    if answer.word == "waits":
        return _waits_reason(replay, line, answer)
    return fault_reason(Fault(replay, line.replica, event.history, operation, answer))


def _waits_reason(replay: Replay, line: kinds.GiveLine, answer: Answer) -> Reason:
    replica, value = answer.numbers
    assert isinstance(replica, int) and isinstance(value, int)
    cause = Stamp(value, replica)
    where = line_of(replay, cause)
    says = f"its author had seen {cause}, which is not applied at replica {line.replica}"
    if where.startswith("operation line"):
        number = where.rpartition(" ")[2]
        return Reason(str(answer), says, f'["give",{line.replica},{number}] gives it what it lacks')
    return Reason(str(answer), says, f"that operation, which {where} has, has to come first")


def _asked_reason(event: Event, history: History) -> Reason | None:
    """Why an anchor, a `where`, a `since` or a query has no place to give."""
    line, answer = event.line, event.said[0].rpartition(": ")[2]
    if isinstance(line, kinds.AnchorLine) and answer != "set":
        return _place_reason(answer, line.offset, history.text)
    if isinstance(line, kinds.WhereLine) and answer == "nothing":
        says = f'each anchor line with the name "{line.name}" before it was refused'
        return Reason("nothing", says, "an anchor line at an offset of the text")
    if isinstance(line, kinds.WhereLine) and answer == "unknown":
        assert event.anchor and event.anchor.cell
        kept = f"a byte of {event.anchor.cell.stamp}"
        says = f"the anchor keeps to {kept}, which replica {line.replica} does not have"
        return Reason("unknown", says, "the line after a give of that operation")
    if isinstance(line, kinds.SinceLine) and answer.split(" ")[0] in ("unseen", "openversion"):
        assert event.mark is not None
        return _since_reason(line, answer, history, event.mark)
    if isinstance(line, kinds.FindLine) and answer == "empty needle":
        return Reason(answer, "the needle has no byte", "a needle of one byte or more")
    if isinstance(line, (kinds.PointLine, kinds.OffsetLine)) and answer.startswith("none"):
        says = "it is inside a character, or past the end of a row or of the text"
        near = answer.split(" ")[1:]
        return Reason(answer, says, f"the nearest positions are {near[0]} and {near[1]}")
    return None


def _select_reason(event: Event, line: kinds.SelectLine) -> Reason | None:
    """Why ranges are not selected."""
    answer = event.answer
    if answer is None:
        return None
    assert event.history is not None
    word, text = str(answer), event.history.text
    if answer.word == "toomany":
        says = f"the line has {len(line.ranges)} ranges"
        return Reason(word, says, f"at most {MOST_RANGES} ranges")
    if answer.word == "clockend":
        says = f"the clock of what replica {line.replica} selects is at {LAST_VALUE}, its end"
        return Reason(word, says, "a line of a replica that has not taken such a stamp")
    return _range_reason(answer, line.ranges, text)


def _range_reason(answer: Answer, ranges: kinds.Spans, text: bytes) -> Reason:
    """Why a range is none of a text, or has no byte."""
    word = str(answer)
    if answer.word == "emptyrange":
        return Reason(word, f"the range is empty, at {ranges[0][0]}", "a range with a byte")
    at = answer.numbers[0]
    assert isinstance(at, int)
    start, end = ranges[at]
    if answer.word == "reversed":
        says = f"range {at} starts at {start}, past its end {end}"
        return Reason(word, says, "a start up to the end")
    place = end if answers.clip(text, start, -1) == start or end > len(text) else start
    reason = _place_reason(word, place, text)
    return Reason(word, f"of range {at}, {reason.says}", reason.accepted)


EXCERPT_FAULTS = ("crosses", "shared")
"""The faults that an edit of excerpts has beside those of an edit."""


def _medit_reason(answer: Answer, line: kinds.MeditLine) -> Reason:
    """Why an edit of excerpts is no edit of their replicas."""
    word, at = str(answer), answer.numbers[0]
    assert isinstance(at, int)
    if answer.word == "textlimit":
        says = f"its new texts have {at} bytes together"
        return Reason(word, says, f"at most {TEXT_LIMIT} bytes; a longer text goes in by several edits")
    start, end, _ = line.pieces[at]
    says, accepted = {
        "reversed": (f"starts at {start}, past its end {end}", "a start up to the end"),
        "overlap": (
            f"starts at {start}, before the piece before it ends",
            "pieces in ascending order that share no byte; they may touch",
        ),
        "pastend": (f"ends at {end}, past the text of the excerpts", "an end up to the text's"),
        "insidechar": ("starts or ends inside a character", "places between characters"),
        "crosses": ("is in no one excerpt", "a piece that one excerpt has as a whole"),
        "shared": (
            f"is at a place that excerpt {answer.numbers[-1]} has too",
            "a piece at a place that no other excerpt has",
        ),
    }[answer.word]
    return Reason(word, f"piece {at} {says}", accepted)


def _share_reason(event: Event, line: kinds.ShareLine) -> Reason | None:
    """Why selections are not taken."""
    answer, shared = event.answer, event.selections
    assert answer is not None
    if answer.word == "set":
        return None
    if shared is None:
        says = f'each select line with the name "{line.name}" before it was refused'
        return Reason("nothing", says, "a select line of ranges of the text")
    author = shared.stamp.replica
    if answer.word == "repeat":
        says = f"replica {line.replica} keeps {shared.stamp} of author {author} already"
        return Reason("repeat", says, "nothing else is wanted; a repeat changes nothing")
    assert answer.word == "old", "no two selections of a session have one stamp"
    says = f"replica {line.replica} keeps {answer.numbers[0]}, which is later than {shared.stamp}"
    return Reason(str(answer), says, "nothing else is wanted; what is older changes nothing")


def _selected_reason(event: Event, line: kinds.SelectedLine) -> Reason | None:
    """Why an author's selections have no places."""
    if event.selections is None:
        says = f"replica {line.replica} keeps no selections of {line.author}"
        return Reason("none", says, "the line after a share of what that author selected")
    assert event.history is not None
    at = unknown_range(event.history, event.selections)
    if at is None:
        return None
    says = f"range {at} keeps to a byte that replica {line.replica} does not have"
    return Reason(f"unknown {at}", says, "the line after a give of the operation with that byte")


def _place_reason(answer: str, offset: int, text: bytes) -> Reason:
    if answer.startswith("pastend"):
        says = f"offset {offset} is past the end of the text, which has {len(text)} bytes"
        return Reason(answer, says, f"an offset up to {len(text)}")
    near = answers.clip(text, offset, -1), answers.clip(text, offset, 1)
    says = f"offset {offset} is inside a character"
    return Reason(answer, says, f"a place between characters, such as {near[0]} or {near[1]}")


def _since_reason(line: kinds.SinceLine, answer: str, history: History, version: Version) -> Reason:
    replica = int(answer.split(" ")[1])
    if answer.startswith("openversion"):
        return Reason(answer, open_words(history, version, replica), "a mark of a closed version")
    says = (
        f"the mark has seen {version.at(replica)} of replica {replica}, and replica {line.replica} "
        f"has applied {history.version.at(replica)}"
    )
    return Reason(
        answer, says, "the line after a give of what is missing, or a mark of this replica"
    )
