"""What a line did, in the words that stand beside it in the picture."""
from __future__ import annotations

from typing import NamedTuple

from . import lines as kinds
from .json_values import write_string
from .layout import shortened
from .operations import Stamp
from .replay import Event
from .svg import AMBER, GREEN, MUTED, RED


class Head(NamedTuple):
    """A line of words; without a colour it has that of the author."""

    words: str
    colour: str | None = None


def quoted(text: str) -> str:
    """A text as JSON, shortened."""
    return write_string(shortened(text, 40))


def pieces_words(pieces: kinds.Ranges) -> str:
    """The pieces, the first six of them."""
    words = [f"{start}..{end} → {quoted(text)}" for start, end, text in pieces[:6]]
    if len(pieces) > 6:
        words.append(f"and {len(pieces) - 6} more")
    return ", ".join(words) or "no piece"


def spans_words(spans: kinds.Spans) -> str:
    """The ranges, the first six of them."""
    words = [f"{start}..{end}" for start, end in spans[:6]]
    if len(spans) > 6:
        words.append(f"and {len(spans) - 6} more")
    return ", ".join(words) or "nothing"


def version_words(version: dict[int, int]) -> str:
    """What a version sees."""
    return "sees " + (
        ", ".join(f"{value}.{replica}" for replica, value in sorted(version.items())) or "nothing"
    )


def stamps_words(stamps: tuple[Stamp, ...]) -> str:
    """The stamps in a row."""
    return ", ".join(map(str, stamps))


def heads_of(event: Event) -> list[Head]:
    """The words for an event: what its line says, what came of it, and what waits after it."""
    line = event.line
    if isinstance(line, (kinds.EditLine, kinds.UndoLine)):
        heads = _made_heads(event, line)
    elif isinstance(line, (kinds.OpLine, kinds.UopLine)):
        heads = _sent_heads(event, line)
    elif isinstance(line, kinds.GiveLine):
        heads = [_give_head(event, line)]
    else:
        heads = [_asked_head(event)]
    if event.brought:
        heads.append(
            Head(f"applied after it, since it waited: {stamps_words(event.brought)}", GREEN)
        )
    heads += [
        Head(f"refused after it had waited: {it.stamp} {fault}", RED) for it, fault in event.refused
    ]
    if event.waiting:
        heads.append(Head(f"waits here: {stamps_words(event.waiting)}", AMBER))
    return heads


def _made_heads(event: Event, line: kinds.EditLine | kinds.UndoLine) -> list[Head]:
    if isinstance(line, kinds.EditLine):
        what = pieces_words(line.pieces)
    else:
        what = "undoes or redoes " + (", ".join(map(str, line.numbers)) or "nothing")
    name = f"operation {event.number}"
    if event.operation is None:
        return [Head(f"{name}: {what}", RED), Head(f"refused: {event.answer}", RED)]
    return [Head(f"{name}, stamp {event.operation.stamp}: {what}")]


def _sent_heads(event: Event, line: kinds.OpLine | kinds.UopLine) -> list[Head]:
    stamp = Stamp(*line.stamp)
    if isinstance(line, kinds.OpLine):
        what = pieces_words(line.pieces)
    else:
        what = (
            ", ".join(
                f"count of {value}.{author} is {count}" for value, author, count in line.counts
            )
            or "no count"
        )
    return [
        Head(
            f"operation {event.number}, as it is sent: {stamp}, "
            f"{version_words(line.version)}, {what}"
        )
    ]


def _give_head(event: Event, line: kinds.GiveLine) -> Head:
    answer = event.answer
    assert answer is not None
    if answer.word == "applied":
        return Head(f"takes {line.number}: applied", GREEN)
    if answer.word == "waits":
        replica, value = answer.numbers
        return Head(
            f"takes {line.number}: it waits for {value}.{replica}, which is not here yet", AMBER
        )
    if answer.word == "repeat":
        return Head(f"takes {line.number}: repeat, it is here already", MUTED)
    if answer.word == "nothing":
        return Head(f"takes {line.number}: nothing, that line was refused", MUTED)
    return Head(f"takes {line.number}: refused: {answer}", RED)


def _asked_head(event: Event) -> Head:
    line, answer = event.line, event.said[0].rpartition(": ")[2]
    if isinstance(line, kinds.TextLine):
        return Head("text", MUTED)
    if isinstance(line, kinds.AnchorLine):
        return Head(f"anchor {quoted(line.name)} at {line.offset}, {line.side}: {answer}", MUTED)
    if isinstance(line, kinds.WhereLine):
        return Head(f"where {quoted(line.name)}: {answer}", MUTED)
    if isinstance(line, kinds.MarkLine):
        return Head(f"mark {quoted(line.name)}", MUTED)
    if isinstance(line, kinds.SinceLine):
        return Head(f"since {quoted(line.name)}: {answer.replace('->', '→')}", MUTED)
    if isinstance(line, kinds.FindLine):
        return Head(f"find {quoted(line.needle)}: {answer}", MUTED)
    if isinstance(line, kinds.ReopenLine):
        return Head("opened again with what it has applied", MUTED)
    if isinstance(line, kinds.SelectLine):
        return Head(
            f"selects {spans_words(line.ranges)} as {quoted(line.name)}: {answer}",
            RED if event.answer else MUTED,
        )
    if isinstance(line, kinds.ShareLine):
        return Head(f"takes what is selected as {quoted(line.name)}: {answer}", MUTED)
    if isinstance(line, kinds.SelectedLine):
        return Head(f"what author {line.author} has selected: {answer}", MUTED)
    if isinstance(line, kinds.PointLine):
        return Head(f"point {line.offset}: {answer}", MUTED)
    if isinstance(line, kinds.OffsetLine):
        return Head(f"offset {line.row}:{line.column}: {answer}", MUTED)
    return Head(event.said[0], RED if event.answer else MUTED)
