"""Reads a session, or finds its first bad line and says what that line lacks."""
from __future__ import annotations

from typing import Any, Callable, NamedTuple

from . import lines as kinds
from .json_values import NotJson, NotWhole, Object, read_value, write_value

MOST_BYTES, MOST_LINES = 67_108_864, 1_048_576
U64, U32, U16 = 2**64 - 1, 2**32 - 1, 2**16 - 1


class BadLine(Exception):
    """The first bad line: its number, the word that the report has for it, and the reason in a sentence."""

    def __init__(self, number: int, word: str, reason: str) -> None:
        super().__init__(f"session line {number}: {word}")
        self.number, self.word, self.reason = number, word, reason


class TooLarge(Exception):
    """The input has more bytes or lines than a session may have; the message is the report."""


class _Wrong(Exception):
    """What a value lacks to be the member that stands at its place."""


def _kind(value: Any) -> str:
    if isinstance(value, NotWhole):
        return f"{value.text}, a number with a sign, a fraction or an exponent"
    if isinstance(value, Object):
        return "an object"
    if isinstance(value, bool) or value is None:
        return {True: "true", False: "false", None: "null"}[value]
    names: dict[type, str] = {int: "a number", str: "a string", list: "an array"}
    return names[type(value)]


def _number(value: Any, what: str, most: int, least: int = 0) -> int:
    if type(value) is not int:
        raise _Wrong(f"{what} is {_kind(value)}; a whole number of {least} to {most} is wanted")
    if not least <= value <= most:
        raise _Wrong(f"{what} is {value}; a whole number of {least} to {most} is wanted")
    return value


def _string(value: Any, what: str) -> str:
    if not isinstance(value, str):
        raise _Wrong(f"{what} is {_kind(value)}; a string is wanted")
    return value


def _members(value: Any, what: str, wanted: int | None = None) -> list[Any]:
    if not isinstance(value, list):
        raise _Wrong(f"{what} is {_kind(value)}; an array is wanted")
    if wanted is not None and len(value) != wanted:
        raise _Wrong(f"{what} has {len(value)} members; {wanted} are wanted")
    return value


def _replica(value: Any) -> int:
    return _number(value, "the replica", U16)


def _offset(value: Any) -> int:
    return _number(value, "the offset", U64)


def _start(value: Any) -> int:
    return _number(value, "the start", U64)


def _end(value: Any) -> int:
    return _number(value, "the end", U64)


def _row(value: Any) -> int:
    return _number(value, "the row", U64)


def _column(value: Any) -> int:
    return _number(value, "the column", U64)


def _name(value: Any) -> str:
    return _string(value, "the name")


def _needle(value: Any) -> str:
    return _string(value, "the needle")


def _line_number(value: Any) -> int:
    return _number(value, "the number of the operation line", U64)


def _author(value: Any) -> int:
    return _number(value, "the author", U16)


def _side(value: Any) -> str:
    if value not in ("left", "right"):
        raise _Wrong('the last member is neither "left" nor "right"')
    return str(value)


def _line_numbers(value: Any) -> tuple[int, ...]:
    return tuple(_line_number(number) for number in _members(value, "the list of numbers"))


def _stamp(value: Any) -> tuple[int, int]:
    clock, author = _members(value, "the stamp", 2)
    return _number(clock, "the value of the stamp", U32), _number(
        author, "the replica of the stamp", U16
    )


def _version(value: Any) -> dict[int, int]:
    version: dict[int, int] = {}
    for at, entry in enumerate(_members(value, "the version")):
        what = f"entry {at} of the version"
        replica, seen = _members(entry, what, 2)
        replica = _number(replica, f"the replica of {what}", U16)
        if replica in version:
            raise _Wrong(f"the version has replica {replica} twice; each stands there once")
        version[replica] = _number(seen, f"the value of {what}", U32, least=1)
    return version


def _pieces(value: Any) -> kinds.Ranges:
    return tuple(
        _piece(at, piece) for at, piece in enumerate(_members(value, "the list of pieces"))
    )


def _piece(at: int, value: Any) -> tuple[int, int, str]:
    start, end, text = _members(value, f"piece {at}", 3)
    return (
        _number(start, f"the start of piece {at}", U64),
        _number(end, f"the end of piece {at}", U64),
        _string(text, f"the text of piece {at}"),
    )


def _spans(value: Any) -> kinds.Spans:
    return tuple(_span(at, span) for at, span in enumerate(_members(value, "the list of ranges")))


def _span(at: int, value: Any) -> tuple[int, int]:
    start, end = _members(value, f"range {at}", 2)
    return (
        _number(start, f"the start of range {at}", U64),
        _number(end, f"the end of range {at}", U64),
    )


def _counts(value: Any) -> tuple[tuple[int, int, int], ...]:
    return tuple(
        _count(at, count) for at, count in enumerate(_members(value, "the list of counts"))
    )


def _count(at: int, value: Any) -> tuple[int, int, int]:
    clock, author, count = _members(value, f"count {at}", 3)
    return (
        _number(clock, f"the stamp's value of count {at}", U32),
        _number(author, f"the stamp's replica of count {at}", U16),
        _number(count, f"the count of count {at}", U32),
    )


class Form(NamedTuple):
    """How lines of one word are made: the class, how each member after the word is read, and an example."""

    line: Callable[..., kinds.Line]
    members: tuple[Callable[[Any], Any], ...]
    example: str


FORMS: dict[str, Form] = {
    "edit": Form(kinds.EditLine, (_replica, _pieces), '["edit",r,[[s,e,"t"],..]]'),
    "undo": Form(kinds.UndoLine, (_replica, _line_numbers), '["undo",r,[n,..]]'),
    "op": Form(
        kinds.OpLine,
        (_stamp, _version, _pieces),
        '["op",[value,replica],[[r,v],..],[[s,e,"t"],..]]',
    ),
    "uop": Form(
        kinds.UopLine,
        (_stamp, _version, _counts),
        '["uop",[value,replica],[[r,v],..],[[value,replica,count],..]]',
    ),
    "give": Form(kinds.GiveLine, (_replica, _line_number), '["give",r,n]'),
    "text": Form(kinds.TextLine, (_replica,), '["text",r]'),
    "anchor": Form(
        kinds.AnchorLine,
        (_replica, _name, _offset, _side),
        '["anchor",r,"name",o,"left"] or "right"',
    ),
    "where": Form(kinds.WhereLine, (_replica, _name), '["where",r,"name"]'),
    "mark": Form(kinds.MarkLine, (_replica, _name), '["mark",r,"name"]'),
    "since": Form(kinds.SinceLine, (_replica, _name), '["since",r,"name"]'),
    "find": Form(kinds.FindLine, (_replica, _needle), '["find",r,"needle"]'),
    "point": Form(kinds.PointLine, (_replica, _offset), '["point",r,o]'),
    "offset": Form(kinds.OffsetLine, (_replica, _row, _column), '["offset",r,row,column]'),
}
FORMS_OF_2: dict[str, Form] = {
    **FORMS,
    "reopen": Form(kinds.ReopenLine, (_replica,), '["reopen",r]'),
    "select": Form(kinds.SelectLine, (_replica, _name, _spans), '["select",r,"name",[[s,e],..]]'),
    "share": Form(kinds.ShareLine, (_replica, _name), '["share",r,"name"]'),
    "selected": Form(kinds.SelectedLine, (_replica, _author), '["selected",r,a]'),
    "fold": Form(kinds.FoldLine, (_replica, _start, _end), '["fold",r,s,e]'),
    "unfold": Form(kinds.UnfoldLine, (_replica, _start, _end), '["unfold",r,s,e]'),
    "folded": Form(kinds.FoldedLine, (_replica,), '["folded",r]'),
    "display": Form(kinds.DisplayLine, (_replica, _offset), '["display",r,o]'),
    "excerpt": Form(
        kinds.ExcerptLine, (_name, _replica, _start, _end), '["excerpt","name",r,s,e]'
    ),
    "multi": Form(kinds.MultiLine, (_name,), '["multi","name"]'),
    "medit": Form(kinds.MeditLine, (_name, _pieces), '["medit","name",[[s,e,"t"],..]]'),
}
"""The forms of lines of a session of version 2."""


def _line_of(value: Any, forms: dict[str, Form]) -> kinds.Line:
    members = _members(value, "the line")
    word = members[0] if members else None
    if not isinstance(word, str) or word not in forms:
        shown = f'"{word}"' if isinstance(word, str) else "what stands first"
        raise _Wrong(f"{shown} is not the word of a line; the words are {', '.join(forms)}")
    form = forms[word]
    if len(members) != len(form.members) + 1:
        wanted = len(form.members) + 1
        raise _Wrong(f"the line has {len(members)} members; {wanted} are wanted: {form.example}")
    try:
        return form.line(*(read(member) for read, member in zip(form.members, members[1:])))
    except _Wrong as wrong:
        raise _Wrong(f"{wrong}: {form.example}") from wrong


def _header_of(value: Any) -> kinds.Header:
    word, version, base, replicas = _members(value, "the first line", 4)
    if word != "zedbuf":
        raise _Wrong('the first line does not begin with the word "zedbuf"')
    if type(version) is not int or version not in (1, 2):
        raise _Wrong("the version of the format, the second member, is neither 1 nor 2")
    base = _string(base, "the base, the third member,")
    ids = [
        _number(replica, "a replica's id", 1023, least=1)
        for replica in _members(replicas, "the last member")
    ]
    if not 1 <= len(ids) <= 64:
        raise _Wrong(f"there are {len(ids)} replicas; 1 to 64 are wanted")
    if len(set(ids)) != len(ids):
        raise _Wrong("a replica's id stands twice")
    return kinds.Header(version, base, tuple(ids))


class _Earlier:
    """What earlier lines have made: how many operation lines there are, and which names."""

    def __init__(self, replicas: tuple[int, ...]) -> None:
        self.replicas, self.operations = replicas, 0
        self.anchors: set[str] = set()
        self.marks: set[str] = set()
        self.selects: set[str] = set()
        self.excerpts: set[str] = set()

    def fault(self, line: kinds.Line) -> tuple[str, str] | None:
        """The word for what a line of a good shape names that is not there, and the reason."""
        replica = getattr(line, "replica", None)
        if replica is not None and replica not in self.replicas:
            return (
                "replica",
                f"replica {replica} is not in the header, which has {_listed(self.replicas)}",
            )
        named = line.numbers if isinstance(line, kinds.UndoLine) else ()
        for number in (line.number,) if isinstance(line, kinds.GiveLine) else named:
            if not 1 <= number <= self.operations:
                return "number", f"there is no operation line {number} before it; {self._numbers()}"
        if isinstance(line, kinds.WhereLine) and line.name not in self.anchors:
            return (
                "name",
                f'no anchor line before it has the name "{line.name}"; {_names(self.anchors)}',
            )
        if isinstance(line, kinds.SinceLine) and line.name not in self.marks:
            return (
                "name",
                f'no mark line before it has the name "{line.name}"; {_names(self.marks)}',
            )
        if isinstance(line, kinds.ShareLine) and line.name not in self.selects:
            return (
                "name",
                f'no select line before it has the name "{line.name}"; {_names(self.selects)}',
            )
        if isinstance(line, (kinds.MultiLine, kinds.MeditLine)) and line.name not in self.excerpts:
            return (
                "name",
                f'no excerpt line before it has the name "{line.name}"; {_names(self.excerpts)}',
            )
        return None

    def add(self, line: kinds.Line) -> None:
        """Counts what the line makes."""
        self.operations += kinds.number_count(line, len(self.replicas))
        if isinstance(line, kinds.AnchorLine):
            self.anchors.add(line.name)
        elif isinstance(line, kinds.MarkLine):
            self.marks.add(line.name)
        elif isinstance(line, kinds.SelectLine):
            self.selects.add(line.name)
        elif isinstance(line, kinds.ExcerptLine):
            self.excerpts.add(line.name)

    def _numbers(self) -> str:
        return f"there are 1 to {self.operations}" if self.operations else "there is none at all"


def _return_fault(line: kinds.Header | kinds.Line) -> tuple[str, str] | None:
    """The word for a CR in a text that enters a buffer, which a session of version 2 would make an LF, and the reason."""
    if isinstance(line, kinds.Header) and "\r" in line.base:
        return "cr", "the base has a CR"
    pieces = line.pieces if isinstance(line, (kinds.EditLine, kinds.OpLine)) else ()
    for at, (_, _, text) in enumerate(pieces):
        if "\r" in text:
            return "cr", f"the text of piece {at} has a CR"
    return None


def _listed(items: tuple[int, ...]) -> str:
    return ", ".join(map(str, items))


def _names(names: set[str]) -> str:
    return f"there are {', '.join(sorted(names))}" if names else "there is none at all"


def check_size(raw: bytes) -> None:
    """Fails with `TooLarge` where the input has too many bytes."""
    if len(raw) > MOST_BYTES:
        raise TooLarge("too large: bytes")


def cut_lines(raw: bytes) -> list[bytes]:
    """The lines of the input. Fails with `TooLarge`."""
    check_size(raw)
    pieces = raw.split(b"\n")
    if not pieces[-1]:
        pieces.pop()
    if len(pieces) > MOST_LINES:
        raise TooLarge("too large: lines")
    return pieces


def _value_of(number: int, raw: bytes) -> Any:
    try:
        return read_value(raw)
    except NotJson as error:
        raise BadLine(number, "json", f"the line is not a JSON text: {error}") from error


def read_header(raw: bytes) -> kinds.Header:
    """Line 1. Fails with `BadLine`."""
    value = _value_of(1, raw)
    try:
        return _header_of(value)
    except _Wrong as wrong:
        raise BadLine(1, "header", f'{wrong}: ["zedbuf",1,BASE,[R,..]]') from wrong


def read_session(raw: bytes, is_migrated: bool = False) -> kinds.Session:
    """The session, which is to be written as one of version 2 or not. Fails with `BadLine` or `TooLarge`."""
    pieces = cut_lines(raw)
    if not pieces:
        raise BadLine(1, "header", 'there is no line: line 1 is ["zedbuf",1,BASE,[R,..]]')
    header = read_header(pieces[0])
    forms = FORMS_OF_2 if header.version == 2 else FORMS
    bars_return = is_migrated and header.version == 1
    earlier, read = _Earlier(header.replicas), []
    fault = _return_fault(header) if bars_return else None
    if fault:
        raise BadLine(1, *fault)
    for number, piece in enumerate(pieces[1:], 2):
        value = _value_of(number, piece)
        try:
            line = _line_of(value, forms)
        except _Wrong as wrong:
            raise BadLine(number, "shape", str(wrong)) from wrong
        fault = earlier.fault(line) or (_return_fault(line) if bars_return else None)
        if fault:
            raise BadLine(number, *fault)
        earlier.add(line)
        read.append(line)
    return kinds.Session(header, tuple(read))


def migrated(raw: bytes) -> str:
    """The session as one of version 2, as `zedbuf migrate` writes it. Fails as `read_session` does for such a session."""
    read_session(raw, is_migrated=True)
    values = [read_value(piece) for piece in cut_lines(raw)]
    values[0][1] = 2
    return "".join(f"{write_value(value)}\n" for value in values)
