"""Buffers of the proved text library, by ctypes.

    author = Buffer(1, "The cat sat.\\n")
    stamp = author.edit([(4, 7, "dog")])
    other.take(author.record())
    print(author.text())

The shared object is the one that the variable ZEDBUF names; tools/c.sh builds it as build/c/libzedbuf.so.
"""
import ctypes
import os

MOST_BYTES = 1 << 40
MOST_ENTRIES = (1 << 40) - 1
NO_ROOM = 103
NO_RECORD = 102

# What a buffer does with line endings.
AS_THEY_ARE, LF_ALONE = 0, 1

# The kinds of position, by which a place is named.
OFFSET, UTF16, POINT, POINT_UTF16 = 0, 1, 2, 3


class Answer(ctypes.Structure):
    _fields_ = [("code", ctypes.c_uint32), ("index", ctypes.c_uint64), ("first", ctypes.c_uint64),
                ("second", ctypes.c_uint64), ("third", ctypes.c_uint64)]


class Handle(ctypes.Structure):
    _fields_ = [("at", ctypes.c_void_p)]


class Change(ctypes.Structure):
    _fields_ = [("start", ctypes.c_uint64), ("end", ctypes.c_uint64), ("text_len", ctypes.c_uint64)]


class Stamp(ctypes.Structure):
    _fields_ = [("value", ctypes.c_uint32), ("replica", ctypes.c_uint16)]


class Seen(ctypes.Structure):
    _fields_ = [("replica", ctypes.c_uint16), ("value", ctypes.c_uint32)]


class Anchor(ctypes.Structure):
    _fields_ = [("kind", ctypes.c_uint32), ("bias", ctypes.c_uint32), ("value", ctypes.c_uint32),
                ("replica", ctypes.c_uint16), ("offset", ctypes.c_uint64)]


class Refusal(ctypes.Structure):
    _fields_ = [("stamp", Stamp), ("why", Answer)]


class Position(ctypes.Structure):
    _fields_ = [("offset", ctypes.c_uint64), ("utf16", ctypes.c_uint64), ("row", ctypes.c_uint64),
                ("column", ctypes.c_uint64), ("column_utf16", ctypes.c_uint64)]


class TextChange(ctypes.Structure):
    _fields_ = [("old_start", ctypes.c_uint64), ("old_end", ctypes.c_uint64),
                ("new_start", ctypes.c_uint64), ("new_end", ctypes.c_uint64)]


class Refused(Exception):
    """A call was refused. It has the answer, by whose code and numbers the cause is known."""

    def __init__(self, call, answer):
        super().__init__(f"{call}: code {answer.code}, numbers {answer.first} {answer.second} {answer.third}")
        self.answer = answer


def load():
    library = ctypes.CDLL(os.environ.get("ZEDBUF", "libzedbuf.so"))
    handle, size = ctypes.POINTER(Handle), ctypes.c_size_t
    number, small, word = ctypes.c_uint64, ctypes.c_uint16, ctypes.c_uint32
    lent = ctypes.POINTER
    forms = {
        "open": [handle, small, ctypes.c_char_p, size, number, number, word],
        "edit": [handle, lent(Change), size, ctypes.c_char_p, size],
        "undo": [handle, lent(Stamp), size],
        "take": [handle, ctypes.c_char_p, size],
        "record": [handle, ctypes.c_char_p, size],
        "settle": [handle],
        "forget": [handle, lent(Stamp)],
        "waiting": [handle, lent(Stamp), size],
        "refused": [handle, lent(Refusal), size],
        "version": [handle, lent(Seen), size],
        "reopen": [handle, small, ctypes.c_char_p, size, number, number, word],
        "records_since": [handle, lent(Seen), size, ctypes.c_char_p, size],
        "snapshot_of": [handle, handle],
        "share": [handle, handle],
        "length": [handle],
        "text": [handle, number, number, ctypes.c_char_p, size],
        "text_at": [handle, lent(Seen), size, ctypes.c_char_p, size],
        "edits_since": [handle, lent(Seen), size, lent(TextChange), size],
        "find": [handle, ctypes.c_char_p, size, lent(number), size],
        "position_at": [handle, word, number, number, lent(Position)],
        "anchor_at": [handle, number, word, lent(Anchor)],
        "resolve": [handle, lent(Anchor)],
        "compare": [handle, lent(Anchor), lent(Anchor)],
    }
    for name, form in forms.items():
        call = getattr(library, "zedbuf_" + name)
        call.argtypes, call.restype = form, Answer
    for name in ("close", "release"):
        call = getattr(library, "zedbuf_" + name)
        call.argtypes, call.restype = [handle], None
    return library


LIBRARY = load()


def call(name, *arguments):
    answer = getattr(LIBRARY, "zedbuf_" + name)(*arguments)
    if answer.code != 0:
        raise Refused(name, answer)
    return answer


def read(name, *arguments):
    """What a call writes, however long it is."""
    room = 4096
    while True:
        into = ctypes.create_string_buffer(room)
        answer = getattr(LIBRARY, "zedbuf_" + name)(*arguments, into, room)
        if answer.code == 0:
            return into.raw[: answer.first]
        if answer.code != NO_ROOM:
            raise Refused(name, answer)
        room = answer.first


def read_all(kind, name, *arguments):
    """The members, of a type, that a call writes, however many they are."""
    room = 64
    while True:
        into = (kind * room)()
        answer = getattr(LIBRARY, "zedbuf_" + name)(*arguments, into, room)
        if answer.code == 0:
            return into[: answer.first]
        if answer.code != NO_ROOM:
            raise Refused(name, answer)
        room = answer.first


def seen(version):
    """A version, {replica: value}, as the calls take it."""
    return (Seen * max(len(version), 1))(*sorted(version.items())), len(version)


class Buffer:
    """The buffer of a replica, 1 to 1023, over a base text, or with saved records."""

    def __init__(self, replica, base=None, saved=None, endings=AS_THEY_ARE, most_bytes=MOST_BYTES, most_entries=MOST_ENTRIES):
        self.handle = Handle()
        name, data = ("open", base.encode()) if saved is None else ("reopen", saved)
        call(name, self.handle, replica, data, len(data), most_bytes, most_entries, endings)

    def close(self):
        LIBRARY.zedbuf_close(self.handle)

    def edit(self, changes):
        """Replaces ranges, (start, end, text) in bytes and in order. Returns the stamp of the edit."""
        texts = [text.encode() for _, _, text in changes]
        rows = (Change * len(changes))(*((start, end, len(text)) for (start, end, _), text in zip(changes, texts)))
        data = b"".join(texts)
        answer = call("edit", self.handle, rows, len(changes), data, len(data))
        return answer.first, answer.second

    def undo(self, stamps):
        """Undoes edits, or redoes those that are undone. Returns the stamp of the undo."""
        answer = call("undo", self.handle, (Stamp * len(stamps))(*stamps), len(stamps))
        return answer.first, answer.second

    def record(self):
        """The record of what was made here last, for the other authors."""
        return read("record", self.handle)

    def take(self, records):
        """Takes records of the other authors, in any order and as often as they come. Returns how many operations are applied,
        and how many wait."""
        answer = call("take", self.handle, records, len(records))
        return answer.first, answer.second

    def settle(self):
        """Applies what may be applied of what waits, where an allocation failed before. Returns the same as `take`."""
        answer = call("settle", self.handle)
        return answer.first, answer.second

    def waiting(self):
        """The stamps of what waits."""
        return [(stamp.value, stamp.replica) for stamp in read_all(Stamp, "waiting", self.handle)]

    def forget(self, stamp):
        """Forgets an operation that waits. Returns whether it did."""
        return call("forget", self.handle, Stamp(*stamp)).first == 1

    def refused(self):
        """The stamps of the operations that waited and were refused, each with its code."""
        return [((one.stamp.value, one.stamp.replica), one.why.code) for one in read_all(Refusal, "refused", self.handle)]

    def version(self):
        """What is applied of each replica: {replica: value}."""
        return {entry.replica: entry.value for entry in read_all(Seen, "version", self.handle)}

    def records(self, version={}):
        """The records of all that a version does not see: all that is applied, to be saved, for the empty version."""
        return read("records_since", self.handle, *seen(version))

    def snapshot(self):
        return Snapshot(self)

    def anchor(self, offset, bias=1):
        """An anchor that keeps to the byte before an offset (bias 0) or after it (1)."""
        now = self.snapshot()
        try:
            return now.anchor(offset, bias)
        finally:
            now.release()

    def text(self):
        now = self.snapshot()
        try:
            return now.text()
        finally:
            now.release()


class Snapshot:
    """What a buffer was at one time."""

    def __init__(self, source):
        """Of a buffer, or of another snapshot."""
        self.handle = Handle()
        call("share" if isinstance(source, Snapshot) else "snapshot_of", source.handle, self.handle)

    def release(self):
        LIBRARY.zedbuf_release(self.handle)

    def __len__(self):
        return call("length", self.handle).first

    def text(self, start=0, end=None):
        return read("text", self.handle, start, len(self) if end is None else end).decode()

    def text_at(self, version):
        """The text that a version saw."""
        return read("text_at", self.handle, *seen(version)).decode()

    def edits_since(self, version):
        """What changed since a version: (old start, old end, new start, new end), in bytes."""
        found = read_all(TextChange, "edits_since", self.handle, *seen(version))
        return [(one.old_start, one.old_end, one.new_start, one.new_end) for one in found]

    def find(self, text):
        """Where a text stands, in bytes."""
        data = text.encode()
        return list(read_all(ctypes.c_uint64, "find", self.handle, data, len(data)))

    def position(self, kind, number, column=0):
        """The place that a number names, with a column where the kind has rows, in all kinds of position."""
        position = Position()
        call("position_at", self.handle, kind, number, column, position)
        return position

    def anchor(self, offset, bias=1):
        anchor = Anchor()
        call("anchor_at", self.handle, offset, bias, anchor)
        return anchor

    def resolve(self, anchor):
        return call("resolve", self.handle, anchor).first

    def compare(self, first, second):
        """Below 0 where the first anchor is less, 0 where they are at one place, above 0 where it is greater."""
        return call("compare", self.handle, first, second).first - 1
