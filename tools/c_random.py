#!/usr/bin/env python3
"""Random calls of the C interface by three replicas, good ones and bad ones; replicas with the same operations are compared.

    ZEDBUF=build/c/libzedbuf.so tools/c_random.py [CALLS [SEED]]

A buffer's own text is also kept here, as Python's bytes, through each local edit. What a call is refused for has to leave it as it was.
What snapshots are asked is compared with what Python finds in their texts: positions, searches, the past, and what changed since.
"""
import os
import random
import sys

sys.path.insert(0, os.path.join(os.path.dirname(os.path.abspath(__file__)), "..", "examples", "python"))
from zedbuf import OFFSET, POINT, POINT_UTF16, UTF16, Buffer, Refused, Snapshot  # noqa: E402

BASE = "The cat sat.\nβ and 𝄞\n"
TEXTS = ["", "a", "dog ", "\n", "ß", "😀", "two\nlines", "x" * 40]


class Author:
    def __init__(self, replica):
        self.buffer = Buffer(replica, BASE)
        self.stamps = []
        self.records = []
        self.pasts = []

    def text(self):
        return self.buffer.text().encode()

    def keep(self):
        self.records.append(self.buffer.record())


def boundaries(text):
    return [i for i in range(len(text) + 1) if i == len(text) or text[i] & 0xC0 != 0x80]


def edit(draw, author):
    """A good edit of up to three ranges, and what it has to leave."""
    text = author.text()
    cuts = sorted(draw.choices(boundaries(text), k=2 * draw.randint(1, 3)))
    changes = [(start, end, draw.choice(TEXTS)) for start, end in zip(cuts[::2], cuts[1::2])]
    wanted, at = b"", 0
    for start, end, new in changes:
        wanted += text[at:start] + new.encode()
        at = end
    author.stamps.append(author.buffer.edit(changes))
    author.keep()
    assert author.text() == wanted + text[at:], "an edit"


def ask(author, question):
    now = author.buffer.snapshot()
    try:
        question(now)
    finally:
        now.release()


def bad(draw, author):
    """A call that is refused, and changes nothing."""
    text = author.text()
    calls = [
        lambda: author.buffer.edit([(len(text) + 1, len(text) + 1, "x")]),
        lambda: author.buffer.edit([(1, 0, "x")]),
        lambda: author.buffer.undo([(4_000_000_000, 900)]),
        lambda: author.buffer.take(b"\x03"),
        lambda: ask(author, lambda now: now.position(POINT, text.count(b"\n") + 1, 0)),
        lambda: ask(author, lambda now: now.position(4, 0, 0)),
        lambda: ask(author, lambda now: now.text_at({1: 4_000_000_000})),
        lambda: ask(author, lambda now: now.edits_since({1: 0})),
        lambda: ask(author, lambda now: now.find("")),
        lambda: ask(author, lambda now: now.anchor(0, 2)),
        lambda: Buffer(1024, BASE),
        lambda: Buffer(1, BASE, endings=2),
        lambda: Buffer(1, BASE, most_bytes=1),
        lambda: author.buffer.take(author.records[-1][:-1] if author.records else b"\x01"),
    ]
    try:
        draw.choice(calls)()
    except Refused:
        assert author.text() == text, "a refused call"
        return
    raise AssertionError("a call that had to be refused was not")


def place(text, offset):
    """A byte offset of a text in all kinds of position."""
    before = text[:offset].decode()
    row = before.rsplit("\n", 1)[-1]
    return offset, units(before), before.count("\n"), len(row.encode()), units(row)


def units(text):
    return len(text.encode("utf-16-le")) // 2


def expect_place(now, wanted):
    offset, utf16, row, column, column_utf16 = wanted
    asked = [(OFFSET, offset, 0), (UTF16, utf16, 0), (POINT, row, column), (POINT_UTF16, row, column_utf16)]
    for kind, number, at in asked:
        found = now.position(kind, number, at)
        got = (found.offset, found.utf16, found.row, found.column, found.column_utf16)
        assert got == wanted, f"the position {number} {at} of kind {kind}"


def look(draw, author):
    """What a snapshot is asked, beside what Python finds in its text."""
    text = author.text()
    first = author.buffer.snapshot()
    now = Snapshot(first)
    first.release()
    assert now.text().encode() == text and len(now) == len(text), "a snapshot that is shared"
    expect_place(now, place(text, draw.choice(boundaries(text))))
    needle = draw.choice(TEXTS[1:])
    places = [i for i in range(len(text)) if text.startswith(needle.encode(), i)]
    assert now.find(needle) == places, "a search"
    start, end = sorted(draw.choices(boundaries(text), k=2))
    assert now.text(start, end).encode() == text[start:end], "a part of the text"
    sides = [(start, draw.randint(0, 1)), (end, draw.randint(0, 1))]
    anchors = [now.anchor(*side) for side in sides]
    assert [now.resolve(anchor) for anchor in anchors] == [start, end], "an anchor"
    assert now.compare(*anchors) == (sides[0] > sides[1]) - (sides[0] < sides[1]), "two anchors"
    for version, past in draw.sample(author.pasts, min(2, len(author.pasts))):
        assert now.text_at(version).encode() == past, "the text at a version"
        made, at = b"", 0
        for old_start, old_end, new_start, new_end in now.edits_since(version):
            made += past[at:old_start] + text[new_start:new_end]
            at = old_end
        assert made + past[at:] == text, "the edits since a version"
    author.pasts.append((author.buffer.version(), text))
    now.release()


def forget(draw, author):
    """Forgets one of the operations that wait; it is taken again later, with all others."""
    waiting = author.buffer.waiting()
    assert waiting == sorted(waiting), "what waits"
    if not waiting:
        assert not author.buffer.forget((4_000_000_000, 900)), "a stamp that does not wait"
        return
    stamp = draw.choice(waiting)
    assert author.buffer.forget(stamp), "an operation that waits"
    waiting.remove(stamp)
    assert author.buffer.waiting() == waiting, "what still waits"


def undo(draw, authors, author):
    stamps = draw.choice(authors).stamps
    if not stamps:
        return
    try:
        author.stamps.append(author.buffer.undo([draw.choice(stamps)]))
    except Refused:
        return  # the edit has not come here yet
    author.stamps.pop()
    author.keep()


def give(draw, source, target):
    records = draw.sample(source.records, min(len(source.records), draw.randint(1, 3)))
    target.buffer.take(b"".join(records))


def meet(draw, authors):
    """All take everything, in an order of their own; then all show the same text, and so does a saved history."""
    for author in authors:
        records = [record for other in authors if other is not author for record in other.records]
        draw.shuffle(records)
        author.buffer.take(b"".join(records))
        assert author.buffer.waiting() == [] and author.buffer.refused() == [], "all operations are here"
    texts = {author.text() for author in authors}
    for author in authors:
        lacks = authors[0].buffer.records(author.buffer.version())
        assert lacks == b"", "replicas with the same operations lack none"
    opened = Buffer(9, saved=authors[0].buffer.records())
    texts.add(opened.text().encode())
    opened.close()
    assert len(texts) == 1, "replicas with the same operations"


def main():
    calls = int(sys.argv[1]) if sys.argv[1:] else 20_000
    draw = random.Random(int(sys.argv[2]) if sys.argv[2:] else 1)
    done = 0
    while done < calls:
        authors = [Author(replica) for replica in (1, 2, 3)]
        for _ in range(min(300, calls - done)):
            author, other = draw.sample(authors, 2)
            turn = draw.random()
            if turn < 0.45:
                edit(draw, author)
            elif turn < 0.6:
                undo(draw, authors, author)
            elif turn < 0.7:
                bad(draw, author)
            elif turn < 0.8:
                look(draw, author)
            elif turn < 0.83:
                forget(draw, author)
            elif other.records:
                give(draw, other, author)
            done += 1
        meet(draw, authors)
        for author in authors:
            author.buffer.close()
    print(f"{done} random calls: replicas with the same operations have the same text")


if __name__ == "__main__":
    main()
