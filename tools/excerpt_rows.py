#!/usr/bin/env python3
"""excerpt_rows.py: prints crates/multi_tests/src/random.rt, before rt fmt: sessions of excerpts drawn by a fixed seed,
with what each step answers. Texts are bytes here, and an excerpt is a range that a replacement moves: its start stays
after the byte before it, and its end before the byte that follows; where that byte is deleted, it is after the new text."""
import random

WORDS = ["", "x", "yz", "é", "\n", "a⋯b"]


def is_boundary(text, at):
    return at == len(text) or (at < len(text) and text[at] & 0xC0 != 0x80)


def new_place(pieces, at, byte):
    """The new place of an end at `at` that stays beside `byte`."""
    moved = 0
    for start, end, text in pieces:
        if start <= byte < end:
            return start + moved + len(text)
        if end <= byte:
            moved += len(text) - (end - start)
    return at + moved


class Desk:
    def __init__(self, pages):
        self.pages, self.excerpts = list(pages), []

    def replace(self, page, pieces):
        old = self.pages[page]
        moved = []
        for p, s, e in self.excerpts:
            if p == page:
                total = sum(len(t) - (b - a) for a, b, t in pieces)
                start = 0 if s == 0 else new_place(pieces, s, s - 1)
                end = len(old) + total if e == len(old) else new_place(pieces, e, e)
                s, e = start, end
            moved.append((p, s, e))
        new, at = b"", 0
        for a, b, t in pieces:
            new, at = new + old[at:a] + t, b
        self.pages[page] = new + old[at:]
        self.excerpts = moved

    def text(self):
        return b"\n".join(self.pages[p][s:e] for p, s, e in self.excerpts)

    def part(self, s, e):
        at = 0
        for i, (p, a, b) in enumerate(self.excerpts):
            if at <= s and e <= at + b - a:
                return i, p, a + s - at, a + e - at
            at += b - a + 1
        return None

    def split(self, changes):
        text, last = self.text(), 0
        for i, (s, e, _) in enumerate(changes):
            if e < s:
                return f"Reversed({i})"
        for i, (s, e, _) in enumerate(changes):
            if s < last:
                return f"Overlap({i})"
            last = e
        for i, (s, e, _) in enumerate(changes):
            if e > len(text):
                return f"PastEnd({i}, {len(text)})"
        for i, (s, e, _) in enumerate(changes):
            if not (is_boundary(text, s) and is_boundary(text, e)):
                return f"InsideChar({i})"
        parts = [self.part(s, e) for s, e, _ in changes]
        for i, part in enumerate(parts):
            if part is None:
                return f"Crosses({i})"
        for i, (x, p, s, e) in enumerate(parts):
            for j, (q, a, b) in enumerate(self.excerpts):
                if j != x and q == p and s <= b and a <= e:
                    return f"Shared({i}, {j})"
        pieces = {}
        for (x, p, s, e), (_, _, t) in zip(parts, changes):
            pieces.setdefault(p, []).append((s, e, t))
        return {p: sorted(list, key=lambda piece: piece[0]) for p, list in pieces.items()}


def place(draw, text):
    at = draw.randint(0, len(text))
    while not is_boundary(text, at):
        at += 1
    return at


def quoted(text):
    return '"' + text.decode().replace("\n", "\\n") + '"'


def change(piece):
    return f"({piece[0]}, {piece[1]}, {quoted(piece[2])})"


def changes_of(draw, text):
    ends = sorted(place(draw, text) for _ in range(2 * draw.randint(1, 3)))
    if draw.random() < 0.7:
        for i in range(0, len(ends), 2):
            ends[i + 1] = ends[i] if draw.random() < 0.6 else min(ends[i + 1], ends[i] + 2)
            while not is_boundary(text, ends[i + 1]):
                ends[i + 1] += 1
    return [(a, b, draw.choice(WORDS).encode()) for a, b in zip(ends[::2], ends[1::2])]


def session(draw):
    pages = [t.encode() for t in draw.sample(["abcdef", "héllo", "", "one\ntwo\n", "⋯⋯"], 3)]
    desk, steps = Desk(pages), [f"Page({quoted(page)})" for page in pages]
    while len(steps) < 22:
        kind = draw.random()
        if kind < 0.25 and len(desk.excerpts) < 6:
            page = draw.randrange(3)
            s, e = sorted((place(draw, desk.pages[page]), place(draw, desk.pages[page])))
            steps.append(f"Excerpt({page}, {s}, {e}, {len(desk.excerpts)})")
            desk.excerpts.append((page, s, e))
        elif kind < 0.5:
            page = draw.randrange(3)
            s, e = sorted((place(draw, desk.pages[page]), place(draw, desk.pages[page])))
            e = e if e < s + 3 else s
            piece = (s, e, draw.choice(WORDS).encode())
            desk.replace(page, [piece])
            steps.append(f"Edit({page}, {change(piece)})")
        else:
            changes = changes_of(draw, desk.text())
            answer = desk.split(changes)
            list = "&[" + ", ".join(change(c) for c in changes) + "]"
            if isinstance(answer, str):
                steps.append(f"Refused({list}, SplitFault::{answer})")
                continue
            for page, pieces in answer.items():
                desk.replace(page, pieces)
            steps.append(f"Changes({list}, {len(answer)})")
        steps.append(f"Text({quoted(desk.text())})")
    return steps + [f"PageText({i}, {quoted(page)})" for i, page in enumerate(desk.pages)]


def main():
    print("""//! Sessions drawn by chance, with the answers of `tools/excerpt_rows.py`.
use crate::steps::{Step, first_wrong};
use multi_buffer::SplitFault;

const SESSIONS: &[&[Step]] = &[""")
    draw = random.Random(70)
    for _ in range(4):
        print("    &[")
        for step in session(draw):
            print(f"        Step::{step},")
        print("    ],")
    print("""];

#[test]
fn sessions(rt: HostRuntime) {
    for (i, steps) in SESSIONS.iter().enumerate() {
        assert_eq!(rt; first_wrong(&rt, rt.alloc(), steps), None, "session {i}");
    }
}""")


main()
