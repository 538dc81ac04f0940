#!/usr/bin/env python3
"""Compares the proved reader of records with a second one, on streams that are drawn, mutated and cut by chance.

usage: bench/records.py PROGRAM [COUNT [SEED]]   PROGRAM: a built program of crates/wire_bench, which is run with the word `feeds`

A stream is up to three records, of which some bytes are then changed, left out, put in or cut off, or, one time in twenty, bytes by chance
alone. It is fed in pieces of sizes by chance, empty ones too, and goes on after a fault. The second reader goes from left to right over the whole
stream, as docs/RECORDS.md says. Both say how many operations there are, how many bytes are held, and what the end is; the proved program also
says whether the stream begins with the records of what it read, made again. Each difference is written. The last line has the number of streams
with each end.
"""
import collections
import random
import subprocess
import sys

LIMIT = 65536

# How many streams a run of the program reads.
BATCH = 2000


class Short(Exception):
    """The bytes end inside a field."""


class Bad(Exception):
    """A field is faulty: its word and its offset."""


def number(stream, at, size):
    if len(stream) - at < size:
        raise Short
    return int.from_bytes(stream[at:at + size], "big"), at + size


def amount(stream, at):
    value, after = number(stream, at, 4)
    if value > LIMIT:
        raise Bad("Long", at)
    return value, after


def after_record(stream, at):
    """The offset after the record that begins at this one."""
    kind, after = number(stream, at, 1)
    if kind not in (1, 2):
        raise Bad("Kind", at)
    _, after = number(stream, after, 4)
    _, after = number(stream, after, 2)
    entries, after = amount(stream, after)
    before = -1
    for _ in range(entries):
        replica, next_at = number(stream, after, 2)
        if replica <= before:
            raise Bad("Order", after)
        before = replica
        value, after = number(stream, next_at, 4)
        if value == 0:
            raise Bad("Zero", next_at)
    parts, after = amount(stream, after)
    texts = 0
    for _ in range(parts):
        if kind == 2:
            for size in 4, 2, 4:
                _, after = number(stream, after, size)
            continue
        for size in 8, 8:
            _, after = number(stream, after, size)
        size, text_at = number(stream, after, 4)
        texts += size
        if texts > LIMIT:
            raise Bad("Long", after)
        if len(stream) - text_at < size:
            raise Short
        try:
            stream[text_at:text_at + size].decode("utf-8")
        except UnicodeDecodeError:
            raise Bad("Utf8", text_at) from None
        after = text_at + size
    return after


def read(stream):
    """How many operations a stream has, how many bytes are held, and the end."""
    at, operations = 0, 0
    while True:
        try:
            at = after_record(stream, at)
            operations += 1
        except Short:
            end = "Ok(())" if at == len(stream) else f"Err(Cut {{ at: {at} }})"
            return operations, len(stream) - at, end
        except Bad as fault:
            return operations, 0, "Err({} {{ at: {} }})".format(*fault.args)


TEXTS = ["", "a", "ab\n", "é", "€", "𝄞", "a" * 40, "é€𝄞" * 9]


def record(draw):
    def big(value, size):
        return value.to_bytes(size, "big")
    kind = draw.choice((1, 1, 1, 2))
    out = big(kind, 1) + big(draw.randrange(1 << 32), 4) + big(draw.randrange(1 << 16), 2)
    replicas = sorted(draw.sample(range(draw.choice((8, 1 << 16))), draw.randrange(7)))
    out += big(len(replicas), 4)
    for replica in replicas:
        out += big(replica, 2) + big(draw.randrange(1, 1 << 32), 4)
    parts = draw.randrange(5)
    out += big(parts, 4)
    for _ in range(parts):
        if kind == 2:
            out += big(draw.randrange(1 << 32), 4) + big(draw.randrange(1 << 16), 2) + big(draw.randrange(1 << 32), 4)
        else:
            text = draw.choice(TEXTS).encode()
            if draw.random() < 0.01:
                text = b"x" * draw.choice((30000, LIMIT - 1, LIMIT))
            out += big(draw.randrange(1 << 64), 8) + big(draw.randrange(1 << 64), 8) + big(len(text), 4) + text
    return out


def mutated(draw, stream):
    stream = bytearray(stream)
    for _ in range(draw.randrange(4)):
        at = draw.randrange(len(stream) + 1)
        way = draw.randrange(6)
        if way == 0 and at < len(stream):
            stream[at] = draw.choice((0, 1, 2, 3, 128, 255, draw.randrange(256)))
        elif way == 1:
            del stream[at:at + draw.randrange(1, 9)]
        elif way == 2:
            stream[at:at] = bytes(draw.choice((0, 1, 2, draw.randrange(256))) for _ in range(draw.randrange(1, 9)))
        elif way == 3:
            del stream[at:]
        elif way == 4:
            stream[at:at + 4] = bytes(4)
        elif at < len(stream):
            stream[at] ^= 1 << draw.randrange(8)
    return bytes(stream)


def drawn(draw):
    if draw.random() < 0.05:
        return bytes(draw.choice((0, 0, 0, 1, 2, draw.randrange(256))) for _ in range(draw.randrange(60)))
    return mutated(draw, b"".join(record(draw) for _ in range(draw.randrange(4))))


def cut(draw, length):
    """Sizes of pieces, which the reader takes as far as there are bytes."""
    most = draw.choice((1, 2, 7, 50, 1000))
    sizes = []
    while length > 0 and len(sizes) < 300:
        sizes.append(draw.randrange(most + 1))
        length -= sizes[-1]
    return sizes or [0]


def answers(program, lines):
    """What the program writes for each line."""
    run = subprocess.run([program, "feeds"], input="".join(lines), stdout=subprocess.PIPE, text=True, check=True)
    return run.stdout.splitlines()


def main():
    program = sys.argv[1]
    count = int(sys.argv[2]) if len(sys.argv) > 2 else 100000
    draw = random.Random(int(sys.argv[3]) if len(sys.argv) > 3 else 1)
    ends = collections.Counter()
    total, wrong = 0, 0
    while total < count:
        streams = [drawn(draw) for _ in range(min(BATCH, count - total))]
        lines = [f"{','.join(map(str, cut(draw, len(stream))))} {stream.hex()}\n" for stream in streams]
        written = answers(program, lines)
        total += len(streams)
        wrong += len(written) != len(streams)
        for stream, line, answer in zip(streams, lines, written):
            operations, held, end = read(stream)
            ends["Ok" if end == "Ok(())" else end[4:].split()[0]] += 1
            if answer != f"{operations} true {held} {end}":
                wrong += 1
                print(f"{line.strip()}\n  proved: {answer}\n  second: {operations} true {held} {end}")
    counted = ", ".join(f"{number} {end}" for end, number in sorted(ends.items()))
    print(f"{total} streams ({counted}): {wrong} differences")
    return 1 if wrong else 0


if __name__ == "__main__":
    sys.exit(main())
