#!/usr/bin/env python3
"""Random sessions, worked by the C interface from Python and by `zedbuf replay`, whose reports have to say the same.

    ZEDBUF=build/c/libzedbuf.so tools/c_sessions.py PROGRAM [SESSIONS [SEED]]

PROGRAM is a built zedbuf. Each operation line is a call, and its record is kept under its number; a `give` line takes that record. The
stamps, the faults, what is applied, waits or is repeated, and the texts at the end are compared.
"""
import json
import os
import random
import subprocess
import sys

sys.path.insert(0, os.path.join(os.path.dirname(os.path.abspath(__file__)), "..", "examples", "python"))
from zedbuf import AS_THEY_ARE, LF_ALONE, Buffer, Refused  # noqa: E402

BASES = ["", "ab\ncd\n", "The cat sat.\r\nβ and 𝄞\n", "x" * 300]
TEXTS = ["", "a", "dog ", "\n", "ß", "😀", "two\nlines", "y" * 130, "\r\n", "old\rrow"]
FAULTS = {1: "reversed", 2: "overlap", 3: "pastend", 4: "insidechar", 8: "nosuchedit", 9: "twice"}
# how many numbers the word of a fault has, a stamp being one of them
NUMBERS = {1: 1, 2: 1, 3: 2, 4: 1}


def fault(refused):
    """A fault as the report of a session words it."""
    answer = refused.answer
    numbers = [answer.first, answer.second][: NUMBERS[answer.code]] if answer.code in NUMBERS else [
        f"{answer.first}.{answer.second}"]
    return " ".join([FAULTS[answer.code], *map(str, numbers)])


class Session:
    """A session that grows line by line, with the buffers of its replicas and the lines that its report has to have."""

    def __init__(self, draw):
        self.draw = draw
        ids = draw.sample(range(1, 1024), draw.randint(1, 4))
        base, version = draw.choice(BASES), draw.choice([1, 2])
        self.lines = [["zedbuf", version, base, ids]]
        endings = LF_ALONE if version == 2 else AS_THEY_ARE
        self.buffers = {replica: Buffer(replica, base, endings=endings) for replica in ids}
        self.made = []  # the stamp and the record of each operation line, None where it was refused
        self.report = []

    def edit(self, replica):
        length = len(self.buffers[replica].text().encode())
        # now and then a place past the end, or inside a character, and ends that are exchanged
        ends = sorted(self.draw.randint(0, length + (self.draw.random() < 0.05)) for _ in range(2 * self.draw.randint(0, 3)))
        if len(ends) > 1 and self.draw.random() < 0.05:
            self.draw.shuffle(ends)
        changes = [(start, end, self.draw.choice(TEXTS)) for start, end in zip(ends[::2], ends[1::2])]
        self.lines.append(["edit", replica, [list(change) for change in changes]])
        self.operation(replica, lambda: self.buffers[replica].edit(changes))

    def undo(self, replica):
        numbers = [self.draw.randint(1, len(self.made)) for _ in range(self.draw.randint(1, 2))]
        self.lines.append(["undo", replica, numbers])
        unnamed = [number for number in numbers if self.made[number - 1] is None]
        if unnamed:
            self.made.append(None)
            self.report.append(f"{len(self.made)}: nothing {unnamed[0]}")
            return
        stamps = [self.made[number - 1][0] for number in numbers]
        self.operation(replica, lambda: self.buffers[replica].undo(stamps))

    def operation(self, replica, make):
        try:
            stamp = make()
        except Refused as refused:
            self.made.append(None)
            self.report.append(f"{len(self.made)}: {fault(refused)}")
            return
        self.made.append((stamp, self.buffers[replica].record()))
        self.report.append(f"{len(self.made)}: {stamp[0]}.{stamp[1]}")
        self.buffers[replica].settle()

    def give(self, replica, number):
        self.lines.append(["give", replica, number])
        head = f"give {number} to {replica}: "
        if self.made[number - 1] is None:
            self.report.append(head + "nothing")
            return
        stamp, record = self.made[number - 1]
        buffer = self.buffers[replica]
        before, waited = buffer.settle()[0], stamp in buffer.waiting()
        applied = buffer.take(record)[0] - before
        # the report also says what a waiting operation waits for, which is left out of the comparison
        waits = stamp in buffer.waiting() and not waited
        self.report.append(head + (f"applied {applied}" if applied else "waits" if waits else "repeat"))

    def grow(self):
        replica = self.draw.choice(list(self.buffers))
        turn = self.draw.random()
        if turn < 0.5 or not self.made:
            self.edit(replica)
        elif turn < 0.65:
            self.undo(replica)
        else:
            self.give(replica, self.draw.randint(1, len(self.made)))

    def finish(self):
        """All take everything, in an order of their own, and the texts at the end are written down."""
        for replica in self.buffers:
            for number in self.draw.sample(range(1, len(self.made) + 1), len(self.made)):
                self.give(replica, number)
        for replica, buffer in self.buffers.items():
            self.report.append(f"final {replica}: {json.dumps(buffer.text(), ensure_ascii=False)}")
            buffer.close()


def compared(report):
    """The lines of a report that are compared: what the interface does not say is left out of them."""
    lines = []
    for line in report.split("\n"):
        if line.startswith("give ") and ": waits " in line:
            line = line[: line.index(": waits ") + len(": waits")]
        if line and not line.startswith(("replica ", "settled ")):
            lines.append(line)
    return lines


def main():
    program = sys.argv[1]
    sessions = int(sys.argv[2]) if sys.argv[2:] else 1_000
    draw = random.Random(int(sys.argv[3]) if sys.argv[3:] else 1)
    lines = 0
    for number in range(sessions):
        session = Session(draw)
        for _ in range(draw.randint(1, 60)):
            session.grow()
        session.finish()
        written = "".join(json.dumps(line, ensure_ascii=False) + "\n" for line in session.lines)
        ran = subprocess.run([program, "replay", "--workers", "0"], input=written.encode(), stdout=subprocess.PIPE)
        report = compared(ran.stdout.decode())
        if ran.returncode or report != session.report:
            at = next((i for i, pair in enumerate(zip(report, session.report)) if pair[0] != pair[1]), None)
            print(f"session {number}: status {ran.returncode}, line {at}: {report[at or 0]!r} beside {session.report[at or 0]!r}")
            print(written)
            sys.exit(1)
        lines += len(session.lines)
    print(f"{sessions} random sessions of {lines} lines: zedbuf replay reports what the C interface answers")


if __name__ == "__main__":
    main()
