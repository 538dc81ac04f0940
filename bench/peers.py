"""Makes PEERS.md and the plots from what bench/peers.sh measured.

usage: peers.py RUNS FOLDER     RUNS has lines that begin with run, edits, call, differs, held and load; the files go into FOLDER
"""
import math
import os
import subprocess
import sys
from collections import defaultdict

from plots import bars, curves

# How both are called on the page.
NAMES = {"zedbuf": "zedbuf", "yjs": "Yjs"}

runs = defaultdict(list)    # (who, session): processor seconds, seconds by the clock, KiB at the peak, of each round
calls = defaultdict(list)   # (who, call, work): microseconds a call, of each round
edits, differs, loads, held = {}, set(), [], 0

# how often `bench` does each of its works
TIMES = {"Anchors": 10_000, "Resolve": 100_000, "Snapshots": 100_000, "SnapshotEdits": 4, "Edits": 4}

for line in open(sys.argv[1]):
    kind, *words = line.split()
    if kind == "run":
        who, session, user, system, clock, peak = words
        runs[who, session].append((float(user) + float(system), float(clock), int(peak)))
    elif kind == "edits":
        edits[words[0]] = int(words[1])
    elif kind == "call":
        who, call, size, work, *numbers = words
        times = int(numbers[0]) if who == "yjs" else TIMES.get(work)
        if times:
            calls[who, f"{call} {size}", work].append(float(numbers[-1]) / times)
    elif kind == "differs":
        differs.add(words[0])
    elif kind == "load":
        loads.append(words[0])
    elif kind == "held":
        held = int(words[0])


def least(who, session):
    """The fewest processor seconds that a session took, or None where it was not done."""
    return min(runs[who, session])[0] if runs[who, session] else None


# A difference of two sessions that is less than this part of the greater one is not told apart from what runs differ by.
TOLD = 0.03


def each(who, session, without, count=None):
    """The microseconds that each of the operations takes which the one session has and the other has not; None if the clock does not tell."""
    whole, rest = least(who, session), least(who, without)
    if whole is None or rest is None or whole - rest < TOLD * whole:
        return None
    return (whole - rest) / (count or edits[session]) * 1e6


def peak(who, session):
    return min(it[2] for it in runs[who, session]) * 1024


def spread(who, session):
    times = [it[0] for it in runs[who, session]]
    return max(times) / min(times) - 1 if times else 0


def exponent(who, small, great):
    """How the time of so many operations in reverse grows with their number."""
    times = [each(who, f"reverse_{n}", f"typed_{n}", 1) for n in (small, great)]
    return math.log(times[1] / times[0]) / math.log(great / small) if all(times) else None


def remote_of_rounds(who):
    """An edit that a fifth replica takes, which makes none."""
    return each(who, "rounds_taken", "rounds")


def local_of_rounds(who):
    """What is left of an edit in rounds where three others have taken it: too small a difference under a load."""
    whole, taken = each(who, "rounds", "empty"), remote_of_rounds(who)
    return whole - 3 * taken if taken and whole > 3 * taken * (1 + TOLD) else None


def at_a_replica(who):
    """An edit at each of the four replicas, of which one makes it and three take it."""
    return each(who, "rounds", "empty") / 4


# How edits that are undone were made, and which a tenth of them these are.
MADE = {"undone": "typed", "strewn": "at random places"}
ORDERS = {"last": "the last", "first": "the first", "chance": "a random"}


def undo(who, made, order, n):
    """An undo of a tenth of n edits."""
    return each(who, f"{made}_{order}_{n}", f"{made}_once_{n}", n // 10)


def undo_of(made, order):
    return f"an undo of one of {ORDERS[order]} tenth of edits {MADE[made]}"


def all_rows():
    """A name, the session that shows the spread, and the microseconds of an operation in both, None where the clock does not tell."""
    def row(name, session, time):
        return (name, session, time("zedbuf"), time("yjs"))

    def of(session, without, count=None):
        return lambda who: each(who, session, without, count)

    yield row("typing, 260,000 edits: an edit, bytes to bytes", "paper_260000", of("paper_260000", "empty"))
    yield row("the same edits taken in order by a second replica, each at once", "copied_260000", of("copied_260000", "paper_260000"))
    yield row("four authors in rounds: an edit at one of the four", "rounds", at_a_replica)
    yield row("four authors in rounds: an edit of one's own", "rounds", local_of_rounds)
    yield row("four authors in rounds: an edit of another", "rounds_taken", remote_of_rounds)
    yield row("8,000 edits taken in order, after the last", "ordered_8000", of("ordered_8000", "typed_8000"))
    for n in 2000, 4000, 8000, 16000, 32000, 64000:
        yield row(f"{n:,} edits taken in reverse", f"reverse_{n}", of(f"reverse_{n}", f"typed_{n}"))
    for n in 1000, 2000, 4000, 8000:
        yield row(f"{n:,} taken in reverse, an edit of one's own after each", f"beside_{n}", of(f"beside_{n}", f"typed_{n}", n))
    for made in MADE:
        for order in ORDERS:
            for n in 20_000, 200_000:
                yield row(f"{undo_of(made, order)}, {n:,}", f"{made}_{order}_{n}", lambda who: undo(who, made, order, n))
    for size in 1, 62:
        yield row(f"a random edit over a base of {size} MiB", f"random_{size}", of(f"random_{size}", f"base_{size}"))
    anchors = {"zedbuf": 20_000, "yjs": 40}
    yield row("an anchor made and asked for, after 100,000 random edits", "many", lambda who: each(who, f"many_{anchors[who]}", "many", anchors[who]))


def rows():
    """The rows that the clock tells."""
    return [row for row in all_rows() if row[2] is not None]


def untold():
    """A sentence that names the others."""
    names = [name for name, _, own, _ in all_rows() if own is None]
    return f"Too short for the clock, so without a row: {'; '.join(names)}.\n" if names else ""


def called(who, call, work):
    times = calls[who, call, work]
    return (min(times), max(times) / min(times) - 1) if times else None


def number(value):
    if value is None:
        return "-"
    return f"{value:,.0f}" if value >= 100 else f"{value:.1f}" if value >= 1 else f"{value:.2f}"


def ratio(one, other):
    return "-" if one is None or not other else f"{one / other:.2g}" if one < 100 * other else f"{one / other:,.0f}"


def share(value):
    return f"{value * 100:.0f} %"


def answer(command):
    return subprocess.run(command, shell=True, capture_output=True, text=True).stdout.strip()


def machine():
    top = os.path.dirname(os.path.abspath(sys.argv[2]))
    day, commit = answer("date '+%-d %B %Y'"), answer(f"git -C {top} rev-parse --short HEAD")
    model, node = answer("lscpu | sed -n 's/^Model name: *//p'"), answer("node --version")
    yjs = answer("dpkg-query -f '${Version}' -W node-yjs")
    return f"""{day}, commit {commit}, {len(runs['zedbuf', 'empty'])} rounds, on one of {os.cpu_count()} processors
({model}) at a niceness of {os.nice(0)}; the load was {', '.join(loads)} from the beginning to the end. Node {node}, Yjs {yjs}.
"""


def goals():
    """What was aimed at: a name, what was measured, the goal, and whether it is met."""
    own, peer = least("zedbuf", "paper_260000"), least("yjs", "paper_260000")
    yield "typing session, s", f"{own:.2f}", "2", own <= 2
    yield "typing session, part of Yjs's time", f"{own / peer:.2f}", "0.33", own <= peer / 3
    for name, time, goal in (("an edit taken in order", each("zedbuf", "copied_260000", "paper_260000"), 5),
                             ("an edit at one of four authors", at_a_replica("zedbuf"), 12),
                             ("an edit in reverse, 8,000", each("zedbuf", "reverse_8000", "typed_8000"), 20),
                             ("an edit in reverse, 64,000", each("zedbuf", "reverse_64000", "typed_64000"), 20)):
        if time is not None:
            yield f"{name}, us", number(time), str(goal), time <= goal
    growth = exponent("zedbuf", 8000, 64000)
    if growth is not None:
        yield "exponent of growth in reverse, 8,000 to 64,000", f"{growth:.2f}", "1.1", growth <= 1.1
    for made, goal in ("undone", 15), ("strewn", 40):
        for order in ORDERS:
            few, many = (undo("zedbuf", made, order, n) for n in (20_000, 200_000))
            if many is not None:
                yield f"{undo_of(made, order)}, 200,000, us", number(many), str(goal), many <= goal
            if few is not None and many is not None:
                yield f"{undo_of(made, order)}, 200,000 by 20,000", f"{many / few:.2f}", "1.5", many <= 1.5 * few
    memory = bytes_an_edit("zedbuf", 260_000)
    for goal in 900, 700:
        yield "bytes an edit at the peak", number(memory), str(goal), memory <= goal


def bytes_an_edit(who, count):
    return (peak(who, f"paper_{count}") - peak(who, "empty")) / count


def table(head, lines):
    lines = list(lines)
    return "\n".join(["| " + " | ".join(it) + " |" for it in [head, ["---"] * len(head), *lines]]) + "\n"


def time_table():
    for name, session, own, peer in rows():
        spreads = [share(spread(who, session)) if runs[who, session] else "-" for who in ("zedbuf", "yjs")]
        yield name, number(own), number(peer), ratio(own, peer), *spreads


def call_table():
    works = [("an anchor is made, among 200,000 fragments", "anchors 200000", "Anchors", "Anchors"),
             ("an anchor is resolved there", "anchors 200000", "Resolve", "Resolve")]
    for mib, size in (1, 1048576), (16, 16777216):
        call = f"snapshot {size}"
        works += [(f"a snapshot, text of {mib} MiB", call, "Snapshots", "Snapshots"), (f"a copy of the text, {mib} MiB", call, "", "Texts"),
                  (f"a snapshot and an edit after it, {mib} MiB", call, "SnapshotEdits", "SnapshotEdits"), (f"an edit, {mib} MiB", call, "Edits", "Edits")]
    for name, call, own, peer in works:
        own, peer = called("zedbuf", call, own), called("yjs", call, peer)
        yield (name, number(own and own[0]), number(peer and peer[0]), ratio(own and own[0], peer and peer[0]),
               share(own[1]) if own else "-", share(peer[1]) if peer else "-")


def call_section():
    if not calls:
        return ""
    return f"""## Calls, in microseconds

{table(["", "zedbuf", "Yjs", "zedbuf / Yjs", "spread", "spread of Yjs"], call_table())}
`bench anchors` and `bench snapshot` beside Yjs's relative positions and its snapshots. A snapshot of Yjs is a version and a list of what is deleted; a
text is read from it only by going through the history. A snapshot here has its text at once, for as long as it is kept.

"""


def session_table():
    for name in "empty", "paper_65000", "paper_130000", "paper_260000", "copied_260000", "rounds", "rounds_taken", "base_62", "random_62":
        for who in "zedbuf", "yjs":
            if runs[who, name]:
                best = min(runs[who, name])
                yield name, NAMES[who], f"{best[0]:.2f}", f"{best[1]:.2f}", f"{peak(who, name) / 2**20:,.0f}"


def memory_table():
    for count in 65_000, 130_000, 260_000:
        yield f"{count:,}", *(number(bytes_an_edit(who, count)) for who in ("zedbuf", "yjs"))


def growth():
    """How edits in reverse grow in both, where the clock tells it."""
    own, peer = exponent("zedbuf", 8000, 64000), exponent("yjs", 2000, 8000)
    if own is None or peer is None:
        return ""
    return f"""In reverse, time grows with the number of edits by an exponent of {own:.2f} (8,000 to 64,000), and of
{peer:.2f} in Yjs (2,000 to 8,000).
"""


def page():
    same = "Both ended with the same texts" if not differs else f"**Other texts came of** {', '.join(sorted(differs))}; else both ended with the same texts"
    read = (peak("checked", "paper_260000") - peak("zedbuf", "empty")) / 260_000
    return f"""# The program beside Yjs

Written by `bench/peers.sh`: {machine()}
Times are processor seconds of the whole process, user and system, the least of the rounds; the spread says by how much the greatest was more.
{same}, or, where two authors may write at one place, with texts of the same lengths.

`zedbuf replay` and Yjs in node (`yjs.cjs`) read the same sessions, of `session.awk`, and write a line for each line and the last texts. What an
operation costs is the difference of two sessions, of which one has the operations and the other has not, over their number: with the reading of
their lines and the writing of their report. `peers.txt` lists the sessions.

## Goals

{table(["", "measured", "goal", "met"], ((n, m, g, "yes" if met else "**no**") for n, m, g, met in goals()))}
## An operation, in microseconds

{table(["", "zedbuf", "Yjs", "zedbuf / Yjs", "spread", "spread of Yjs"], time_table())}
{growth()}{untold()}Yjs has no time, and no bar, where it is not asked: its manager of undos undoes the last edits alone, those of typing are tried; edits in reverse
take it seconds from some thousands on, so it gets no more than 8,000, and 2,000 with edits of one's own between.
A session has at most 64 MiB with its escapes, so the longer base has 62. The axis of the plot is logarithmic.

![Microseconds an operation](peers-operations.svg)

![Edits in reverse](peers-reverse.svg)

{call_section()}## Memory

{table(["edits typed", "zedbuf, bytes an edit", "Yjs, bytes an edit"], memory_table())}
At the peak of the process, less what it takes without edits. Of the bytes here {read:,.0f} are the session, read and decoded
(`zedbuf check`). Yjs's peak is that of its garbage and of the lines as objects: its document
holds {held / 260_000:.0f} bytes an edit once that is gone, since it merges letters that were typed one after the other, and forgets what
was deleted. Here each edit keeps an operation and a fragment of its own, and every version can be read.

![Peak of memory](peers-memory.svg)

## Whole sessions

{table(["session", "", "processor seconds", "seconds", "MiB at the peak"], session_table())}"""


def draw(folder):
    shown = [(name, own, peer) for name, _, own, peer in rows()]
    bars(f"{folder}/peers-operations.svg", "microseconds an operation, on a logarithmic axis", tuple(NAMES.values()), shown)
    sizes = {"zedbuf": (2000, 4000, 8000, 16000, 32000, 64000), "yjs": (2000, 4000, 8000)}
    reverse = {NAMES[who]: [(n, time) for n in sizes[who] if (time := each(who, f"reverse_{n}", f"typed_{n}"))] for who in sizes}
    curves(f"{folder}/peers-reverse.svg", "edits taken in reverse", "microseconds each; both axes are logarithmic", reverse)
    memory = {NAMES[who]: [(n, peak(who, f"paper_{n}") / 2**20) for n in (65_000, 130_000, 260_000)] for who in NAMES}
    curves(f"{folder}/peers-memory.svg", "edits typed", "MiB at the peak; both axes are logarithmic", memory)


draw(sys.argv[2])
with open(f"{sys.argv[2]}/PEERS.md", "w") as out:
    out.write(page())
