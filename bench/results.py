"""Makes RESULTS.md of what the works of a list printed, on standard output.

usage: results.py LIST FOLDER     FOLDER has a file for each work: a line with the commit, the day, the machine and its load, the command, what it printed
"""
import pathlib
import re
import sys

# What is aimed at: a work, a row of what it prints or two of them, a column of it, what this is divided by, the most that it may be, and what it is then.
AIMS = [
    *(("trees", row, "p/tree", 1, 1.3, "of a plain tree's time") for row in
      "Push Get SharePush FromList Type ShareType Fill Find Insert Remove".split()),
    *(("ropes", row, "p/plain", 1, 1.3, "of a plain rope's time") for row in
      "Build Points Offsets Shares Replaces ShareReplaces".split()),
    *(("search", row, "p/flat", 1, 1.5, "of a flat search's time") for row in "Absent Rare Frequent".split()),
    ("search", "Periodic", "p/linear", 1, 3, "of a linear search's time"),
    ("spans", "AtText", "proved", 100_000, 0.5, "microseconds each"),
    ("spans", "AtShown", "proved", 100_000, 0.5, "microseconds each"),
    ("spans", "TouchReplace", "proved", 100_000, 5, "microseconds each"),
    ("folds", "Fold", "proved", 100_000, 15, "microseconds each"),
    ("folds", "Unfold", "proved", 50_000, 15, "microseconds each"),
    ("folds", "ToShown", "proved", 100_000, 1, "microseconds each"),
    ("folds", "ToText", "proved", 100_000, 1, "microseconds each"),
    ("folds", "Text / Copy", "proved", 1, 2, "of the time of a copy of the text"),
    ("folds", "SyncScattered", "proved", 1_000, 15, "milliseconds for 1,000 edits"),
    ("folds", "EditsSynced - Edits", "proved", 1_000, 30, "microseconds a sync"),
    ("excerpts", "ToSource", "proved", 100_000, 1, "microseconds each"),
    ("excerpts", "ToMulti", "proved", 100_000, 1, "microseconds each"),
    ("excerpts", "Split", "proved", 10_000, 3, "milliseconds for 1,000 changes"),
    ("excerpts", "Rope", "proved", 10_000, 5, "milliseconds each"),
    ("excerpts", "EditsSynced - Edits", "proved", 1_000, 300, "microseconds a sync"),
    ("excerpts", "SyncSame", "proved", 100_000, 0.2, "microseconds each"),
    ("excerpts", "Text / Copy", "proved", 1, 2, "of the time of a copy of the text"),
    ("anchors", "Anchors", "proved", 10_000, 1, "microseconds each"),
    ("anchors", "Resolve", "proved", 100_000, 1, "microseconds each"),
    ("anchors", "Compare", "proved", 100_000, 1, "microseconds each"),
    ("selections", "Selects", "proved", 10_000, 2.5, "milliseconds for 1,024 ranges"),
    ("selections", "SelectedPlaces", "proved", 10_000, 2.5, "milliseconds for 1,024 ranges"),
    ("opening", "Typed", "p/taken", 1, 0.7, "of the time of taking"),
    ("opening", "Random", "p/taken", 1, 1.0, "of the time of taking"),
    ("opening", "Rounds", "p/taken", 1, 0.7, "of the time of taking"),
    ("opening", "Undone", "p/taken", 1, 1.0, "of the time of taking"),
    ("forgetting", "Forgets", "proved", 1_000_000, 3, "microseconds each"),
    ("interface", "TypeAsIs", "C/library", 1, 1.1, "of the library's instructions"),
]

HEAD = """# Results

Made by `results.py` of the files in `measured/`. [README.md](README.md) says what the works are.

`results.sh` puts what a work prints into its file, below the commit, the day, the machine and its load. Where 'entered by hand' stands, the table was
made by hand of what the command printed in one run or several. An aim is the most that was aimed at. Where no unit stands, times are microseconds
of all calls of a work.
"""


def rows_of(lines):
    """For each row of a table, the fields by the names of its columns."""
    rows, names = {}, []
    for line in lines:
        fields = line.split()
        if fields[:1] in (["work"], ["instructions"]):
            names = fields
        elif names and len(fields) == len(names):
            rows[fields[0]] = dict(zip(names, fields))
    return rows


def measured(rows, row, column):
    """What a row has in a column, or the difference or the ratio of two rows; None where a row has no number there."""
    first, sign, second = (*row.split(), "", "")[:3]
    numbers = [rows.get(it, {}).get(column, "") for it in (first, second) if it]
    if not all(re.fullmatch(r"[\d.]+", it) for it in numbers):
        return None
    one, *others = map(float, numbers)
    return one - others[0] if sign == "-" else one / others[0] if sign == "/" else one


def shown(value):
    """A number with two digits that count, or all those before the point."""
    return f"{value:.0f}" if value >= 10 else f"{value:.2g}"


def aims_of(name, lines):
    rows = rows_of(lines)
    for work, row, column, divisor, most, words in AIMS:
        value = measured(rows, row, column) if work == name else None
        if value is not None:
            value /= divisor
            yield f"| `{row}` | {most:g} {words} | {shown(value)} | {'yes' if value <= most else '**no**'} |"


def section(name, lines):
    when, command, *printed = lines
    aims = list(aims_of(name, printed))
    table = ["| | aim | measured | met |", "|---|---|---|---|", *aims, ""] if aims else []
    return "\n".join([f"## {name.capitalize().replace('_', ' and ')}", "", f"`{command}`, {when}", "", "```", *printed, "```", "", *table])


def main():
    listed, folder = map(pathlib.Path, sys.argv[1:])
    parts = [HEAD]
    for line in listed.read_text().splitlines():
        file = folder / (line.split() or ["#"])[0]
        if file.is_file():
            parts.append(section(file.name, file.read_text().splitlines()))
    print("\n".join(parts).rstrip("\n"))


main()
