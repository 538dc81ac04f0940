#!/usr/bin/env python3
"""Says what a refused or bad line of a session lacks.

    tools/why.py [--migrate] SESSION [LINE]

LINE is the number of the line, counted from 1. Without it every line is named that is bad or refused, that waits, or that has
no place to give. For each of them the word of the report stands with its numbers, then what it says of this line, then what would be
accepted. It is worked out from the definitions, apart from the program. With --migrate it says what `zedbuf migrate` says.
"""
from __future__ import annotations

import argparse
import pathlib
import sys

from sessions.explaining import FORMS, Explanation


def main() -> int:
    """Prints what there is to say; 1 where there is no such line."""
    parser = argparse.ArgumentParser(
        description="Says what a refused or bad line of a session lacks."
    )
    parser.add_argument("session", type=pathlib.Path, help="the session")
    parser.add_argument(
        "line", nargs="?", type=int, help="the number of the line; without it, all such lines"
    )
    parser.add_argument(
        "--migrate", action="store_true", help="the session is to be written as one of version 2"
    )
    chosen = parser.parse_args()
    explanation = Explanation(chosen.session.read_bytes(), chosen.migrate)
    said = list(explanation.of_all()) if chosen.line is None else explanation.of_line(chosen.line)
    print("\n".join(said) or "no line is bad or refused, and none waits")
    if said:
        print(FORMS)
    return 1 if said and said[0].startswith("there is no line") else 0


if __name__ == "__main__":
    sys.exit(main())
