#!/usr/bin/env python3
"""Draws a session as one page of HTML, which needs no network and no script.

    tools/session_page.py SESSION [REPORT] > PAGE.html
    tools/session_page.py --svg SESSION > PICTURE.svg  its lanes alone
    tools/session_page.py --write                      the pages of all examples, in docs/sessions
    tools/session_page.py --check                      says which of those are stale
    tools/session_page.py --look [PAGE]                tries them, or one page, in a headless Chromium
    tools/session_page.py --test                       compares with the stored cases and reports

A page has a lane for each author, and time goes down. It shows what each line of the session did, the author's text
after it, hidden bytes struck through and each byte in the colour of its author, and deliveries as arrows; then the
insertion tree, the session and its report. The texts are worked out from the definitions, apart from the program. Where
a report is given, or NAME.report stands beside NAME.session, the page says where that differs. Of a session of more
than 200 lines the first 200 are shown. Each byte is looked at after each line: sessions of a few pages are meant, not long
texts.
"""
from __future__ import annotations

import argparse
import pathlib
import sys

from sessions import browser, cases, examples, page
from sessions.reading import BadLine, TooLarge


def options() -> argparse.Namespace:
    parser = argparse.ArgumentParser(
        description="Draws a session as one page of HTML, on standard output."
    )
    parser.add_argument("session", nargs="?", type=pathlib.Path, help="the session")
    parser.add_argument(
        "report",
        nargs="?",
        type=pathlib.Path,
        help="its report; else the .report beside it, if any",
    )
    parser.add_argument("--svg", action="store_true", help="the picture of the lanes alone")
    parser.add_argument(
        "--write", action="store_true", help="write the pages of all examples to docs/sessions"
    )
    parser.add_argument("--check", action="store_true", help="say which of those pages are stale")
    parser.add_argument("--look", action="store_true", help="try the pages in a headless Chromium")
    parser.add_argument(
        "--test", action="store_true", help="compare with the stored cases and reports"
    )
    chosen = parser.parse_args()
    if not (chosen.session or chosen.write or chosen.check or chosen.look or chosen.test):
        parser.error("a session is wanted")
    return chosen


def kept_pages(chosen: argparse.Namespace) -> int:
    if chosen.write:
        examples.write_pages()
    stale = examples.stale_pages() if chosen.check else []
    for line in stale:
        print(line)
    return 1 if stale else 0


def main() -> int:
    chosen = options()
    if chosen.test:
        return cases.test()
    if chosen.look:
        kept = sorted(examples.FOLDER.glob("*.html"))
        return browser.try_pages([chosen.session] if chosen.session else kept)
    if chosen.write or chosen.check:
        return kept_pages(chosen)
    raw = chosen.session.read_bytes()
    try:
        if chosen.svg:
            sys.stdout.write(page.make_picture(raw))
        else:
            report = (
                chosen.report.read_bytes().decode()
                if chosen.report
                else examples.report_beside(chosen.session)
            )
            sys.stdout.write(page.make_page(chosen.session.name, raw, report))
    except (BadLine, TooLarge) as error:
        sys.exit(f"{chosen.session}: {error}")
    return 0


if __name__ == "__main__":
    sys.exit(main())
