"""The pages of the examples, which are kept in docs/sessions."""
from __future__ import annotations

import pathlib
from typing import Iterator

from .page import make_page, make_picture

TOP = pathlib.Path(__file__).resolve().parents[2]
FOLDER = TOP / "docs/sessions"
PICTURES = ("merge",)
"""The examples whose picture is kept as SVG too."""


def report_beside(session: pathlib.Path) -> str | None:
    """The report that stands beside a session, if there is one."""
    file = session.with_suffix(".report")
    return file.read_bytes().decode() if file.exists() else None


def pages() -> Iterator[tuple[pathlib.Path, str]]:
    """Each file that is kept, and what it has to hold."""
    for session in sorted((TOP / "examples").glob("*.session")):
        raw = session.read_bytes()
        yield FOLDER / f"{session.stem}.html", make_page(session.name, raw, report_beside(session))
        if session.stem in PICTURES:
            yield FOLDER / f"{session.stem}.svg", make_picture(raw)


def write_pages() -> None:
    """Writes the pages that are not current, and removes those of examples that are gone."""
    FOLDER.mkdir(exist_ok=True)
    for file, wanted in pages():
        if not file.exists() or file.read_bytes().decode() != wanted:
            file.write_bytes(wanted.encode())
            print(f"written: {file.relative_to(TOP)}")
    for file in unwanted():
        file.unlink()
        print(f"removed: {file.relative_to(TOP)}")


def unwanted() -> list[pathlib.Path]:
    """The files of the folder that belong to no example."""
    return sorted(set(FOLDER.glob("*")) - {file for file, _ in pages()})


def stale_pages() -> list[str]:
    """A line for each page that is not what its session and report make of it."""
    found = [
        f"{file.relative_to(TOP)} is stale"
        for file, wanted in pages()
        if not file.exists() or file.read_bytes().decode() != wanted
    ]
    return found + [f"{file.relative_to(TOP)} belongs to no example" for file in unwanted()]
