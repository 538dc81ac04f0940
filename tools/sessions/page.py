"""The whole page of a session, as HTML that needs nothing else."""
from __future__ import annotations

import html
import pathlib

from .comparing import Difference, differences
from .histories import History
from .json_values import write_string
from .lanes import Lanes
from .layout import shortened
from .operations import Operation
from .reading import BadLine, TooLarge, cut_lines, read_session
from .replay import Replay
from .svg import AMBER, FOLDED, GREEN, INK, MUTED, RED, STYLE, Colours
from .trees import draw_tree

MOST_LINES = 200
MOST_DIFFERENCES = 20
LONGEST_LINE = 2000
PAGE_STYLE = pathlib.Path(__file__).with_name("page.css").read_text()
APART = "worked out from the definitions, apart from the program"
TREE_WORDS = """\
From top to bottom it is the text. What was inserted after a byte stands below it, one step to the right, the latest
stamp first. Solid boxes are shown, dashed ones hidden."""


def make_page(name: str, raw: bytes, report: str | None) -> str:
    """The page of a session; with its report it says where that differs from the definitions."""
    try:
        session = read_session(raw)
    except (BadLine, TooLarge) as error:
        return _refused_page(name, raw, report, error)
    count = len(session.lines) + 1
    whole = count <= MOST_LINES
    replay = Replay(session.front(MOST_LINES))
    given = None if report is None else report.removesuffix("\n").split("\n")
    found = [] if given is None else differences(replay, given, whole)
    colours = Colours(session.header.replicas)
    lanes = Lanes(replay, found, colours).draw()
    parts = [_verdict(given is not None, found, whole), _legend(replay, colours)]
    if not whole:
        parts.append(
            _paragraph(f"The session has {count} lines; the first {MOST_LINES} are shown.", "bad")
        )
    parts += [f"<figure>{lanes}</figure>", _trees(replay, colours)]
    own = replay.report() if whole else [said for said, _ in replay.event_lines()]
    parts.append(_texts(raw, given or own, given is not None))
    return _document(name, parts)


def make_picture(raw: bytes) -> str:
    """The picture of a session alone, as an SVG file. Fails with `BadLine` or `TooLarge`."""
    replay = Replay(read_session(raw).front(MOST_LINES))
    return Lanes(replay, [], Colours(replay.session.header.replicas)).draw(is_file=True) + "\n"


def _document(name: str, parts: list[str]) -> str:
    title = html.escape(name)
    head = [
        '<!doctype html>\n<html lang="en">\n<meta charset="utf-8">',
        '<meta name="viewport" content="width=device-width,initial-scale=1">',
        f"<title>{title}</title>\n<style>\n{PAGE_STYLE}{STYLE}</style>\n<h1>{title}</h1>",
    ]
    return "\n".join([*head, *parts, "</html>\n"])


def _refused_page(name: str, raw: bytes, report: str | None, error: BadLine | TooLarge) -> str:
    parts = [_paragraph(f"This is no session. Its report is: {_code(str(error))}", "bad")]
    bad = None
    if isinstance(error, BadLine):
        bad = error.number
        parts.append(_paragraph(f"About line {bad}: {html.escape(error.reason)}."))
    if report is not None and report != f"{error}\n":
        parts.append(_paragraph(f"The report that was given is another: {_code(report)}", "bad"))
    given = (report or str(error)).removesuffix("\n").split("\n")
    parts.append(_texts(raw, given, report is not None, bad))
    return _document(name, parts)


def _paragraph(words: str, kind: str = "") -> str:
    return f'<p class="{kind}">{words}</p>' if kind else f"<p>{words}</p>"


def _code(words: str | None) -> str:
    return f"<code>{html.escape(words or 'nothing')}</code>"


def _verdict(is_given: bool, found: list[Difference], whole: bool) -> str:
    if not is_given:
        return _paragraph(f"The texts and the report on this page are {APART}.")
    if not found:
        which = "" if whole else " that belongs to the lines shown"
        return _paragraph(f"Every line of the report{which} is as {APART}.", "good")
    shown = [
        f"<li>line {it.number} of the report: {_code(it.given)}, wanted: {_code(it.wanted)}</li>"
        for it in found[:MOST_DIFFERENCES]
    ]
    if len(found) > MOST_DIFFERENCES:
        shown.append(f"<li>and {len(found) - MOST_DIFFERENCES} more</li>")
    words = _paragraph(f"The report differs from what is {APART}:", "bad")
    return f'{words}\n<ul class="bad">{"".join(shown)}</ul>'


def _legend(replay: Replay, colours: Colours) -> str:
    replicas = replay.session.header.replicas
    struck = f'<s style="color:{RED}"><span style="color:{INK}">struck</span></s> hidden, but kept'
    signs = [(INK, "■ the base")]
    signs += [(colours.of(replica), f"■ author {replica}") for replica in replicas]
    signs += [
        (INK, struck),
        (GREEN, "─▶ delivered and applied"),
        (AMBER, "╌▶ delivered, waits"),
        (MUTED, "┈▶ delivered again"),
        (RED, "─▶ delivered and refused"),
    ]
    if any(event.folded for event in replay.events):
        signs.append((INK, f'<span style="background:{FOLDED}">grey</span> shown as one ⋯'))
    words = " ".join(f'<span style="color:{colour}">{words}</span>' for colour, words in signs)
    return _paragraph(words, "legend")


def _trees(replay: Replay, colours: Colours) -> str:
    """A tree for each set of operations that some replica has applied."""
    groups: dict[frozenset[Operation], list[int]] = {}
    for number, replica in replay.replicas.items():
        groups.setdefault(frozenset(replica.applied), []).append(number)
    parts = ["<h2>The insertion tree</h2>", _paragraph(TREE_WORDS)]
    if len(groups) == 1 and len(replay.replicas) > 1:
        same = "All authors have applied the same operations, so they show the same text."
        parts.append(_paragraph(same))
    for operations, numbers in groups.items():
        history: History = replay.replicas[numbers[0]].history
        who = f"Author{'s' if len(numbers) > 1 else ''} {', '.join(map(str, numbers))}"
        count = f"{len(operations) - 1} operation{'' if len(operations) == 2 else 's'}"
        shown = html.escape(write_string(shortened(history.text.decode(), 120)), quote=False)
        parts.append(f"<h3>{who}: {count}, {shown}</h3>")
        parts.append(f"<figure>{draw_tree(history, colours)}</figure>")
    return "\n".join(parts)


def _texts(raw: bytes, report: list[str], is_given: bool, bad: int | None = None) -> str:
    """The session and the report, their lines numbered, the bad line marked."""
    session = [piece.decode("utf-8", "replace") for piece in cut_lines(raw)[: MOST_LINES + 1]]
    name = "The report" if is_given else "The report, worked out"
    return "\n".join(
        [
            '<h2>Session and report</h2>\n<div class="two">',
            f"<div><h3>The session</h3>{_numbered(session, bad)}</div>",
            f"<div><h3>{name}</h3>{_numbered(report)}</div>\n</div>",
        ]
    )


def _numbered(lines: list[str], bad: int | None = None) -> str:
    wide = len(str(min(len(lines), MOST_LINES)))
    shown = []
    for number, line in enumerate(lines[:MOST_LINES], 1):
        words = html.escape(shortened(line, LONGEST_LINE), quote=False)
        shown.append(f"{number:>{wide}}  " + (f"<b>{words or ' '}</b>" if number == bad else words))
    if len(lines) > MOST_LINES:
        shown.append("and so on")
    return "<pre>" + "\n".join(shown) + "</pre>"
