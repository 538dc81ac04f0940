"""The few SVG elements that the pictures are made of. Every text has its length given, so that no font makes it wider."""
from __future__ import annotations

import html
import pathlib
from typing import Union

from .layout import Laid, columns
from .operations import Stamp

INK, MUTED, RED, AMBER, GREEN, PINK = (
    "#222222",
    "#6b6b6b",
    "#b00020",
    "#8a5300",
    "#2c6e2c",
    "#c2185b",
)
AUTHORS = ("#1f5f8b", "#a84a14", "#3c6b1f", "#7a3c8f", "#7a5b12", "#14706c", "#a3195b", "#4a4fa3")
CHAR, ROW = 8.2, 19
"""A column of the texts and the height of their rows."""
SMALL, SMALL_ROW = 6.9, 16
HEAD = 9.0
Attribute = Union[str, float]
STYLE = pathlib.Path(__file__).with_name("picture.css").read_text()


def element(tag: str, content: str = "", /, **attributes: Attribute) -> str:
    """An element; an underscore in an attribute's name stands for a hyphen, and lengths have one place."""
    words = "".join(
        f' {name.rstrip("_").replace("_", "-")}="{_attribute(value)}"'
        for name, value in attributes.items()
        if value != ""
    )
    return f"<{tag}{words}>{content}</{tag}>" if content else f"<{tag}{words}/>"


def _attribute(value: Attribute) -> str:
    if isinstance(value, str):
        return html.escape(value)
    return f"{value:.1f}".removesuffix(".0")


def text(x: float, y: float, words: str, colour: str, kind: str = "", title: str = "") -> str:
    """A text whose baseline begins at the place; its kind is a class of the style sheet, or several."""
    if not words:
        return ""
    kinds = kind.split()
    char = SMALL if "small" in kinds else HEAD if "head" in kinds else CHAR
    tip = f"<title>{html.escape(title)}</title>" if title else ""
    return element(
        "text",
        tip + html.escape(words, quote=False),
        class_=kind,
        x=x,
        y=y,
        fill=colour,
        textLength=columns(words) * char,
        lengthAdjust="spacingAndGlyphs",
        **{"xml:space": "preserve"},
    )


def line(x1: float, y1: float, x2: float, y2: float, colour: str, width: float = 1.4) -> str:
    """A straight line."""
    return element("line", x1=x1, y1=y1, x2=x2, y2=y2, stroke=colour, stroke_width=width)


def circle(x: float, y: float, radius: float, fill: str, stroke: str = "none") -> str:
    """A disc, or a ring where a stroke is given."""
    return element("circle", cx=x, cy=y, r=radius, fill=fill, stroke=stroke, stroke_width=2.4)


class Colours:
    """A colour for each author: those of the header first, then the others as they come."""

    def __init__(self, replicas: tuple[int, ...]) -> None:
        self.authors = list(replicas)

    def of(self, author: int) -> str:
        """The author's colour; the base is black."""
        if author == 0:
            return INK
        if author not in self.authors:
            self.authors.append(author)
        return AUTHORS[self.authors.index(author) % len(AUTHORS)]


def name_of(stamp: Stamp) -> str:
    """What an edit is called."""
    return "the base" if stamp.replica == 0 else f"edit {stamp}"


def laid_text(laid: Laid, colours: Colours, x: float, y: float) -> list[str]:
    """The runs of a text, each in the colour of its author, hidden ones struck through; y is the first baseline."""
    parts = []
    for run in laid.runs:
        left, base = x + run.column * CHAR, y + run.row * ROW
        colour, status = colours.of(run.stamp.replica), "shown" if run.is_shown else "hidden"
        kind = "hidden" if not run.is_shown else "bold" if run.stamp.replica else ""
        parts.append(text(left, base, run.text, colour, kind, f"{name_of(run.stamp)}, {status}"))
        if not run.is_shown:
            right = left + columns(run.text) * CHAR
            parts.append(line(left, base - 4.5, right, base - 4.5, RED))
    if laid.left_out:
        more = f"⋯ and {laid.left_out} bytes more"
        parts.append(text(x, y + laid.rows * ROW, more, MUTED, "small"))
    return parts


def caret(laid: Laid, offset: int, side: str, x: float, y: float) -> str:
    """A caret at an offset of a laid text, with a flag to the side of the byte that it keeps to."""
    row, column = laid.caret(offset, side)
    at, top = x + column * CHAR, y + row * ROW - 12
    flag = -5 if side == "left" else 5
    path = f"M{at:.1f} {top:.1f}v15M{at:.1f} {top:.1f}h{flag}"
    return element("path", d=path, fill="none", stroke=PINK, stroke_width=1.8)


SPOKEN_OF, FOLDED = "#fff2a8", "#dcdcdc"
"""The grounds of what a line speaks of and of what is folded."""


def marker(
    laid: Laid, start: int, end: int, x: float, y: float, ground: str = SPOKEN_OF
) -> list[str]:
    """A ground below the bytes of a range of the shown text."""
    parts = []
    for at in range(start, end):
        (row, column), (last_row, last) = laid.caret(at, "right"), laid.caret(at + 1, "left")
        if row == last_row and last > column:
            place: dict[str, Attribute] = {"x": x + column * CHAR, "y": y + row * ROW - 13}
            parts.append(
                element("rect", fill=ground, width=(last - column) * CHAR, height=17, **place)
            )
    return parts


def picture(
    width: float, height: float, label: str, parts: list[str], is_file: bool = False
) -> str:
    """The whole picture; as a file of its own it has its style and a white ground."""
    names: dict[str, Attribute] = {"xmlns": "http://www.w3.org/2000/svg"} if is_file else {}
    ground = element("rect", width="100%", height="100%", fill="#fff")
    own = f"<style>\n{STYLE}</style>{ground}" if is_file else ""
    names |= {
        "viewBox": f"0 0 {width:.0f} {height:.0f}",
        "width": round(width),
        "height": round(height),
        "role": "img",
        "aria-label": label,
    }
    return element("svg", own + "\n".join(parts), **names)
