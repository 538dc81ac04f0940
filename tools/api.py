#!/usr/bin/env python3
"""Writes docs/API.md from the public calls of the libraries and their doc comments.

    tools/api.py            writes docs/API.md
    tools/api.py --check    says where it is stale
    tools/api.py --costs    names the calls whose doc comment says nothing of their cost

Of each call it has the head, the first sentence, the errors that its doc comment names, and the sentences on its cost.
"""
from __future__ import annotations

import argparse
import difflib
import re
import sys
import textwrap

from sources import TOP, Crate, Item, libraries

FILE = TOP / "docs/API.md"
WIDTH = 132
COST = re.compile(
    r"[Cc]onstant time|[Ll]inear|O\(|[Ll]ogarithm|[Aa]llocates?\b|descen|\bnodes?\b|\bsteps?\b|copied|\bcosts?\b"
    r"|[Mm]ay wait|[Ww]aits for nobody|\b[Tt]ime\b"
)
LONGEST_ERRORS = 160
LONGEST_CODE = 60
INTRODUCTION = """\
# Calls

The public calls of the libraries, from the highest crate to the lowest: what each does, its errors, and its cost where its doc
comment says one. `tools/api.py` writes this page from the doc comments, which say more, and the contracts there say all. A *law* is
a function that does nothing when it runs: its contract is a theorem, which a caller's proof has by calling it.

An editor begins with [`text_buffer`](#text_buffer). Beside it stand [`snapshot_search`](#snapshot_search) for search,
[`snapshot_pub`](#snapshot_pub) for readers in other threads, [`op_wire`](#op_wire) for operations as bytes and
[`fold_spans`](#fold_spans) for folded ranges; [`rope_chunks`](#rope_chunks) has the positions of a text.

"""


def sentences(words: str) -> list[str]:
    """The sentences of a paragraph."""
    return [it for it in re.split(r"(?<=[.!?]) (?=[A-Z`\[0-9])", words.strip()) if it]


class Doc:
    """A doc comment: its paragraphs before the first heading, and those under `# Errors`."""

    def __init__(self, lines: list[str]) -> None:
        parts: dict[str, list[str]] = {"": []}
        heading, in_code = "", False
        for line in lines:
            in_code ^= line.startswith("```")
            if line.startswith("# ") and not in_code:
                heading = line[2:].strip()
                parts[heading] = []
            elif not in_code and not line.startswith("```"):
                parts[heading].append(line)
        self.body = " ".join(" ".join(parts[""]).split())
        self.errors = " ".join(" ".join(parts.get("Errors", [])).split())

    def first(self) -> str:
        """The first sentence."""
        return (sentences(self.body) or [""])[0]

    def cost(self) -> str:
        """The sentences on cost after the first."""
        return " ".join(it for it in sentences(self.body)[1:] if COST.search(it))


def plain(words: str) -> str:
    """The words with links to other items as code."""
    return re.sub(r"\[(`[^`]*`)\](?:\([^)]*\))?", r"\1", words)


def errors_of(item: Item, doc: Doc) -> str:
    """The errors of a call: what the doc comment says, or only their names where that is long."""
    if "Result<" not in item.head.partition("->")[2]:
        return ""
    if not doc.errors:
        named = re.search(r"Result<.*, (\w+)>$", item.head)
        return f"`{named[1]}`" if named else ""
    if len(doc.errors) <= LONGEST_ERRORS:
        return doc.errors.rstrip(".")
    own = re.findall(r"\w+", item.head.partition("->")[2])
    names = dict.fromkeys(re.findall(r"`([A-Z]\w*(?:::\w+)*)`", plain(doc.errors)))
    own = {*own, "Ok", "Err", "Some", "None"} - {"OutOfMemory"}
    shown = [f"`{name}`" for name in names if name not in own]
    return ", ".join(shown) or sentences(doc.errors)[0].rstrip(".")


def is_law(item: Item) -> bool:
    """Whether a call gives nothing back and changes nothing."""
    return (
        item.kind == "fn"
        and "->" not in item.head
        and not re.search(r"&mut|\(self\b|\(mut self\b", item.head)
    )


def _kept(found: re.Match[str]) -> str:
    return found[0].replace(" ", "\0") if len(found[0]) <= LONGEST_CODE else found[0]


def filled(words: str, first: str = "", later: str = "") -> str:
    """The words in lines of the page's width; no line ends inside a short piece of code."""
    kept = re.sub(r"`[^`]*`", _kept, words)
    lines = textwrap.fill(
        kept,
        WIDTH,
        initial_indent=first,
        subsequent_indent=later,
        break_long_words=False,
        break_on_hyphens=False,
    )
    return lines.replace("\0", " ")


def bullet(words: str) -> str:
    """An item of a list."""
    return filled(words, "- ", "  ")


def call_lines(item: Item) -> str:
    """What the page has of a call or type."""
    doc = Doc(item.doc)
    head = re.sub(r"^(pub )?(const )?fn ", "", item.head)
    words = [f"`{head}`{' (a law)' if is_law(item) else ''}:", plain(doc.first())]
    errors, cost = errors_of(item, doc), doc.cost()
    if errors:
        words.append(f"*Errors:* {plain(errors)}.")
    if cost:
        words.append(f"*Cost:* {plain(cost)}")
    return bullet(" ".join(words))


def type_lines(item: Item) -> list[str]:
    """The paragraph on a type or trait: what it is, and its variants or fields."""
    article = "an" if item.kind == "enum" else "a"
    words = [f"**`{item.name}`**, {article} {item.kind}: {plain(Doc(item.doc).first())}"]
    if item.members:
        name = "Variants" if item.kind == "enum" else "Fields"
        words.append(f"{name}: {', '.join(f'`{member}`' for member in item.members)}.")
    return [filled(" ".join(words)), ""]


def section(crate: Crate) -> list[str]:
    """What the page has of a crate: its types with their calls, its functions, its laws."""
    lines = [f"## {crate.name}", "", filled(plain(crate.about)), ""]
    for path, names in crate.handed_on.items():
        handed = f"Also here, from `{path}`: {', '.join(f'`{name}`' for name in names)}."
        lines += [filled(handed), ""]
    for item in crate.items:
        if item.kind in ("struct", "enum", "trait") and not item.owner:
            lines += type_lines(item)
            calls = [it for it in crate.items if it.owner == item.name and it.kind == "fn"]
            if calls:
                lines += [*map(call_lines, calls), ""]
    free = [it for it in crate.items if it.kind == "fn" and not it.owner]
    for title, chosen in (
        ("Functions", [it for it in free if not is_law(it)]),
        ("Laws", [it for it in free if is_law(it)]),
    ):
        if chosen:
            lines += [f"**{title}**", ""]
            lines += [law_line(it) if title == "Laws" else call_lines(it) for it in chosen] + [""]
    return lines


def law_line(item: Item) -> str:
    """What the page has of a law: its name and its first sentence."""
    return bullet(f"`{item.name}`: {plain(Doc(item.doc).first())}")


def page() -> str:
    """The whole page."""
    crates = libraries()[::-1]
    lines = [
        bullet(f"[`{crate.name}`](#{crate.name}): {plain((sentences(crate.about) or [''])[0])}")
        for crate in crates
    ]
    for crate in crates:
        lines += ["", *section(crate)[:-1]]
    return INTRODUCTION + "\n".join(lines).rstrip("\n") + "\n"


def stale_lines() -> list[str]:
    """The lines in which the page that stands differs from the one that the sources give."""
    old = FILE.read_text(encoding="utf-8") if FILE.exists() else ""
    found = difflib.unified_diff(
        old.split("\n"), page().split("\n"), "docs/API.md", "the sources", lineterm="", n=0
    )
    return list(found)


def costless() -> list[str]:
    """The calls, laws left out, whose doc comment says nothing of their cost."""
    return [
        f"{crate.name}: {item.owner + '::' if item.owner else ''}{item.name}"
        for crate in libraries()
        for item in crate.items
        if item.kind == "fn" and not is_law(item) and not COST.search(Doc(item.doc).body)
    ]


def main() -> int:
    """Writes or checks the page; 1 where it is stale."""
    parser = argparse.ArgumentParser(
        description="Writes docs/API.md from the doc comments of the libraries."
    )
    parser.add_argument("--check", action="store_true", help="say where the page is stale")
    parser.add_argument(
        "--costs", action="store_true", help="name the calls that say nothing of their cost"
    )
    chosen = parser.parse_args()
    if chosen.costs:
        print("\n".join(costless()))
        return 0
    if chosen.check:
        stale = stale_lines()
        print("\n".join(stale) or "docs/API.md is what the sources say")
        return 1 if stale else 0
    FILE.write_text(page(), encoding="utf-8")
    return 0


if __name__ == "__main__":
    sys.exit(main())
