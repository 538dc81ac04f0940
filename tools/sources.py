"""Reads the public items of the crates from their sources, as `rt fmt` lays them out: what is at the margin is an item of a
file, what is one step in belongs to the `impl` or trait above it.
"""
from __future__ import annotations

import pathlib
import re
from dataclasses import dataclass, field
from typing import Iterator

TOP = pathlib.Path(__file__).resolve().parents[1]
CRATES = TOP / "crates"
ITEM = re.compile(r"( *)(pub )?(?:const |unsafe )*(fn|struct|enum|trait|type) (\w+)")
IMPL = re.compile(r"impl(?:<.*?>)? (?:.* for )?([A-Za-z_]\w*)(?:<.*>)?.*\{")
CLAUSES = ("requires ", "ensures ", "ghost ", "{", "where", "decreases ", "writes ")


@dataclass
class Item:
    """A public item or call: its kind, its name, its head without contract, and its doc comment."""

    kind: str
    name: str
    owner: str
    head: str
    doc: list[str]
    members: list[str] = field(default_factory=list)
    """The variants of an enum, or the public fields of a struct."""


@dataclass
class Crate:
    """A library: the first paragraph of its doc comment, its public items, and what it hands on from others."""

    name: str
    about: str
    items: list[Item]
    handed_on: dict[str, list[str]]


def crate_names() -> list[str]:
    """The crates of crates.txt, the lowest first."""
    text = (TOP / "crates.txt").read_text(encoding="utf-8")
    return re.findall(r"(?m)^(\w+)(?: staticlib)?:", text)


def is_library(name: str) -> bool:
    """Whether others can use the crate, and it is not one of tests or of programs that are timed."""
    return (CRATES / name / "src/lib.rt").exists() and not name.endswith(("_tests", "_reports"))


def _head(lines: list[str]) -> str:
    """The head of an item: up to its contract or its body."""
    words: list[str] = []
    for at, line in enumerate(lines):
        stripped = line.strip()
        if at and stripped.startswith(CLAUSES):
            break
        if stripped.startswith("//"):
            continue
        words.append(stripped)
        if stripped.endswith(("{", ";", "}")):
            break
    head = re.sub(r"\s*(\{.*)?;?$", "", " ".join(words))
    return re.sub(r"\( ", "(", re.sub(r",? \)", ")", head))


def _members(kind: str, lines: list[str]) -> list[str]:
    """The variants or public fields that stand one step in, up to the closing brace."""
    found: list[str] = []
    for line in lines[1:]:
        if line.startswith("}") or not lines[0].rstrip().endswith("{"):
            break
        variant = re.match(r"    ([A-Z]\w*.*?)[,{]?$", line)
        public = re.match(r"    pub (\w+: .*?),?$", line)
        if kind == "enum" and variant:
            found.append(variant[1].rstrip(" {"))
        elif kind == "struct" and public:
            found.append(public[1])
    return found


def items_of(text: str) -> Iterator[Item]:
    """The public items of a file, and the public calls of its `impl`s and traits."""
    lines, doc, owner, in_trait = text.split("\n"), [], "", False
    for at, line in enumerate(lines):
        stripped = line.strip()
        if stripped.startswith("///"):
            doc.append(stripped[3:].removeprefix(" "))
            continue
        if stripped.startswith("#["):
            continue
        if line.startswith("impl"):
            found = IMPL.match(line)
            owner, in_trait = (found[1] if found and " for " not in line else "", False)
        item = ITEM.match(line)
        if item and len(item[1]) in (0, 4):
            is_inner = bool(item[1])
            if (item[2] or is_inner and in_trait) and (owner or not is_inner):
                inner = owner if is_inner else ""
                head, members = _head(lines[at:]), _members(item[3], lines[at:])
                yield Item(item[3], item[4], inner, head, doc, members)
            if not is_inner:
                owner, in_trait = (item[4], bool(item[2])) if item[3] == "trait" else ("", False)
        doc = []


def _uses(text: str) -> Iterator[tuple[str, list[str]]]:
    """The paths that `pub use` names, each with its names."""
    code = "\n".join(line for line in text.split("\n") if not line.strip().startswith("//"))
    for path, many, one in re.findall(r"pub use ([\w:]+?)::(?:\{([^}]*)\}|([\w ]+));", code):
        yield path, [
            name.split(" as ")[-1].strip() for name in (many or one).split(",") if name.strip()
        ]


def _about(text: str) -> str:
    lines = []
    for line in text.split("\n"):
        if not line.startswith("//!") or line.strip() == "//!":
            break
        lines.append(line[3:].strip())
    return " ".join(lines)


def _modules(folder: pathlib.Path, text: str) -> Iterator[tuple[str, str, bool]]:
    """The modules that a file names: each with its text, and whether it is public."""
    for public, name in re.findall(r"(?m)^(pub )?mod (\w+);", text):
        file = folder / f"{name}.rt"
        if file.exists():
            yield name, file.read_text(encoding="utf-8"), bool(public)


def read_crate(name: str) -> Crate:
    """The public face of a library."""
    folder = CRATES / name / "src"
    root = (folder / "lib.rt").read_text(encoding="utf-8")
    items = list(items_of(root))
    handed_on: dict[str, list[str]] = {}
    shown: set[str] = set()
    modules = list(_modules(folder, root))
    own = {module for module, _, _ in modules}
    for path, names in _uses(root):
        if path.removeprefix("crate::").split("::")[0] in own:
            shown.update(names)
        else:
            handed_on.setdefault(path.split("::")[0], []).extend(names)
    inner = [(item, public) for _, text, public in modules for item in items_of(text)]
    owners = {
        item.name for item, public in inner if not item.owner and (public or item.name in shown)
    }
    owners |= {item.name for item in items}
    for item, public in inner:
        if item.owner in owners if item.owner else public or item.name in shown:
            items.append(item)
    return Crate(name, _about(root), items, handed_on)


def libraries() -> list[Crate]:
    """All libraries, the lowest first."""
    return [read_crate(name) for name in crate_names() if is_library(name)]
