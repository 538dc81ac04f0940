"""JSON texts as the format reads them: what `serde_json` refuses as a `Value` is refused here too."""
from __future__ import annotations

import json
from dataclasses import dataclass
from typing import Any

DEEPEST = 127
"""How deep arrays and objects may stand in each other."""


class NotJson(Exception):
    """The bytes are not a JSON text; the message says why."""


@dataclass(frozen=True)
class NotWhole:
    """A number with a sign, a fraction or an exponent, which no line of a session has."""

    text: str


@dataclass(frozen=True)
class Object:
    """A JSON object, which no line of a session has either."""

    members: tuple[tuple[str, Any], ...]


def _whole(text: str) -> int | NotWhole:
    _check_finite(text)
    return NotWhole(text) if text.startswith("-") else int(text)


def _not_whole(text: str) -> NotWhole:
    _check_finite(text)
    return NotWhole(text)


def _check_finite(text: str) -> None:
    if float(text) in (float("inf"), float("-inf")):
        raise NotJson(f"the number {text[:20]}.. is too large")


def _refuse(text: str) -> None:
    raise NotJson(f"{text} is not a JSON value")


def _check(value: Any, depth: int = 0) -> None:
    """Refuses strings with half a surrogate pair, and what is nested too deep."""
    if isinstance(value, str):
        if any("\ud800" <= char <= "\udfff" for char in value):
            raise NotJson("a string has half a surrogate pair")
    elif isinstance(value, (list, Object)):
        if depth == DEEPEST:
            raise NotJson(f"more than {DEEPEST} arrays and objects stand in each other")
        for member in value if isinstance(value, list) else value.members:
            for part in member if isinstance(value, Object) else (member,):
                _check(part, depth + 1)


def read_value(raw: bytes) -> Any:
    """The value of one line. Fails with `NotJson`."""
    try:
        value = json.loads(
            raw.decode("utf-8"),
            parse_int=_whole,
            parse_float=_not_whole,
            parse_constant=_refuse,
            object_pairs_hook=lambda pairs: Object(tuple(pairs)),
        )
        _check(value)
    except UnicodeDecodeError as error:
        raise NotJson(f"byte {error.start} of the line is not UTF-8") from error
    except json.JSONDecodeError as error:
        raise NotJson(f"{error.msg}, at character {error.pos} of the line") from error
    except RecursionError as error:
        raise NotJson(f"more than {DEEPEST} arrays and objects stand in each other") from error
    return value


def write_string(text: str) -> str:
    """A string as `serde_json` writes it."""
    return json.dumps(text, ensure_ascii=False)


def write_value(value: Any) -> str:
    """Arrays, strings and whole numbers as `serde_json` writes them, without white space."""
    return json.dumps(value, ensure_ascii=False, separators=(",", ":"))
