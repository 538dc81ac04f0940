"""The self-test: every stored case of a session must have the report that is worked out here."""
from __future__ import annotations

import pathlib
import re
from typing import Iterator, NamedTuple

from .comparing import differences
from .explaining import Explanation
from .reading import BadLine, TooLarge, migrated, read_session
from .records import BadRecord, packed, unpacked
from .replay import Replay, counts_line

TOP = pathlib.Path(__file__).resolve().parents[2]
FOLDER = TOP / "crates/session_tests/data"


class Case(NamedTuple):
    """A session and what the program writes for it."""

    name: str
    command: str
    session: bytes
    """What is read: a session, or records."""
    output: bytes
    choices: bool


def _cases_of(file: pathlib.Path) -> Iterator[Case]:
    """The sessions of one file; none where the status is of a read, a write or the words."""
    head, _, rest = file.read_bytes().decode().partition("--- session\n")
    body, _, output = rest.partition("--- output\n")
    if not re.search(r"(?m)^status: [05]$", head) or re.search(r"(?m)^(failing|words: make)", head):
        return
    if "no last line feed: session" in head:
        body = body.removesuffix("\n")
    if "no last line feed: output" in head:
        output = output.removesuffix("\n")
    session, has_lines, tried = body.partition("--- lines\n")
    command = re.findall(r"(?m)^words: +(\w+)", head)[0]
    wanted = _bytes_of(output, "bytes: output" in head)
    for at, line in enumerate(tried.removesuffix("\n").split("\n") if has_lines else [""]):
        whole = session.replace("%\n", line.replace(" / ", "\n") + "\n") if has_lines else session
        name = f"{file.stem}, line {at + 1}" if has_lines else file.stem
        raw = _bytes_of(whole, "bytes: session" in head)
        yield Case(name, command, raw, wanted, "choice: |" in head)


def _bytes_of(part: str, is_hexadecimal: bool) -> bytes:
    """The bytes of a part, each of which may stand as two hexadecimal digits."""
    return bytes.fromhex(part) if is_hexadecimal else part.encode()


def all_cases() -> list[Case]:
    """The cases of all files."""
    return [case for file in sorted(FOLDER.glob("*.case")) for case in _cases_of(file)]


def output_of(case: Case) -> bytes:
    """What is worked out for a case."""
    try:
        if case.command == "unpack":
            return unpacked(case.session).encode()
        if case.command == "migrate":
            return migrated(case.session).encode()
        session = read_session(case.session)
        if case.command == "check":
            return f"{counts_line(session)}\n".encode()
        replay = Replay(session)
        return packed(replay) if case.command == "pack" else _report_of(replay, case.choices)
    except (BadLine, BadRecord, TooLarge) as error:
        return f"{error}\n".encode()


def _report_of(replay: Replay, has_choices: bool) -> bytes:
    """The report, with the choices of each query in one line."""
    if not has_choices:
        return "".join(f"{line}\n" for line in replay.report()).encode()
    lines = [said for said, _ in replay.event_lines()]
    for query in replay.queries:
        last = len(replay.replicas[query.event.replica or 0].applied) - 1
        lines.append(
            "|".join(
                replay.query_line(query, applied) for applied in range(query.applied, last + 1)
            )
        )
    return "".join(f"{line}\n" for line in lines + replay.last_lines()).encode()


def _shown(output: bytes) -> str:
    return output.decode("utf-8", "backslashreplace")


def example_faults() -> Iterator[str]:
    """The examples whose report is not the one that is worked out."""
    for file in sorted((TOP / "examples").glob("*.session")):
        report = file.with_suffix(".report").read_bytes().decode()
        try:
            replay = Replay(read_session(file.read_bytes()))
        except BadLine as error:
            if report != f"{error}\n":
                yield f"{file.name}: {error}"
            continue
        yield from (
            f"{file.name}: {it}"
            for it in differences(replay, report.removesuffix("\n").split("\n"))
        )


def unexplained(case: Case) -> Iterator[str]:
    """The answers of a case, or its bad line, that `tools/why.py` says nothing of."""
    if case.command in ("pack", "unpack"):
        return
    explanation = Explanation(case.session, case.command == "migrate")
    said = "\n".join(explanation.of_all())
    if explanation.bad and f"  {explanation.bad.word}: " not in said:
        yield f"{case.name}: {explanation.bad} is not explained"
    for event in explanation.replay.events if explanation.replay else ():
        if not event.answer or event.answer.word in ("applied", "set"):
            continue
        if f"  {event.answer}: " not in said:
            yield f"{case.name}: {event.said[0]} is not explained"


def test() -> int:
    """Prints what fails and how many cases there are; 1 where one fails."""
    cases = all_cases()
    wrong = [
        f"{case.name}: wanted\n{_shown(case.output)}worked out\n{_shown(output_of(case))}"
        for case in cases
        if output_of(case) != case.output
    ]
    wrong += [line for case in cases for line in unexplained(case)]
    wrong += example_faults()
    print(
        "\n".join(wrong)
        or f"{len(cases)} cases and all examples have the report that the definitions give"
    )
    return 1 if wrong else 0
