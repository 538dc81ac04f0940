"""Compares the sessions and reports of this folder with the cases crates/session_tests/data/example_NAME.case, which the gate
runs, and with what docs/SESSIONS.md shows of merge.session. Run it after a change of any of them; it prints what differs.
"""
import pathlib
import sys

here = pathlib.Path(__file__).resolve().parent
top = here.parent


def parts_of(case):
    """The session and the output of a case."""
    _, _, rest = case.read_text(encoding="utf-8").partition("--- session\n")
    session, _, output = rest.partition("--- output\n")
    return session, output


cases = {
    case.stem.removeprefix("example_"): parts_of(case)
    for case in (top / "crates/session_tests/data").glob("example_*.case")
}
files = {
    file.stem: tuple((here / f"{file.stem}.{end}").read_text(encoding="utf-8") for end in ("session", "report"))
    for file in here.glob("*.session")
}
wrong = [name for name in sorted(cases.keys() | files.keys()) if cases.get(name) != files.get(name)]
page = (top / "docs/SESSIONS.md").read_text(encoding="utf-8")
wrong += [f"docs/SESSIONS.md: {line}" for text in files["merge"] for line in text.splitlines() if line not in page]
print("\n".join(f"differs: {name}" for name in wrong) or f"{len(files)} sessions and their reports are those of the cases")
sys.exit(1 if wrong else 0)
