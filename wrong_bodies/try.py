"""Tries the wrong bodies of crates in a clone of the last commit, and rewrites README.md's rows. See try.sh."""
import functools
import glob
import os
import re
import shutil
import subprocess
import sys
import tempfile
import threading
from concurrent.futures import ThreadPoolExecutor

HERE = os.path.dirname(os.path.abspath(__file__))
ROOT = os.path.dirname(HERE)
PAGE = f"{HERE}/README.md"
HEAD = "| Crate | Wrong body | Call | What refuses it | Refused at |\n|---|---|---|---|---|\n"


def git(*words):
    ran = subprocess.run(["git", "-C", ROOT, *words], capture_output=True, text=True)
    return ran.stdout.strip() if ran.returncode == 0 else None


class Edit:
    """A wrong body. Its file's lines `# call:` and `# clause:` name the public call that it turns, and what refuses it."""

    def __init__(self, path):
        self.path, self.name = path, os.path.basename(path)[: -len(".edit")]
        self.crate = path.split("/")[-3 if path.endswith(f"/must-fail/{self.name}.edit") else -2]
        self.in_gate = "/must-fail/" in path
        with open(path, encoding="utf-8") as it:
            self.lines = it.read().split("\n")

    def said(self, word):
        return next((it[len(word) + 4 :].strip() for it in self.lines if it.startswith(f"# {word}: ")), "")


def body_of(lines):
    return [it.strip() for it in lines if it.startswith(("file: ", "old: ", "new:"))]


def edits_in(root, crate="*"):
    found = [*glob.glob(f"{root}/crates/{crate}/must-fail/*.edit"), *glob.glob(f"{root}/wrong_bodies/{crate}/*.edit")]
    return sorted(map(Edit, found), key=lambda it: (it.crate, it.name))


def crates_below(name):
    """The crate, and those of the repository that it stands on."""
    with open(f"{ROOT}/crates.txt", encoding="utf-8") as it:
        rows = [re.sub(r"#.*", "", line).split(":") for line in it]
    deps = {row[0].split()[0]: row[1].split() for row in rows if len(row) == 2 and row[0].strip()}
    found, left = [], [name]
    while left:
        it = left.pop()
        if it in deps and it not in found:
            found.append(it)
            left += deps[it]
    return found


@functools.lru_cache(maxsize=None)
def is_crate_as_at(commit, crate):
    parts = [f"crates/{it}/{part}" for it in crates_below(crate) for part in ("src", "specs", "proofs")]
    return git("diff", "--quiet", commit, "HEAD", "--", *parts) is not None


@functools.lru_cache(maxsize=None)
def body_at(commit, crate, name):
    texts = [git("show", f"{commit}:{it}/{crate}{of}/{name}.edit") for it, of in (("crates", "/must-fail"), ("wrong_bodies", ""))]
    return body_of(next((it for it in texts if it), "").split("\n"))


def is_as_at(commit, edit):
    """Whether the edit, its crate and those below it are as they were at the commit."""
    return is_crate_as_at(commit, edit.crate) and body_at(commit, edit.crate, edit.name) == body_of(edit.lines)


def rows_of_page():
    """What the page says of each edit: what refused it, and the commit."""
    rows = {}
    if os.path.exists(PAGE):
        with open(PAGE, encoding="utf-8") as it:
            for line in it:
                cells = [cell.strip() for cell in line.strip().strip("|").split(" | ")]
                if line.startswith("| `") and len(cells) == 5:
                    commit = re.search(r"[0-9a-f]{7,40}", cells[4])
                    rows[cells[0].strip("`"), cells[1].rstrip("*").replace(" ", "_")] = (cells[3], commit and commit[0])
    return rows


def write_page(rows):
    """Puts the rows in the place of the page's table. A star marks what the gate tries, too."""
    lines = []
    for edit in edits_in(ROOT):
        clause, commit = rows.get((edit.crate, edit.name), ("", None))
        state = "never" if not commit else commit if is_as_at(commit, edit) else f"{commit}, not since it changed"
        what = clause if clause.startswith("only ") else edit.said("clause") or clause
        cells = [f"`{edit.crate}`", edit.name.replace("_", " ") + "*" * edit.in_gate, edit.said("call"), what, state]
        lines.append("| " + " | ".join(cells) + " |\n")
    with open(PAGE, encoding="utf-8") as it:
        page = it.read()
    before, _, rest = page.partition(HEAD)
    after = re.sub(r"\A(\|.*\n)*", "", rest)
    with open(f"{PAGE}.new", "w", encoding="utf-8") as it:
        it.write(before + HEAD + "".join(lines) + after)
    os.replace(f"{PAGE}.new", PAGE)


def refusal(clone, crate, told):
    """The function and the clause that the prover names, as it says them."""
    weak = re.match(r", as it must be \((only .*?)[,:]", told)
    at = re.search(r"(src/\S+?):(\d+):\d+: (?:error: )?(.*)", told)
    if weak or not at or not os.path.isfile(f"{clone}/crates/{crate}/{at[1]}"):
        return weak[1].replace("|", "/") if weak else ""
    with open(f"{clone}/crates/{crate}/{at[1]}", encoding="utf-8") as it:
        above = it.read().split("\n")[: int(at[2])]
    function = next((found[1] for it in reversed(above) for found in [re.search(r"\bfn (\w+)", it)] if found), "")
    clauses = [it for it in re.findall(r"\(`([^`|]+)`\)", at[3])] or [at[3][:60].replace("|", "/")]
    return ", ".join(filter(None, [f"`{function}`" if function else "", f"`{clauses[0]}`"]))


def tried(clone, crate):
    """What each edit of the crate came to, by its name: a word, and what rt says."""
    how = {"cwd": clone, "stdout": subprocess.PIPE, "stderr": subprocess.STDOUT, "text": True, "errors": "replace"}
    ran = subprocess.run(["rt", "must-fail", crate], **how)
    found = {}
    for line in ran.stdout.split("\n"):
        of = re.match(r"(?:rt: )?must-fail (\w+)/([\w.-]+)\.edit: (refused|NOT REFUSED|BAD EDIT|NOT TRIED)(.*)", line)
        if of and of[1] == crate:
            found[of[2]] = (of[3], of[4])
    if not found:
        print("\n".join(ran.stdout.rstrip().split("\n")[-8:]))
    return found


def main(names):
    commit, room, writing, counts = git("rev-parse", "--short", "HEAD"), tempfile.mkdtemp(), threading.Lock(), {}
    clone = f"{room}/clone"
    try:
        subprocess.run(["git", "clone", "-q", ROOT, clone], check=True)
        every = edits_in(clone)
        crates = names or sorted({it.crate for it in every})
        unknown = [it for it in crates if all(edit.crate != it for edit in every)]
        if unknown:
            sys.exit(f"the last commit has no wrong bodies of {' '.join(unknown)}")
        if git("status", "--porcelain", "--", "crates", "crates.txt", "wrong_bodies/*/*.edit"):
            print("note: what is not committed is not tried")
        for edit in every:
            if edit.crate in crates and not edit.in_gate:
                os.makedirs(f"{clone}/crates/{edit.crate}/must-fail", exist_ok=True)
                shutil.copy(edit.path, f"{clone}/crates/{edit.crate}/must-fail")

        def one(crate):
            found = tried(clone, crate)
            with writing:
                rows, refused = rows_of_page(), 0
                for edit in (it for it in every if it.crate == crate):
                    kind, told = found.get(edit.name, ("NOT TRIED", ": its crate was not proved, or the run was cut off"))
                    counts[kind] = counts.get(kind, 0) + 1
                    if kind == "refused":
                        said, clause = refusal(clone, crate, told), edit.said("clause")
                        rows[crate, edit.name] = (said, commit)
                        if clause and said.split(",")[0] not in clause:
                            print(f"{crate}/{edit.name}: refused by {said or told}, and not as its line says")
                        refused += 1
                        continue
                    print(f"{crate}/{edit.name}: {kind}{told}")
                    if kind != "NOT TRIED":
                        rows.pop((crate, edit.name), None)
                write_page(rows)
                print(f"{crate}: {refused} refused", flush=True)

        jobs = os.environ.get("RT_JOBS", "")
        with ThreadPoolExecutor(int(jobs) if jobs.isdigit() and int(jobs) else len(os.sched_getaffinity(0))) as pool:
            list(pool.map(one, crates))
    finally:
        shutil.rmtree(room, ignore_errors=True)
    print("; ".join(f"{count} {kind.lower()}" for kind, count in sorted(counts.items())) + f"; at {commit}")
    return 0 if set(counts) <= {"refused"} else 1


if __name__ == "__main__":
    if sys.argv[1:] == ["--rows"]:
        sys.exit(write_page(rows_of_page()))
    sys.exit(main(sys.argv[1:]))
