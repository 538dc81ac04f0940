"""Tries pages in a headless Chromium: no error in the console, no text over another, no page too wide."""
from __future__ import annotations

import html
import json
import pathlib
import re
import shutil
import subprocess
import tempfile

WIDTHS = (1200, 480)
MOST_SECONDS = 500
MEASURE = pathlib.Path(__file__).with_name("measure.js")


def _frames(pages: list[pathlib.Path]) -> str:
    """A page that has each page in a frame of each width."""
    frames = [
        f'<iframe title="{page.name}" width="{width}" height="900" style="border:0" '
        f'srcdoc="{html.escape(page.read_text(encoding="utf-8"))}"></iframe>'
        for page in pages
        for width in WIDTHS
    ]
    script = f"<script>{MEASURE.read_text()}</script>"
    return f'<!doctype html><meta charset="utf-8"><body>{"".join(frames)}{script}</body>'


def _run(browser: str, pages: list[pathlib.Path]) -> tuple[str, str]:
    """The document after it is measured, and what the browser writes to its log."""
    with tempfile.TemporaryDirectory(ignore_cleanup_errors=True) as folder:
        frames = pathlib.Path(folder) / "frames.html"
        frames.write_text(_frames(pages), encoding="utf-8")
        words = [
            browser,
            "--headless",
            "--no-sandbox",
            "--disable-gpu",
            "--enable-logging=stderr",
            f"--user-data-dir={folder}/user",
            "--dump-dom",
            frames.as_uri(),
        ]
        run = subprocess.run(
            words, capture_output=True, text=True, timeout=MOST_SECONDS, check=False
        )
    return run.stdout, run.stderr


def faults_of(pages: list[pathlib.Path]) -> list[str]:
    """What is wrong with the pages."""
    browser = (
        shutil.which("chromium")
        or shutil.which("chromium-browser")
        or shutil.which("google-chrome")
    )
    if not browser:
        return ["there is no Chromium here"]
    try:
        document, log = _run(browser, pages)
    except subprocess.TimeoutExpired:
        return [f"the browser had not ended after {MOST_SECONDS} seconds"]
    faults = [f"the console says: {line}" for line in re.findall(r".*CONSOLE.*", log)]
    found = re.search(r"<output>(.*?)</output>", document, re.S)
    measured = json.loads(html.unescape(found[1])) if found else []
    if len(measured) != len(pages) * len(WIDTHS):
        faults.append("the pages were not measured")
    for it in measured:
        where = f"{it['name']} at {it['width']} pixels"
        faults += [f"{where}: one text is over another: {pair}" for pair in it["over"]]
        if it["page"] > it["width"]:
            faults.append(f"{where}: it is {it['page']} pixels wide")
        if not it["texts"]:
            faults.append(f"{where}: it has no text")
    return faults


def try_pages(pages: list[pathlib.Path]) -> int:
    """Prints the faults of the pages; 1 where there is one."""
    faults = faults_of(pages)
    widths = " and ".join(map(str, WIDTHS))
    print(
        "\n".join(faults)
        or f"{len(pages)} pages at {widths} pixels: no error, and no text over another"
    )
    return 1 if faults else 0
