"""How Chromium shows a page, if it is installed: what it has read, and whether all of it fits into a window."""
import html
import json
import os
import re
import shutil
import subprocess
import tempfile
from typing import NamedTuple

NAMES = ("chromium", "chromium-browser", "google-chrome")
WIDTHS = (420, 1150)  # of a phone, and of a screen
SECONDS = 120
# Each frame is a window of its own to the page in it. The page has no script: this one asks from outside.
MEASURING = """<!doctype html><meta charset="utf-8"><pre></pre><script>
const page = PAGE, widths = WIDTHS, found = {};
const isHidden = it => it.textContent.trim() && !it.getClientRects().length;
for (const width of widths) {
    const frame = document.createElement("iframe");
    frame.style = `width: ${width}px; height: 900px; border: 0`;
    frame.onload = () => {
        const root = frame.contentDocument.documentElement;
        const texts = [...root.querySelectorAll("h1, h2, p, li, td")];
        found[width] = {
            read: root.outerHTML, most: root.scrollWidth, hidden: texts.filter(isHidden).map(it => it.textContent),
        };
        document.querySelector("pre").textContent = JSON.stringify(found);
    };
    frame.srcdoc = page;
    document.body.append(frame);
}
</script>"""


class Shown(NamedTuple):
    """A page in a window: what the browser has read, how wide it is, and which of its texts do not show."""
    read: str
    most: int
    hidden: list[str]


class BadBrowser(Exception):
    """The browser shows nothing."""


def installed() -> str | None:
    return next(filter(None, map(shutil.which, NAMES)), None)


def shown(browser: str, text: str) -> dict[int, Shown]:
    """A page in a window of each width."""
    with tempfile.TemporaryDirectory() as folder:
        with open(f"{folder}/page.html", "w", encoding="utf-8") as page:
            # (so that no text of the page ends the script)
            words = json.dumps(text).replace("<", "\\u003c")
            page.write(MEASURING.replace("WIDTHS", json.dumps(WIDTHS)).replace("PAGE", words))
        words = [browser, "--headless", "--disable-gpu", *["--no-sandbox"] * (os.geteuid() == 0), "--hide-scrollbars"]
        words += [f"--user-data-dir={folder}/user", "--virtual-time-budget=10000", "--dump-dom"]
        how = {"stdin": subprocess.DEVNULL, "stdout": subprocess.PIPE, "stderr": subprocess.PIPE, "timeout": SECONDS}
        ran = subprocess.run([*words, f"file://{folder}/page.html"], **how)
    said = re.search("<pre>(.+)</pre>", ran.stdout.decode(), re.DOTALL)
    if said is None:
        raise BadBrowser(f"{browser}: status {ran.returncode}, {ran.stderr.decode(errors='replace')[-300:]}")
    return {int(width): Shown(**found) for width, found in json.loads(html.unescape(said[1])).items()}
