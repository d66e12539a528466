"""One step of a test: a tool whose last line says how many of its checks passed and how many failed."""
import collections
import os
import re
import subprocess
import time
from typing import Callable

COUNTS = re.compile(r"(\d+) passed, (\d+) failed")
# a line that says of one check that it failed, as tools/edits, tools/crate-tests and lib/tally.py write it
FAILURE = re.compile(r"\S.*: (FAILED\b.*|no(, but .*)?)")
# so many lines of a step are said again
MOST = 20


class Step:
    """A tool that ran in a folder. `heard` is given each line but the counts, as it comes."""

    def __init__(
        self, words: list[str], folder: str, heard: Callable[[str], object], environment: dict[str, str] | None = None
    ) -> None:
        began, counts = time.monotonic(), None
        self.named, self.last = [], collections.deque(maxlen=MOST)
        how = {
            "stdin": subprocess.DEVNULL, "stdout": subprocess.PIPE, "stderr": subprocess.STDOUT, "text": True,
            "errors": "replace",
        }
        how["env"] = {**os.environ, **(environment or {})}
        with subprocess.Popen(words, cwd=folder, **how) as ran:
            for line in ran.stdout:
                found = COUNTS.fullmatch(line.strip())
                counts = found or counts
                if not found:
                    self.keep(line)
                    heard(line)
        self.passed, self.failed = map(int, counts.groups()) if counts else (0, 1)
        self.failed += ran.returncode != 0 and self.failed == 0
        self.seconds = time.monotonic() - began

    def keep(self, line: str) -> None:
        self.last.append(line.rstrip())
        if FAILURE.fullmatch(line.rstrip()) and len(self.named) < MOST:
            self.named.append(line.rstrip())

    def failures(self) -> list[str]:
        """Of a step that failed the lines that name what failed, or if there is none the last that it printed."""
        return (self.named or [*self.last]) if self.failed else []

    def counts(self) -> str:
        return f"{self.passed} passed, {self.failed} failed"
