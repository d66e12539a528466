"""The steps of tools/check: each prints a line with its result and its seconds."""
import subprocess
import time
from typing import Callable, NamedTuple

from lib.progress import Said
from lib.test.steps import Step

MOST = 40  # lines that are shown of a proof that failed


class Result(NamedTuple):
    is_good: bool
    text: str
    shown: list[str]  # what stands under the line of the step


class Steps:
    """Runs steps, and counts those that are good."""

    def __init__(self) -> None:
        self.passed = self.failed = 0

    def take(self, title: str, step: Callable[[], Result], is_verdict: bool = True) -> bool:
        """One step; what is no verdict is not counted."""
        print(f"{title}: ", end="", flush=True)
        began = time.monotonic()
        result = step()
        seconds = time.monotonic() - began
        print(f"{result.text}, in {seconds:.0f} seconds", *(f"  {line}" for line in result.shown), sep="\n", flush=True)
        if is_verdict:
            self.passed, self.failed = self.passed + result.is_good, self.failed + (not result.is_good)
        return result.is_good


def fault(text: str) -> Result:
    """Good if no fault is named."""
    return Result(not text, "failed" if text else "passed", text.splitlines())


def counted(words: list[str], folder: str) -> Result:
    """A tool whose last line counts; if something failed, all that it printed is shown."""
    lines: list[str] = []
    ran = Step(words, folder, lines.append)
    return Result(not ran.failed, ran.counts(), "".join(lines).splitlines() if ran.failed else [])


def proof(words: list[str], folder: str) -> Result:
    """A check whose last line says `logic=proved`."""
    said = Said()
    how = {"stdin": subprocess.DEVNULL, "stdout": subprocess.PIPE, "stderr": subprocess.STDOUT}
    with subprocess.Popen(words, cwd=folder, text=True, errors="replace", **how) as ran:
        for line in ran.stdout:
            said.write(line)
    last = next((line for line in reversed([*said.lines, said.part]) if line.strip()), "")
    if ran.returncode == 0 and "logic=proved" in last:
        return Result(True, "proved", [])
    return Result(False, "not proved", said.last(MOST))


def places(words: list[str], folder: str) -> Result:
    """A tool that names places to look at: all that it prints is shown, the last line as the result."""
    how = {"stdin": subprocess.DEVNULL, "stdout": subprocess.PIPE, "stderr": subprocess.STDOUT}
    ran = subprocess.run(words, cwd=folder, text=True, errors="replace", **how)
    *rows, last = ran.stdout.splitlines() or ["nothing was printed"]
    return Result(ran.returncode == 0, last, rows)
