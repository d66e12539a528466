"""How far a build is, on standard error: one line that is rewritten on a terminal, else a line now and then."""
import os
import re
import shutil
import sys
import threading
import time
from typing import TextIO

from lib.watcher import Watcher

CHECKED = re.compile(r"checked .*, (\d+) of (\d+)$")
# what a check says if nothing is wrong
USUAL = re.compile(
    r"\s*$|(fn|struct|trait|impl|enum) \S+: proved|(statements|library|logic|crate|by-macro|rt): ?"
    r"|(statements|library|logic|crate) "
)
EVERY = 30


class Said:
    """What the check of one crate prints, as rtlib writes it; follows the number of its functions. A build says none,
    but keeps what it proves in a folder as it goes."""

    def __init__(self, kept: str | None = None) -> None:
        self.lines, self.part, self.done, self.all, self.kept = [], "", 0, 0, kept

    def write(self, text: str) -> None:
        *whole, self.part = (self.part + text).split("\n")
        for line in whole:
            found = CHECKED.match(line)
            if found:
                self.done, self.all = int(found[1]), int(found[2])
            else:
                self.lines.append(line)

    def flush(self) -> None:
        pass

    def so_far(self) -> str:
        """How many functions are proved, as far as that is known."""
        if self.all:
            return f"{self.done} of {self.all} functions"
        kept = (name for _, _, names in os.walk(self.kept or "") for name in names)
        proved = sum(name.endswith(".Met.oantt") for name in kept)
        return f"{proved} functions" if proved else ""

    def last(self, number: int) -> list[str]:
        """The last lines that name something wrong, or else the last ones."""
        lines = [*self.lines, self.part]
        return [line[:300] for line in lines if not USUAL.match(line)][-number:] or lines[-number:]


class Clock(Watcher):
    """A line on standard error that says what goes on, and since when."""

    def __init__(self, what: str, out: TextIO = sys.stderr) -> None:
        super().__init__()
        self.what, self.now, self.out = what, "", out
        self.started, self.shown = time.monotonic(), 0
        self.turn = threading.Lock()
        self.is_terminal = out.isatty()

    def goes_on(self, what: str) -> None:
        self.now = what
        self.show()

    def __exit__(self, *_: object) -> None:
        super().__exit__(*_)
        if self.is_terminal:
            self.write("\r" + " " * self.shown + "\r")

    def watch(self) -> None:
        while not self.ended.wait(0.5 if self.is_terminal else EVERY):
            self.show()

    def minutes(self) -> str:
        minutes, seconds = divmod(int(time.monotonic() - self.started), 60)
        return f"{minutes}:{seconds:02} minutes"

    def line(self) -> str:
        return f"{self.what}: {self.minutes()}; now {self.now}"

    def show(self) -> None:
        text = self.line()
        if self.is_terminal:
            room = shutil.get_terminal_size().columns - 1
            text = text if len(text) <= room else text[: room - 3] + "..."
            self.write("\r" + text.ljust(self.shown))
            self.shown = len(text)
        else:
            self.write(text + "\n")

    def write(self, text: str) -> None:
        self.out.write(text)
        self.out.flush()


class Progress(Clock):
    """A clock that says how many of some crates are proved, and how far those that are being proved."""

    def __init__(self, what: str, names: list[str], out: TextIO = sys.stderr) -> None:
        super().__init__(what, out)
        self.names, self.ready, self.running = names, set(), {}

    def begins(self, name: str, said: Said) -> None:
        with self.turn:
            self.running[name] = said
        self.show()

    def ends(self, name: str, is_well: bool) -> None:
        with self.turn:
            self.running.pop(name, None)
            self.ready |= {name} if is_well else set()
        self.show()

    def line(self) -> str:
        with self.turn:
            running = [f"{name} {said.so_far()}".strip() for name, said in self.running.items()]
        proved = f"{len(self.ready)} of {len(self.names)} crates proved"
        return f"{self.what}: {proved}, {self.minutes()}; now {', '.join(running) or 'compiling and linking'}"
