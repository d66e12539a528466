"""The ledger of must-fail edits: tools/lib/edits/refused.txt, which only tools/edits writes.

A line names an edit that the prover refused, with the digest of all that this verdict depends on (digest.py), the
seconds of CPU time that it took beside the fixed cost of its crate's checks, and when it was last tried. An edit
whose line has the digest of today need not be tried again. So that a wrong line does not stay for ever, each run tries
a sample of the lines."""
import contextlib
import fcntl
import os
import random
import re
import time
from typing import Iterable, Iterator, NamedTuple

FILE = "tools/lib/edits/refused.txt"
HEAD = """\
# The must-fail edits that the prover refused: the edit, the digest of all that this depends on, seconds of CPU time,
# and when it was last tried (UTC). Only tools/edits writes this file; docs/TESTING.md says how.
"""
ROW = re.compile(r"(\w+/[A-Za-z0-9_.-]+\.edit) ([0-9a-f]{32}) (\d{1,6}) (\d{4}-\d\d-\d\dT\d\d:\d\d:\d\dZ)")
MOMENT = "%Y-%m-%dT%H:%M:%SZ"
# seconds of CPU time that the checks of a crate take whatever edits they try: its libraries and its front end
FIXED = 25


class BadLedger(Exception):
    pass


class Line(NamedTuple):
    digest: str
    seconds: int
    moment: str


def moment(seconds: float) -> str:
    return time.strftime(MOMENT, time.gmtime(seconds))


def lines_in(text: str) -> dict[str, Line]:
    """The lines of a ledger by their edits."""
    found = {}
    for number, row in enumerate(text.splitlines(), 1):
        if not row or row.startswith("#"):
            continue
        parts = ROW.fullmatch(row)
        with contextlib.suppress(ValueError):
            time.strptime(parts[4] if parts else "", MOMENT)
            if parts[1] not in found:
                found[parts[1]] = Line(parts[2], int(parts[3]), parts[4])
                continue
        raise BadLedger(
            f"{FILE}:{number}: not a line of the ledger, or a second one of its edit; remove it, and the edit is tried"
            f" again: {row[:100]}"
        )
    return found


class Ledger:
    """The lines of a file, and what this run changes of them: a line anew, or None for one that goes."""

    def __init__(self, file: str, now: float) -> None:
        self.file, self.now, self.changes = file, moment(now), {}
        self.lines = self.read()

    def read(self) -> dict[str, Line]:
        if not os.path.isfile(self.file):
            return {}
        with open(self.file, encoding="utf-8", errors="replace") as file:
            return lines_in(file.read())

    def holds(self, name: str, digest: str) -> bool:
        return name in self.lines and self.lines[name].digest == digest

    def note(self, name: str, digest: str, seconds: float) -> None:
        self.lines[name] = self.changes[name] = Line(digest, max(1, round(seconds)), self.now)

    def strike(self, name: str) -> None:
        self.lines.pop(name, None)
        self.changes[name] = None

    def keep(self, names: Iterable[str]) -> None:
        """Removes the lines of all other edits."""
        for name in self.lines.keys() - {*names}:
            self.strike(name)

    def write(self) -> None:
        """In one step, so that a run that is cut off leaves the old file or the new one. What another run wrote
        meanwhile of other edits stays."""
        with held(os.path.dirname(self.file) or "."):
            lines = {**self.read(), **self.changes}
            with open(f"{self.file}.new", "w", encoding="utf-8") as out:
                out.write(HEAD)
                out.writelines(
                    f"{name} {line.digest} {line.seconds} {line.moment}\n"
                    for name, line in sorted(lines.items()) if line
                )
            os.replace(f"{self.file}.new", self.file)


@contextlib.contextmanager
def held(folder: str) -> Iterator[None]:
    """While this holds, no other run holds the same folder."""
    lock = os.open(folder, os.O_RDONLY)
    try:
        fcntl.flock(lock, fcntl.LOCK_EX)
        yield
    finally:
        os.close(lock)


class Sample:
    """The lines to be tried once more, of those that hold: as many as take these seconds of CPU time.

    Most of the time goes to those that were not tried for the longest, so that each has its turn. A moment that is
    still to come counts as never. Where moments are the same the dice decide, crate by crate, since a crate's checks
    have a fixed cost. A quarter of the time goes to lines that the dice alone choose: a line with a false moment is met
    by them, too."""

    def __init__(self, lines: dict[str, Line], busy: Iterable[str], seconds: float, seed: int, now: float) -> None:
        self.lines, self.busy, self.now = lines, {*busy}, moment(now)
        self.dice, self.chosen, self.left, self.most = random.Random(seed), [], seconds, seconds / 4
        self.take(self.shuffled(), seconds / 4)
        self.take(sorted(self.shuffled(), key=self.last_tried), self.left)

    def shuffled(self) -> list[str]:
        """The lines as the dice put them, those of a crate together."""
        crates = sorted({crate_of(name) for name in self.lines})
        self.dice.shuffle(crates)
        place = {name: at for at, name in enumerate(crates)}
        return sorted(sorted(self.lines), key=lambda name: (place[crate_of(name)], self.dice.random()))

    def last_tried(self, name: str) -> str:
        return self.lines[name].moment if self.lines[name].moment <= self.now else ""

    def cost(self, name: str) -> float:
        """What a line costs, which is no more than a quarter of the time whatever the line says."""
        return min(self.lines[name].seconds, self.most) + (0 if crate_of(name) in self.busy else FIXED)

    def take(self, names: Iterable[str], seconds: float) -> None:
        """Takes from the head of these while the seconds last, but one in any case, so that a dear one has its turn,
        too."""
        end = self.left - seconds
        is_first = True
        for name in (name for name in names if name not in self.chosen):
            cost = self.cost(name)
            if not is_first and self.left - cost < end:
                return
            self.chosen.append(name)
            self.busy.add(crate_of(name))
            self.left, is_first = self.left - cost, False


def crate_of(name: str) -> str:
    return name.partition("/")[0]
