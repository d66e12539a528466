"""A folder in which the program is run, and how its runs are judged."""
import contextlib
import os
import re
import shlex
import sqlite3
import subprocess
from typing import NamedTuple

from lib.escapes import unescaped
from lib.files import bytes_of
from lib.places import POLICY, TOP, built
from lib.rows import NoRow
from lib.tally import Tally
from .tables import BadTable, Check, checks_of

TABLES = f"{TOP}/examples/program"
SECONDS = 60  # of patience with one run


class Ran(NamedTuple):
    """How a run ended, what it printed and what it said."""
    status: int
    printed: bytes
    said: bytes


class Room:
    """A folder for the checks of one part, which stand in the order of their table and may need what earlier ones
    left."""

    def __init__(self, folder: str, tally: Tally) -> None:
        self.folder, self.tally = folder, tally
        self.values = {"room": folder, "top": TOP, "base": POLICY}

    def run(self, words: list[str | bytes], data: bytes = b"") -> Ran:
        """A run of the program with this input."""
        ran = subprocess.run([built(), *words], input=data, capture_output=True, timeout=SECONDS)
        return Ran(ran.returncode, ran.stdout, ran.stderr)

    def table(self, name: str) -> None:
        for check in checks_of(f"{TABLES}/{name}.runs", self.values):
            self.judge(check)

    def row(self, name: str, line: int) -> None:
        """Judges what stands in a line of a table, after all that stands before it, which is not counted. Under a title
        with rows of cells, the line of a row has one check, and each other line the checks of all rows."""
        checks = list(checks_of(f"{TABLES}/{name}.runs", self.values))
        chosen = [check for check in checks if line in check.at]
        if not chosen:
            raise NoRow(f"{name}.runs:{line}: nothing is run there")
        tally, self.tally = self.tally, Tally(is_silent=True)
        for check in checks[: checks.index(chosen[0])]:
            self.judge(check)
        self.tally.tell_before(f"{name}.runs:{line}")
        self.tally = tally
        for check in chosen:
            self.judge(check)

    def judge(self, check: Check) -> None:
        kind, _, rest = check.title.partition(" ")
        if kind == "file":
            with open(rest, "wb") as file:
                file.write(input_in(check))
        elif kind in ("link", "symlink"):
            new, _, old = rest.partition(" ")
            (os.link if kind == "link" else os.symlink)(old, new)
        elif check.texts("rows"):
            found = "".join(asked(*text.split(" ", 1)) for text in check.texts("rows"))
            self.counts(check, [] if found == lines_in(check, ">") else [f"found {found!r}"])
        elif check.texts("absent"):
            self.counts(check, [f"there is {path}" for path in check.texts("absent") if os.path.lexists(path)])
        elif check.texts("reads"):
            self.counts(check, faults_of_file(check, *check.texts("reads")[0].split(" ", 1)))
        else:
            self.judge_run(check)

    def judge_run(self, check: Check) -> None:
        """Counts how a run ends and, if something is said of it, what it prints."""
        for text in check.texts("made"):
            make(*text.split(" ", 1))
        ran = self.ran(check)
        self.counts(check, [*faults_of_end(check, ran), *faults_of_pattern(check, ran)])
        if check.texts(">", ">="):
            self.counts(check._replace(title=f"{check.title}: what is printed"), faults_of_printed(check, ran))

    def counts(self, check: Check, faults: list[str]) -> None:
        """Counts one check; what only makes ready is not counted, but all that follows would be wrong without it."""
        title = f"{check.place}: {check.title}"
        if not check.is_ready():
            self.tally.wants(title, not faults, "; ".join(faults))
        elif faults:
            raise RuntimeError(f"{title}: {'; '.join(faults)}")

    def ran(self, check: Check) -> Ran:
        """The run of a check, with its streams."""
        words = check.text("$")
        if words is None:
            raise BadTable(f"{check.place}: it says nothing of what is run")
        words = [built(), *map(unescaped, shlex.split(words))]
        source, target = check.text("<<"), check.text(">>")
        closed = "<&- " * (source == "closed") + ">&-" * (target == "closed")
        if closed:
            # as a shell closes them
            words = ["sh", "-c", f'exec "$0" "$@" {closed}', *words]
        with contextlib.ExitStack() as streams:
            how = {"stdout": subprocess.PIPE, "stderr": subprocess.PIPE, "timeout": SECONDS}
            if source in (None, "closed") or check.texts("<", "<-"):
                how["input"] = input_in(check)
            else:
                how["stdin"] = opened(streams, source, os.O_RDONLY)
            if target not in (None, "closed"):
                how["stdout"] = opened(streams, target, os.O_WRONLY)
            ran = subprocess.run(words, **how)
        return Ran(ran.returncode, ran.stdout or b"", ran.stderr)


def opened(streams: contextlib.ExitStack, path: str, flags: int) -> int:
    """A descriptor of a file, a device or a folder, as a shell hands it on."""
    made = os.open(path, flags)
    streams.callback(os.close, made)
    return made


def input_in(check: Check) -> bytes:
    """What a file has that the check's input begins with, and the lines after it."""
    source = check.text("<<")
    data = [bytes_of(source) if source not in (None, "closed") else b""]
    data += [unescaped(text) + b"\n" * (mark == "<") for mark, text in check.lines if mark in ("<", "<-")]
    return b"".join(data)


def lines_in(check: Check, mark: str) -> str:
    """The lines of a mark with their ends; a mark alone stands for no line at all."""
    lines = check.texts(mark)
    return "" if lines == [""] else "".join(f"{line}\n" for line in lines)


def faults_of_end(check: Check, ran: Ran) -> list[str]:
    """What is wrong with a run's status, and with what it says."""
    statuses = (check.text("status") or "0").split(" or ")
    faults = [] if str(ran.status) in statuses else [f"status {ran.status} and not {' or '.join(statuses)}"]
    said = ran.said.decode(errors="backslashreplace")
    if check.texts("!") == [""]:
        return faults if said else [*faults, "it says nothing"]
    wanted = lines_in(check, "!")
    return faults if said == wanted else [*faults, f"it says {said[:300]!r} and not {wanted!r}"]


def faults_of_pattern(check: Check, ran: Ran) -> list[str]:
    """What is wrong with what a run prints, by what is counted with its end."""
    printed, pattern, file = ran.printed.decode(errors="backslashreplace"), check.text("~"), check.text("~=")
    faults = []
    if pattern is not None and not re.search(pattern, printed, re.M):
        faults.append(f"it prints {printed[:300]!r}")
    if file is not None and ran.printed != bytes_of(file):
        faults.append(f"it prints {printed[:300]!r} and not what {file} has")
    return faults


def faults_of_printed(check: Check, ran: Ran) -> list[str]:
    file = check.text(">=")
    wanted = bytes_of(file) if file is not None else lines_in(check, ">").encode()
    return [] if ran.printed == wanted else [f"{ran.printed[:300]!r} and not {wanted[:300]!r}"]


def faults_of_file(check: Check, mode: str, path: str) -> list[str]:
    """What is wrong with the permissions of a file, and with what it has."""
    found = f"{os.stat(path).st_mode & 0o777:o}"
    read = Ran(0, bytes_of(path), b"")
    faults = [] if found == mode else [f"its permissions are {found}"]
    printed = faults_of_printed(check, read) if check.texts(">", ">=") else []
    return [*faults, *faults_of_pattern(check, read), *printed]


def make(path: str, statements: str) -> None:
    """A new database, made by these statements."""
    with contextlib.suppress(FileNotFoundError):
        os.remove(path)
    with contextlib.closing(sqlite3.connect(path)) as base:
        base.executescript(statements)


def asked(path: str, query: str) -> str:
    """The rows that a query gives, as Python's SQLite reads the file."""
    with contextlib.closing(sqlite3.connect(path)) as base:
        return "".join("|".join(map(str, row)) + "\n" for row in base.execute(query))
