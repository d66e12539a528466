"""Runs of the program within a limit of time, with the memory that they took."""
import os
import select
import signal
import subprocess
from typing import NamedTuple, Sequence

from lib.places import built
from . import rules

SECONDS = 30  # of patience with one run
MEMORY = 200 << 20  # bytes that a run may take
Word = str | bytes


class Wrong(Exception):
    """Something that the rules do not allow: in a word or two what it is, and the whole of it."""

    def __init__(self, what: str, more: object = "") -> None:
        super().__init__(what, more)
        self.what, self.more = what, more

    def report(self) -> str:
        return f"{self.what}: {self.more}" if self.more else self.what


class Ran(NamedTuple):
    """How a run ended, what it printed and said, and the most bytes of memory that it took."""
    status: int
    printed: bytes
    said: bytes
    memory: int


def stream(data: bytes = b"") -> int:
    """A file in memory with these bytes, to be read from its beginning."""
    made = os.memfd_create("fuzz")
    os.write(made, data) if data else None
    os.lseek(made, 0, os.SEEK_SET)
    return made


def whole(descriptor: int) -> bytes:
    size = os.lseek(descriptor, 0, os.SEEK_END)
    return os.pread(descriptor, size, 0)


def run(words: Sequence[Word], data: bytes = b"", folder: str | None = None) -> Ran:
    """A run with these words and this input, in a folder; Wrong if it does not end by itself."""
    streams = stream(data), stream(), stream()
    try:
        process = subprocess.Popen(
            [os.path.abspath(built()), *words], stdin=streams[0], stdout=streams[1], stderr=streams[2], cwd=folder
        )
        is_ended = has_ended(process.pid)
        if not is_ended:
            process.kill()
        _, status, used = os.wait4(process.pid, 0)
        process.returncode = os.waitstatus_to_exitcode(status)
        if not is_ended:
            raise Wrong("it does not end", f"within {SECONDS} seconds")
        return Ran(process.returncode, whole(streams[1]), whole(streams[2]), used.ru_maxrss << 10)
    finally:
        for descriptor in streams:
            os.close(descriptor)


def has_ended(process: int) -> bool:
    """Whether a process ends within the limit."""
    descriptor = os.pidfd_open(process)
    try:
        return bool(select.select([descriptor], [], [], SECONDS)[0])
    finally:
        os.close(descriptor)


def wants_end(ran: Ran) -> None:
    """Wrong unless it ended as runs end, whatever it was given."""
    if ran.status < 0:
        raise Wrong("a signal ended it", f"{signal.Signals(-ran.status).name}, said {ran.said[:600]!r}")
    if ran.status > 3:
        raise Wrong("a status that no rule has", f"{ran.status}, said {ran.said[:600]!r}")
    # (what this process took counts for its children too, until they run another program)
    if ran.memory > MEMORY:
        raise Wrong("it takes too much memory", f"{ran.memory >> 20} MB")
    wrong = rules.wrong_said(ran.status, ran.said)
    if wrong:
        raise Wrong("not what is said of a fault", wrong)


def wants_answer(ran: Ran, wanted: tuple[int, str, str | None]) -> None:
    """Wrong unless status, output and first line of the errors are those of the model; none if words do not
    read, of which the rules fix no text."""
    status, printed, said = wanted
    first = ran.said.decode(errors="backslashreplace").partition("\n")[0]
    found = ran.status, ran.printed.decode(errors="backslashreplace"), None if said is None else first
    if said is None and not first.startswith(rules.MISTAKES):
        raise Wrong("not what is said of invalid arguments", first)
    if found != wanted:
        raise Wrong("not the model's answer", f"program {cut(found, wanted)!r}, model {cut(wanted, found)!r}")


def cut(one: tuple, other: tuple) -> tuple:
    """The parts of an answer, long ones from where they begin to differ."""
    parts = []
    for mine, its in zip(one, other):
        if isinstance(mine, str) and isinstance(its, str):
            at = next((at for at, pair in enumerate(zip(mine, its)) if pair[0] != pair[1]), min(len(mine), len(its)))
            begin = mine.rfind("\n", 0, at) + 1
            parts.append(mine[begin:begin + 300])
        else:
            parts.append(mine)
    return tuple(parts)
