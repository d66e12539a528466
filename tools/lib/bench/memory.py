"""Memory of processes: the most that one had at a time, and what one holds now."""
import subprocess
import sys
from typing import NamedTuple

from lib.bench.timing import Took
from lib.places import compiled


class Run(NamedTuple):
    """What a finished process took, and the most bytes of memory that it had at a time."""
    took: Took
    most: int


class Peak:
    """Runs commands by tools/lib/bench/peak.c, since what the system reports of a child of Python is at least what
    Python has."""

    def __init__(self, folder: str) -> None:
        self.folder, self.program = folder, compiled("peak", folder)

    def of(self, words: list[str], text: str = "", most_status: int = 1) -> Run:
        """One run of a command over this standard input; its status is to be at most this."""
        note, typed = f"{self.folder}/note", f"{self.folder}/typed"
        with open(typed, "w") as file:
            file.write(text)
        with open(typed) as file:
            ran = subprocess.run([self.program, note, *words], stdin=file, stdout=subprocess.DEVNULL)
        if ran.returncode > most_status:
            sys.exit(f"status {ran.returncode} of {words}")
        with open(note) as file:
            return run_in(file.read())


def run_in(note: str) -> Run:
    """The run that a note of peak.c has."""
    kilobytes, clock, processor = map(int, note.split())
    return Run(Took(clock / 1e6, processor / 1e6), kilobytes * 1024)


def least(runs: list[Run]) -> Run:
    """What other work on the computer lengthened least, and the least memory."""
    took = [run.took for run in runs]
    return Run(Took(min(it.clock for it in took), min(it.processor for it in took)), min(run.most for run in runs))


def status_of(process: int, field: str) -> int:
    """The bytes of a field in KB of /proc/PID/status: VmRSS, what it holds now, or VmHWM, the most that it had."""
    with open(f"/proc/{process}/status") as file:
        return bytes_in(file.read(), field)


def bytes_in(status: str, field: str) -> int:
    """The bytes of a field of such a file; 0 if it has none, as that of a process that ended."""
    lines = [line.split() for line in status.splitlines() if line.startswith(f"{field}:")]
    return int(lines[0][1]) * 1024 if lines else 0


def forget_peak(process: int) -> None:
    """From now on the most that a process had is what it has now."""
    with open(f"/proc/{process}/clear_refs", "w") as file:
        file.write("5")


def megabytes(count: int) -> str:
    return f"{count / 1e6:.1f} MB"
