"""Runs of the program over copies of database files, timed by the clock and in CPU time."""
import argparse
import os
import re
import resource
import shutil
import statistics
import subprocess
import sys
import tempfile
import time
from typing import Iterable, NamedTuple

from lib import setup
from lib.places import built


class Took(NamedTuple):
    """Seconds by the clock, and seconds of CPU time, which other work on the computer lengthens less; or, if
    those are counted, instructions, which do not depend on it."""
    clock: float
    processor: float
    instructions: int = 0

    def __sub__(self, other: "Took") -> "Took":
        return Took(*(mine - theirs for mine, theirs in zip(self, other)))

    def __truediv__(self, other: "Took") -> "Took":
        """By how much this is dearer, in each."""
        return Took(*(mine / theirs if theirs > 0 else float("nan") for mine, theirs in zip(self, other)))

    def each(self, count: int) -> "Took":
        """Microseconds, and thousands of instructions, of one of this many."""
        return Took(self.clock / count * 1e6, self.processor / count * 1e6, self.instructions / count / 1e3)

    def text(self) -> str:
        """What one takes, by `each`."""
        if counting:
            return f"{self.instructions:9.1f} thousand instructions"
        return f"{self.clock:9.1f} microseconds, {self.processor:9.1f} of CPU time"

    def ratio_text(self) -> str:
        return f"{self.instructions:5.2f}" if counting else f"{self.clock:5.2f}, of CPU time {self.processor:5.2f}"


# Whether instructions are counted, by valgrind, in place of times.
counting = False


def options(arguments: argparse.ArgumentParser) -> None:
    """The words that each bench takes."""
    arguments.add_argument("--runs", type=int, default=11)
    arguments.add_argument("--instructions", action="store_true")
    arguments.add_argument("--folder", default="/dev/shm")


def chosen(arguments: argparse.ArgumentParser, *needed: str) -> argparse.Namespace:
    """The words that were given, once what the bench needs is there; one run suffices to count instructions."""
    global counting
    given = arguments.parse_args()
    counting = given.instructions
    setup.needs(*needed, *["valgrind"] * counting)
    given.runs = 1 if counting else given.runs
    return given


def median(times: Iterable[Took]) -> Took:
    return Took(*map(statistics.median, zip(*times)))


def timed(
    words: list[str], data: bytes | None = None, path: str = os.devnull, is_silent: bool = False, **environment: str
) -> tuple[Took, int, bytes]:
    """What a finished process took, with its status and output; its input is these bytes, or a file. What it says on
    standard error is shown, unless it is to be silent."""
    with tempfile.TemporaryDirectory() as room, open(path, "rb") as file:
        log = f"{room}/log"
        words = [*(valgrind(log) if counting else []), *words]
        given = {"stdin": file} if data is None else {"input": data}
        given["stderr"] = subprocess.DEVNULL if is_silent else None
        before, started = resource.getrusage(resource.RUSAGE_CHILDREN), time.perf_counter()
        ran = subprocess.run(words, stdout=subprocess.PIPE, env={**os.environ, **environment}, **given)
        clock, after = time.perf_counter() - started, resource.getrusage(resource.RUSAGE_CHILDREN)
        instructions = counted_in(log) if counting else 0
    processor = after.ru_utime - before.ru_utime + after.ru_stime - before.ru_stime
    return Took(clock, processor, instructions), ran.returncode, ran.stdout


def valgrind(log: str) -> list[str]:
    """The words before a command whose instructions are counted."""
    tool = ["valgrind", "--tool=cachegrind", "--cache-sim=no"]
    return [*tool, "--cachegrind-out-file=/dev/null", f"--log-file={log}"]


def counted_in(log: str) -> int:
    """The instructions that valgrind's log has."""
    with open(log) as file:
        found = re.search(r"I\s+refs:\s+([\d,]+)", file.read())
    return int(found[1].replace(",", "")) if found else 0


MEASURED = re.compile(r"^(.+): (\d+) in (\d+) microseconds, (\d+) of CPU time$", re.M)


def library(words: list[str], **environment: str) -> dict[str, Took]:
    """What the works of a C program took, by their names, as it measures them itself; its instructions are those of all
    of them, with its start."""
    took, status, output = timed(words, **environment)
    if status:
        sys.exit(f"status {status} of {words}")
    return {
        name: Took(int(clock) / 1e6, int(processor) / 1e6, took.instructions)
        for name, _, clock, processor in MEASURED.findall(output.decode())
    }


class Program:
    """The program, which files of a folder are given to; each run works on a copy."""

    def __init__(self, folder: str, runs: int) -> None:
        self.program, self.folder, self.runs, self.copy = built(), folder, runs, f"{folder}/copy"

    def ours(self, words: list[str], text: str, command: str = "run", **environment: str) -> Took:
        """What one run of a script took."""
        took, status, _ = timed([self.program, command, *words], text.encode(), **environment)
        if status > 1:
            sys.exit(f"status {status} of {words}")
        return took

    def copied(self, file: str) -> str:
        for left in (self.copy, f"{self.copy}-wal", f"{self.copy}-shm"):
            if os.path.exists(left):
                os.remove(left)
        shutil.copy(file, self.copy)
        return self.copy

    def by_file(self, files: list[str], text: str) -> list[Took]:
        """What a script takes over each file, less an empty one: medians, all taken alternately."""
        took = {file: ([], []) for file in files}
        for _ in range(self.runs):
            for file in files:
                for typed, times in zip(("", text), took[file]):
                    times.append(self.ours(["--db", self.copied(file)], typed))
        return [median(whole) - median(nothing) for nothing, whole in took.values()]
