"""The stored runs of a program, and the names of tests."""
import os
import subprocess
from typing import NamedTuple

from lib.files import bytes_of

# Beside a table of the folder `cases`, as `rt try --cases` reads them: its words, one a line, and its output.
WORDS, OUTPUT = ".args", ".stdout"


class Run(NamedTuple):
    """What a program is given, and how it has to end."""
    title: str
    words: list[str]
    data: bytes
    output: bytes
    status: int


def part_of(path: str) -> bytes:
    """A file of a run, empty if there is none."""
    return bytes_of(path) if os.path.isfile(path) else b""


def runs_of(crate: str) -> list[Run]:
    """The run that stands beside the sources of a crate, in this folder, and one for each table of its `cases`."""
    name, cases = os.path.basename(crate), f"{crate}/cases"
    words, status = part_of(f"{crate}/args").decode().splitlines(), int(part_of(f"{crate}/status") or 0)
    runs = [Run(name, words, part_of(f"{crate}/stdin"), part_of(f"{crate}/stdout"), status)]
    for table in sorted(os.listdir(cases)) if os.path.isdir(cases) else []:
        if not table.endswith((WORDS, OUTPUT)):
            words = part_of(f"{cases}/{table}{WORDS}").decode().splitlines()
            data, output = part_of(f"{cases}/{table}"), part_of(f"{cases}/{table}{OUTPUT}")
            runs.append(Run(f"{name} {table}", words, data, output, 0))
    return runs


def tests_of(executable: str) -> list[str]:
    """The names of the tests in a crate's executable."""
    listed = subprocess.run([executable, "--list"], capture_output=True, text=True, check=True).stdout
    return [line.removesuffix(": test") for line in listed.splitlines() if line.endswith(": test")]
