"""Installations: what packaging/files lists, in a folder, and nothing else."""
import os
import subprocess
from typing import NamedTuple

from lib.files import bytes_of
from lib.places import TOP


class Made(NamedTuple):
    """How make ended, and what it printed."""
    status: int
    printed: str
    said: str


def made(*words: str) -> Made:
    """make with these words; a package has the same bytes whenever it is made."""
    ran = subprocess.run(
        ["make", "-s", "-C", TOP, *words], stdin=subprocess.DEVNULL, capture_output=True, text=True,
        env={**os.environ, "SOURCE_DATE_EPOCH": "1700000000"},
    )
    return Made(ran.returncode, ran.stdout.strip(), ran.stderr.strip())


def listed() -> dict[str, int]:
    """The targets of packaging/files with their modes."""
    with open(f"{TOP}/packaging/files", encoding="utf-8") as file:
        lines = [line.split() for line in file if line.strip() and not line.startswith("#")]
    return {to: int(mode, 8) for mode, _, to in lines}


def tree(root: str) -> dict[str, int]:
    """The files below a folder with their modes."""
    found = {}
    for folder, _, names in os.walk(root):
        for name in names:
            path = f"{folder}/{name}"
            found[os.path.relpath(path, root)] = os.stat(path).st_mode & 0o7777
    return found


def runs(program: str) -> bool:
    """Whether the installed program answers its stored question as it has to."""
    crate = f"{TOP}/crates/opcmds"
    words = bytes_of(f"{crate}/args").decode().splitlines()
    ran = subprocess.run([program, *words], input=bytes_of(f"{crate}/stdin"), capture_output=True)
    return ran.stdout == bytes_of(f"{crate}/stdout")
