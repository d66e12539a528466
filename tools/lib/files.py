"""Runs of the program over a database file, and what the file holds."""
import contextlib
import os
import sqlite3
import subprocess
from typing import Iterable

from lib.places import POLICY, built

Ran = tuple[int, str, str]  # a run's status, what it prints, and what it says
# what a run says that a call of this kind was refused
WANT = {"alloc": "E90 NoMemory\n", "read": "E91 Store\n", "write": "E91 Store\n", "sync": "E91 Store\n"}


def bytes_of(path: str) -> bytes:
    with open(path, "rb") as file:
        return file.read()


def run(words: list[str], data: str, faults: dict[str, str] | None = None) -> Ran:
    """The status of one run, and what it prints and says."""
    ran = subprocess.run(
        [built(), *words], input=data.encode(), capture_output=True, env={**os.environ, **(faults or {})}, timeout=60
    )
    return ran.returncode, ran.stdout.decode(), ran.stderr.decode()


def script_words(file: str, policy: bool) -> list[str]:
    return ["run", "--db", file, *(["--policy", POLICY] if policy else [])]


def script(lines: Iterable[str], file: str, faults: dict[str, str] | None = None, policy: bool = True) -> Ran:
    return run(script_words(file, policy), "".join(lines), faults)


def tables(file: str, more: str = "") -> dict[str, list[str]]:
    """All rows of all tables, as any program reads them."""
    with contextlib.closing(sqlite3.connect(f"file:{file}?mode=ro{more}", uri=True)) as base:
        names = [name for (name,) in base.execute("SELECT name FROM sqlite_master WHERE type = 'table' ORDER BY name")]
        return {name: sorted(map(repr, base.execute(f"SELECT * FROM {name}"))) for name in names}


def tables_alone(file: str) -> dict[str, list[str]]:
    """The same of the database file alone, as in a copy without its log."""
    return tables(file, "&immutable=1")
