"""What a run left in a database file."""
import contextlib
import hashlib
import os
import re
import shutil
import sqlite3
import tempfile
from typing import Callable, NamedTuple

from lib import files
from lib.fuzz import logs

Tables = dict[str, list[str]]
PARTS = ("", "-wal", "-shm", "-journal")
OPENED = (0, "", "")  # how an opening that is good ends
NO_DATABASE = "file is not a database"


class Held(NamedTuple):
    """The tables as another program reads them in a copy, or what is wrong with it; how the program ended that opened
    the file next; the tables after that, in the database file alone; and what the work looks at besides."""
    tables: Tables | str
    opened: files.Ran
    tables_then: Tables
    again: object = None


def parts(file: str) -> list[str]:
    """The files of a database that are there."""
    return [f"{file}{part}" for part in PARTS if os.path.exists(f"{file}{part}")]


def digest(file: str) -> bytes:
    """Of all its bytes, but for the random numbers of the log."""
    found = hashlib.sha256()
    for path in parts(file):
        with open(path, "rb") as part:
            data = part.read()
        if path.endswith("-wal"):
            data = logs.without_salts(data)
        found.update(f"{path.removeprefix(file)} {len(data)}\n".encode() + data)
    return found.digest()


def in_copy(file: str) -> Tables | str:
    """The tables of a copy, in which the log is played back; none if there is no file."""
    if not os.path.exists(file):
        return {}
    with tempfile.TemporaryDirectory(dir=os.path.dirname(file)) as room:
        for path in parts(file):
            # (what was in the memory of the process that ended is left out)
            if not path.endswith("-shm"):
                shutil.copy(path, f"{room}/copy{path.removeprefix(file)}")
        try:
            with contextlib.closing(sqlite3.connect(f"{room}/copy")) as base:
                base.execute("SELECT count(*) FROM sqlite_master").fetchall()
            return files.tables(f"{room}/copy")
        except sqlite3.Error as error:
            return str(error)


def opened_by_program(file: str) -> files.Ran:
    return files.script([], file, policy=False)


class Known:
    """What files hold, found once for all files of the same bytes: the next opening makes the same of each."""

    def __init__(
        self, opens: Callable[[str], files.Ran] = opened_by_program, looks: Callable[[str], object] | None = None
    ) -> None:
        self.opens, self.looks, self.found = opens, looks, {}

    def held(self, file: str) -> Held:
        bytes_of = digest(file)
        if bytes_of not in self.found:
            tables, opened = in_copy(file), self.opens(file)
            self.found[bytes_of] = Held(tables, opened, files.tables_alone(file), self.looks and self.looks(file))
        return self.found[bytes_of]


def timeless(tables: Tables | str) -> Tables | str:
    """The tables without the moments of the account, if they are the clock's."""
    if isinstance(tables, str) or "account" not in tables:
        return tables
    return {**tables, "account": [re.sub(r"^\((\d+), \d+", r"(\1", row) for row in tables["account"]]}


def held_in(file: str) -> Tables:
    return timeless(files.tables(file))
