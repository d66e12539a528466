"""What the inputs of databases and of services begin from: files that the program made once, and the model's state."""
import contextlib
import os
import shutil
import sqlite3
from typing import NamedTuple

from lib import older
from lib.model import files, scripts, tables
from lib.model.machine import State
from lib.model.steps import CLOCK, is_now
from lib.places import POLICY, built
from .runs import Wrong, cut, run

SCRIPT = """\
1 * JOBIN BACKUP JOB
2 * JOBIN PAYROLL JOB
3 * JOBIN CICS STC CICSPROD NONCANCEL
4 * JOBIN ANNA TSU
5 * ATTACH 0A80
6 * ATTACH 0A81
7 * ALLOCATE 0A80 PAYROLL
8 * ASK 07 MOUNT PAY01
9 * ASK 08 GO OR END
10 C2 R 08,GO
11 C2 L 'a line'
12 C2 M 0A81,VOL=PAY001
13 C2 MN JOBNAMES
14 C1 LOGON ANNA,ABC
15 C2 SE 'a word',USER=(ANNA)
16 C2 F CICS,STATUS
17 C2 P CICS
18 C2 LOGON SECADM,ABC
19 C1 FORCE PAYROLL
20 C3 D U
"""
PARTS = ("", "-wal", "-shm", "-journal")
LOGGED = 6  # transactions that the log of `logged` has


class Base(NamedTuple):
    """A folder with a file of each kind, and the model's state of all of them; `logged` has more log lines."""
    folder: str
    state: State
    schema: list[str]

    def file(self, name: str) -> str:
        return f"{self.folder}/{name}"


def base_state() -> State:
    state = State()
    with open(POLICY, "rb") as file:
        state.bootstrap(files.read(file.read()))
    scripts.run(state, SCRIPT.encode())
    return state


def made(folder: str) -> Base:
    """Makes the files: one that the program wrote, older ones of the same rows, and one with a log beside it."""
    state, file = base_state(), f"{folder}/plain"
    ran = run(["run", "--db", file, "--policy", POLICY], SCRIPT.encode())
    held = looked(file, folder)
    if ran.status != 1 or held.faults or tables.printed(held.rows) != tables.printed(tables.of_state(state)):
        raise Wrong("the file to begin with", (built(), ran, held))
    base = Base(folder, state, held.schema)
    for version in (1, 2):
        older.make(version, file, base.file(f"version-{version}"))
    for name in ("plain", "version-1", "version-2"):
        with contextlib.suppress(FileNotFoundError):
            os.remove(f"{base.file(name)}-shm")
    shutil.copy(file, f"{folder}/making")
    with contextlib.closing(sqlite3.connect(f"{folder}/making", isolation_level=None)) as writer:
        writer.execute("PRAGMA journal_mode = WAL")
        writer.execute("PRAGMA wal_autocheckpoint = 0")
        for number in range(LOGGED):
            writer.execute("INSERT INTO log (text) VALUES (?)", (f"line {number}",))
        copy(f"{folder}/making", base.file("logged"), ("", "-wal"))
    remove(f"{folder}/making")
    return base


def copy(old: str, new: str, parts: tuple[str, ...] = PARTS) -> None:
    for part in parts:
        if os.path.exists(f"{old}{part}"):
            shutil.copyfile(f"{old}{part}", f"{new}{part}")


def remove(file: str) -> None:
    for part in PARTS:
        with contextlib.suppress(FileNotFoundError):
            os.remove(f"{file}{part}")


class Held(NamedTuple):
    """What SQLite finds wrong with a file, and the rows of its tables if they are ours; the version may be older."""
    faults: list[str]
    rows: dict[str, list[tuple]] | None
    schema: list[str]


def looked(file: str, room: str) -> Held:
    """What a file and its log hold, as Python's SQLite reads it from a copy. Bytes that are no text stand as halves of
    pairs of surrogates, which no text has."""
    copied = f"{room}/looked"
    copy(file, copied, ("", "-wal"))
    try:
        with contextlib.closing(sqlite3.connect(copied)) as reader:
            reader.text_factory = lambda data: data.decode(errors="surrogateescape")
            return read(reader)
    finally:
        remove(copied)


def read(reader: sqlite3.Connection) -> Held:
    try:
        faults = [text for (text,) in reader.execute("PRAGMA integrity_check(3)") if text != "ok"]
        faults += [f"foreign key {row}" for row in reader.execute("PRAGMA foreign_key_check")]
        schema = sorted(text or "" for (text,) in reader.execute("SELECT sql FROM sqlite_schema"))
    except (sqlite3.Error, UnicodeDecodeError) as error:
        return Held([repr(error)], None, [])
    try:
        rows = {
            table: reader.execute(f"SELECT {columns} FROM {table}").fetchall()
            for table, columns in tables.COLUMNS.items()
        }
    except (sqlite3.Error, UnicodeDecodeError, OverflowError):
        return Held(faults, None, schema)
    return Held(faults, rows, schema)


def wants_rows(held: Held, wanted: dict[str, str]) -> None:
    """Wrong unless a file holds these rows; moments of the clock are all alike."""
    if held.rows is None:
        raise Wrong("the rows can't be read any more", held.faults)
    found, wanted = without_moments(tables.printed(held.rows)), without_moments(wanted)
    for table in wanted:
        if found[table] != wanted[table]:
            raise Wrong("not the rows of the model", (table, cut((found[table],), (wanted[table],))))


def without_moments(rows: dict[str, str]) -> dict[str, str]:
    """The rows without the moments of the clock."""
    lines = []
    for line in rows["account"].splitlines():
        number, moment, rest = line.split(", ", 2)
        lines.append(", ".join((number, CLOCK if moment.isdigit() and is_now(moment) else moment.strip("'"), rest)))
    return {**rows, "account": "\n".join(lines)}
