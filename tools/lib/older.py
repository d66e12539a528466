"""Makes a database of version 1 or 2 with the rows of one of version 3, by the statements of docs/rules/tables.md, and
by its own where an older version differs.

tools/program and tools/stops open such files and compare them with the file whose rows they have.
examples/older/version-2.db was written by a program of version 2, from examples/scripts/first-look.script."""
import contextlib
import csv
import io
import re
import sqlite3
import sys

from lib.places import TOP

BLOCK = re.compile(r"^```sql\n(.*?)^```$", re.M | re.S)
TABLE = re.compile(r"^CREATE TABLE (\w+) .*;$", re.M)
# the statements in which an older version differs from the next one
OLDER = {
    2: (
        "CREATE TABLE usr (id TEXT NOT NULL PRIMARY KEY, special INTEGER NOT NULL, auditor INTEGER NOT NULL, "
        "revoked INTEGER NOT NULL, digest BLOB) STRICT;",
        "CREATE TABLE profiles (class TEXT NOT NULL, pattern TEXT NOT NULL, owner TEXT NOT NULL REFERENCES "
        "usr, uacc INTEGER NOT NULL, warning INTEGER NOT NULL, skey BLOB NOT NULL, head TEXT NOT NULL, "
        "PRIMARY KEY (class, pattern), UNIQUE (class, skey), UNIQUE (class, head, skey)) STRICT;",
        "CREATE TABLE entries (class TEXT NOT NULL, pattern TEXT NOT NULL, id TEXT NOT NULL, level INTEGER "
        "NOT NULL, PRIMARY KEY (class, pattern, id), FOREIGN KEY (class, pattern) REFERENCES profiles ON "
        "DELETE CASCADE) STRICT;",
    ),
    1: (
        "CREATE TABLE profiles (class TEXT NOT NULL, pattern TEXT NOT NULL, owner TEXT NOT NULL REFERENCES "
        "usr, uacc INTEGER NOT NULL, warning INTEGER NOT NULL, PRIMARY KEY (class, pattern)) STRICT;",
    ),
}


def statements(version: int) -> dict[str, str]:
    """The statement of each table of a version, in the order in which they are made."""
    with open(f"{TOP}/docs/rules/tables.md") as file:
        newest = BLOCK.findall(file.read().split("\n## The statements\n")[1].split("\n## ")[0])
    made = {}
    for one in (newest[0], *("\n".join(OLDER[older]) for older in (2, 1) if older >= version)):
        made.update({found[1]: found[0] for found in TABLE.finditer(one)})
    return made


def of_eight_columns(text: str) -> str:
    """The policy file of a batch without its last two columns, which are empty."""
    rows = list(csv.reader(io.StringIO(text)))
    if any(row[8:] != ["", ""] for row in rows[1:]):
        sys.exit("a batch says what no older version can")
    made = io.StringIO()
    csv.writer(made, lineterminator="\n").writerows(row[:8] for row in rows)
    return made.getvalue()


def changed(version: int, table: str, row: dict[str, object]) -> dict[str, object]:
    """What an older version has in the place of a row."""
    if table == "meta":
        return {"version": version}
    if table == "batches":
        return {**row, "rows": of_eight_columns(row["rows"])}
    if row.get("restricted") or table == "entries" and row["console"]:
        sys.exit("a row says what no older version can")
    return row


def make(version: int, file: str, older: str) -> None:
    """A database of this version with the rows of one of version 3, in which nobody is RESTRICTED and no entry is at a
    console."""
    with (
        contextlib.closing(sqlite3.connect(f"file:{file}?mode=ro", uri=True)) as new,
        contextlib.closing(sqlite3.connect(older)) as old,
    ):
        new.row_factory = sqlite3.Row
        for table, statement in statements(version).items():
            old.execute(statement)
            columns = [row[1] for row in old.execute(f"PRAGMA table_info({table})")]
            for row in new.execute(f"SELECT * FROM {table} ORDER BY rowid"):
                row = changed(version, table, dict(row))
                old.execute(
                    f"INSERT INTO {table} VALUES ({', '.join('?' * len(columns))})", [row[column] for column in columns]
                )
        old.commit()
