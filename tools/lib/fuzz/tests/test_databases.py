"""How files are turned, how rows are read back into a state, and what a refused file may not have lost."""
import contextlib
import os
import sqlite3
import tempfile
import unittest
from random import Random

from lib import older
from lib.fuzz import bases, broken, databases, states
from lib.fuzz.databases import Database, Edit
from lib.fuzz.runs import Ran, Wrong
from lib.model import tables

REFUSED = Ran(3, b"", b"E91 Store\nopcmds: database db: not a database\n", 0)


class Edits(unittest.TestCase):
    def test_bytes(self) -> None:
        data = b"0123456789" * 1_000
        cases = (
            (Edit("flip", 1, 1), b"00"), (Edit("put", 1, b"xy"), b"0xy3"), (Edit("cut", 0.5), data[:5_000]),
            (Edit("grow", 0, b"z"), data + b"z"), (Edit("all", 0, (b"123", b"321")), b"0321456"),
            (Edit("page", 0, b"p" * 4_096), b"p" * 4_096), (Edit("page", 1, 0), data[:4_096] * 2),
            (Edit("log", "-wal", ("cut", 3, None)), b"012"),
        )
        for edit, wanted in cases:
            self.assertTrue(databases.changed(data, edit).startswith(wanted), edit)
            databases.changed(b"", edit)
        self.assertEqual(databases.changed(data, Edit("cut", 0.5)), data[:5_000])

    def test_any(self) -> None:
        for number in range(500):
            edit = databases.any_edit(Random(number), number % 2 == 0)
            self.assertEqual(edit, databases.any_edit(Random(number), number % 2 == 0))
            if edit.way not in ("statement", "beside"):
                databases.changed(b"x" * 10_000, edit)


class Damaged(unittest.TestCase):
    def test_statement_over_a_schema_that_is_not_utf_8(self) -> None:
        with tempfile.TemporaryDirectory() as folder:
            base, file = bases.Base(folder, bases.base_state(), []), f"{folder}/db"
            with contextlib.closing(sqlite3.connect(base.file("sound"))) as writer:
                writer.execute("CREATE TABLE note (text TEXT)")
            edits = [Edit("all", 0, (b"note (", b"`\xd2\xd1no(")), Edit("statement", None, "DELETE FROM note")]
            Database(edits, base, "sound", "run").put_at(file)
            self.assertIn(b"`\xd2\xd1no(", databases.bytes_of(file)[file])


class Refused(unittest.TestCase):
    def setUp(self) -> None:
        folder = tempfile.TemporaryDirectory()
        self.addCleanup(folder.cleanup)
        self.file = f"{folder.name}/db"

    def write(self, **parts: bytes) -> dict[str, bytes]:
        for name, data in parts.items():
            with open(f"{self.file}{name.replace('of_', '-').replace('file', '')}", "wb") as file:
                file.write(data)
        return databases.bytes_of(self.file)

    def test_what_may_change(self) -> None:
        before = self.write(file=b"a file", of_journal=b"j", of_wal=b"no log")
        self.write(of_wal=b"\0" * 41)
        databases.wants_untouched(self.file, before, REFUSED)

    def test_what_may_not(self) -> None:
        before = self.write(file=b"a file", of_journal=b"j")
        for parts in ({"file": b"A file"}, {"of_journal": b""}, {"of_shm": b"s"}, {"of_wal": b"\0" * 41}):
            self.write(**parts)
            with self.assertRaisesRegex(Wrong, "a file that was refused changed"):
                databases.wants_untouched(self.file, before, REFUSED)
            self.write(file=b"a file", of_journal=b"j")
            for made in ("shm", "wal"):
                if os.path.exists(f"{self.file}-{made}"):
                    os.remove(f"{self.file}-{made}")

    def test_each_request_is_answered(self) -> None:
        moments = [line.split()[0].decode() for line in databases.SCRIPT.splitlines()]
        good = "".join(f"{moment} REFUSED E91 Store -\n" for moment in moments)
        databases.wants_form(Ran(3, good.encode(), b"", 0))
        databases.wants_form(REFUSED)
        for bad in (good.replace("9003 ", "9004 "), good.replace("E91", "E99")):
            self.assertRaises(Wrong, databases.wants_form, Ran(3, bad.encode(), b"", 0))


class States(unittest.TestCase):
    def setUp(self) -> None:
        self.state = bases.base_state()
        self.rows = {table: sorted(rows, key=repr) for table, rows in tables.of_state(self.state).items()}

    def test_back(self) -> None:
        found = states.state_of(self.rows)
        self.assertIsNotNone(found)
        self.assertEqual(tables.printed(tables.of_state(found)), tables.printed(self.rows))

    def test_no_state(self) -> None:
        bad = {
            "board": [(0,), (1,)], "log": [(2, "x")], "connects": [("ANNA", "GHOST")], "grp": [("ANNA",)],
            "classes": [], "meta": [(4,)], "replies": [(100, "x")], "usr": [], "batches": [(5, "garbage")],
            "account": [(1, -1, "C1", "-", "E20", "-")], "devices": [("0A80", 0, None, "BACKUP")],
            "consoles": [("C1", 3, "O", 1, None, 0)], "units": [("BACKUP", "J", "PAY", 1, 0, None)],
        }
        for table, rows in bad.items():
            self.assertIsNone(states.state_of({**self.rows, table: rows}), table)

    def test_bytes_that_are_no_text(self) -> None:
        with tempfile.TemporaryDirectory() as folder:
            file = f"{folder}/db"
            with contextlib.closing(sqlite3.connect(file, isolation_level=None)) as writer:
                for statement in older.statements(tables.VERSION).values():
                    writer.execute(statement)
                writer.execute("INSERT INTO units VALUES ('CICS', 'S', 'CICS', 1, 0, CAST(x'5354FF' AS TEXT))")
                writer.execute("INSERT INTO replies VALUES (7, CAST(x'5354FF' AS TEXT))")
            found = bases.looked(file, folder)
        self.assertEqual(found.faults, [])
        for table in ("units", "replies"):
            self.assertIsNone(states.state_of({**self.rows, table: found.rows[table]}), table)
        # what looks like such a byte may have been typed
        for table, row in (("units", ("CICS", "S", "CICS", 1, 0, "ST\\xff")), ("replies", (7, "ST\\xff"))):
            self.assertIsNotNone(states.state_of({**self.rows, table: [row], "devices": []}), table)

    def test_statements(self) -> None:
        for number in range(300):
            self.assertEqual(broken.statement(Random(number)), broken.statement(Random(number)))
        made = Database([Edit("statement", None, "DELETE FROM note")], None, "plain", "run")
        self.assertEqual(made.with_pieces([]).pieces, [])


if __name__ == "__main__":
    unittest.main()
