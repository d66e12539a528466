"""What a file is found to hold."""
import os
import shutil
import sqlite3
import tempfile
import unittest

from lib import files
from lib.stops.held import NO_DATABASE, OPENED, Known, digest, in_copy, timeless


class Files(unittest.TestCase):
    def setUp(self) -> None:
        folder = tempfile.TemporaryDirectory()
        self.addCleanup(folder.cleanup)
        self.file = f"{folder.name}/db"

    def made(self) -> None:
        """A file whose last row is in its log alone."""
        other = f"{self.file}-other"
        base = sqlite3.connect(other)
        self.addCleanup(base.close)
        base.execute("PRAGMA journal_mode = WAL")
        base.execute("CREATE TABLE one (a)")
        base.commit()
        base.execute("PRAGMA wal_checkpoint(TRUNCATE)")
        base.execute("INSERT INTO one VALUES (1)")
        base.commit()
        for part in ("", "-wal"):
            shutil.copy(f"{other}{part}", f"{self.file}{part}")

    def test_the_log_is_played_back_in_the_copy(self) -> None:
        self.made()
        before = digest(self.file)
        self.assertEqual(in_copy(self.file), {"one": ["(1,)"]})
        self.assertEqual(digest(self.file), before)
        os.remove(f"{self.file}-wal")
        self.assertNotEqual(digest(self.file), before)
        self.assertEqual(in_copy(self.file), {"one": []})

    def test_what_is_no_database(self) -> None:
        self.assertEqual(in_copy(self.file), {})
        with open(self.file, "wb") as out:
            out.write(b"")
        self.assertEqual(in_copy(self.file), {})
        with open(self.file, "wb") as out:
            out.write(b"x" * 4096)
        self.assertEqual(in_copy(self.file), NO_DATABASE)

    def test_a_file_of_known_bytes_is_not_opened_again(self) -> None:
        self.made()
        opened = []

        def opens(file: str) -> files.Ran:
            opened.append(file)
            with sqlite3.connect(file) as base:
                base.execute("CREATE TABLE IF NOT EXISTS two (b)")
            base.close()
            return OPENED

        known = Known(opens, lambda file: files.tables(file)["two"])
        first = known.held(self.file)
        self.assertEqual((first.tables, first.tables_then), ({"one": ["(1,)"]}, {"one": ["(1,)"], "two": []}))
        self.assertEqual(first.again, [])
        self.assertNotEqual(known.held(self.file), first)
        self.assertEqual(len(opened), 2)
        known.held(self.file)
        self.assertEqual(len(opened), 2)

    def test_what_an_opening_leaves_in_the_log_is_not_in_the_database_file(self) -> None:
        self.made()
        held = Known(lambda file: OPENED).held(self.file)
        self.assertEqual((held.tables, held.tables_then), ({"one": ["(1,)"]}, {"one": []}))

    def test_moments(self) -> None:
        self.assertEqual(
            timeless({"account": ["(12, 1790000000, 'C1')"], "log": ["(1, 17)"]}),
            {"account": ["(12, 'C1')"], "log": ["(1, 17)"]},
        )
        self.assertEqual((timeless({}), timeless(NO_DATABASE)), ({}, NO_DATABASE))


if __name__ == "__main__":
    unittest.main()
