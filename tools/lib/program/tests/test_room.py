"""What counts as wrong with a run, over programs of the system."""
import contextlib
import io
import os
import tempfile
import unittest
from unittest import mock

from lib.program import room as rooms
from lib.program.room import Ran, Room
from lib.program.tables import Check
from lib.rows import NoRow
from lib.tally import Tally

# prints its input, says its first word, and ends with its second as the status
PROGRAM = """#!/bin/sh
cat
test -z "$1" || echo "$1" >&2
exit "${2:-0}"
"""


ROWS = """\
# A remark.
file {room}/begins
  < one
a file
  $ ''
a wrong status
  $ '' 3
the word '{{1}}'
  $ '{{1}}' {{2}}
  |one|0|
  |two|1|
  ! {{1}}
"""


def check(*lines: tuple[str, str], title: str = "a title") -> Check:
    return Check("table.runs:1", title, list(lines))


class Faults(unittest.TestCase):
    def test_a_status(self) -> None:
        self.assertEqual(rooms.faults_of_end(check(), Ran(0, b"", b"")), [])
        self.assertEqual(rooms.faults_of_end(check(("status", "0 or 1")), Ran(1, b"", b"")), [])
        self.assertEqual(
            rooms.faults_of_end(check(("status", "0 or 1")), Ran(2, b"", b"")), ["status 2 and not 0 or 1"]
        )

    def test_what_is_said(self) -> None:
        lines = check(("!", "E91 Store"), ("!", "opcmds: why"))
        self.assertEqual(rooms.faults_of_end(lines, Ran(0, b"", b"E91 Store\nopcmds: why\n")), [])
        self.assertEqual(len(rooms.faults_of_end(lines, Ran(0, b"", b"E91 Store\nopcmds: why"))), 1)
        self.assertEqual(len(rooms.faults_of_end(check(), Ran(0, b"", b"E91 Store\n"))), 1)
        self.assertEqual(rooms.faults_of_end(check(("!", "")), Ran(0, b"", b"\xff")), [])
        self.assertEqual(rooms.faults_of_end(check(("!", "")), Ran(0, b"", b"")), ["it says nothing"])

    def test_what_is_printed(self) -> None:
        self.assertEqual(rooms.faults_of_printed(check((">", "")), Ran(0, b"", b"")), [])
        self.assertEqual(len(rooms.faults_of_printed(check((">", "")), Ran(0, b"\n", b""))), 1)
        self.assertEqual(rooms.faults_of_printed(check((">", "a"), (">", "  b")), Ran(0, b"a\n  b\n", b"")), [])
        self.assertEqual(len(rooms.faults_of_pattern(check(("~", r"^\d DONE\s")), Ran(0, b"x\n12 DONE", b""))), 1)
        self.assertEqual(rooms.faults_of_pattern(check(("~", r"^\d DONE\s")), Ran(0, b"x\n1 DONE -\n", b"")), [])


class Runs(unittest.TestCase):
    def setUp(self) -> None:
        folder = tempfile.TemporaryDirectory()
        self.addCleanup(folder.cleanup)
        self.folder, self.tally = folder.name, Tally()
        program = f"{self.folder}/program"
        with open(program, "w", encoding="utf-8") as file:
            file.write(PROGRAM)
        os.chmod(program, 0o755)
        patch = mock.patch.object(rooms, "built", lambda: program)
        patch.start()
        self.addCleanup(patch.stop)
        self.room = Room(self.folder, self.tally)

    def judged(self, *lines: tuple[str, str], title: str = "a title") -> tuple[int, int]:
        """How many checks passed and failed."""
        before = self.tally.passed, self.tally.failed
        with contextlib.redirect_stdout(io.StringIO()):
            self.room.judge(check(*lines, title=title))
        return self.tally.passed - before[0], self.tally.failed - before[1]

    def test_how_it_ends_and_what_it_prints_count_each(self) -> None:
        ran = ("$", "'a word' 3"), ("<", r"one\r"), ("<-", "two")
        self.assertEqual(self.judged(*ran, ("!", "a word"), ("status", "3")), (1, 0))
        self.assertEqual(self.judged(*ran, ("!", "a word"), ("status", "3"), (">", "one")), (1, 1))
        self.assertEqual(self.judged(*ran, ("!", "another"), ("status", "3"), (">", "")), (0, 2))

    def test_an_input_that_begins_with_a_file(self) -> None:
        path = f"{self.folder}/begins"
        self.room.judge(check(("<", "one"), title=f"file {path}"))
        self.assertEqual(self.judged(("$", ""), ("<<", path), (">", "one")), (2, 0))
        self.assertEqual(self.judged(("$", ""), ("<<", path), ("<", "two"), (">", "one"), (">", "two")), (2, 0))
        self.assertEqual(self.judged(("$", ""), ("<<", path), (">=", path)), (2, 0))

    def test_closed_and_full_streams(self) -> None:
        self.assertEqual(self.judged(("$", ""), ("<<", "closed"), ("!", ""), ("status", "0")), (1, 0))
        self.assertEqual(self.judged(("$", ""), ("<", "one"), (">>", "closed"), ("!", ""), ("status", "0")), (1, 0))
        self.assertEqual(self.judged(("$", ""), ("<", "one"), (">>", "/dev/full"), ("!", ""), ("status", "0")), (1, 0))

    def test_a_database(self) -> None:
        path = f"{self.folder}/db"
        made = "CREATE TABLE a (b, c); INSERT INTO a VALUES (1, 'x'), (2, NULL)"
        self.assertEqual(self.judged(("made", f"{path} {made}"), ("$", "")), (1, 0))
        asked = ("rows", f"{path} SELECT * FROM a"), ("rows", f"{path} SELECT count(*) FROM a")
        self.assertEqual(self.judged(*asked, (">", "1|x"), (">", "2|None"), (">", "2")), (1, 0))
        self.assertEqual(self.judged(*asked, (">", "1|x")), (0, 1))
        self.assertEqual(self.judged(("absent", path)), (0, 1))
        self.assertEqual(self.judged(("absent", f"{path}-none")), (1, 0))

    def test_a_file(self) -> None:
        path = f"{self.folder}/log"
        with open(path, "w", encoding="ascii") as file:
            file.write("one\ntwo\n")
        os.chmod(path, 0o600)
        reads = ("reads", f"600 {path}")
        self.assertEqual(self.judged(reads, (">", "one"), (">", "two")), (1, 0))
        self.assertEqual(self.judged(reads, (">", "one")), (0, 1))
        self.assertEqual(self.judged(reads, ("~", "^two$")), (1, 0))
        self.assertEqual(self.judged(reads, ("~", "three")), (0, 1))
        self.assertEqual(self.judged(("reads", f"644 {path}"), (">", "one"), (">", "two")), (0, 1))

    def row(self, line: int) -> tuple[int, int, str]:
        """How many checks of a line of ROWS passed and failed, and what was printed."""
        said = io.StringIO()
        with mock.patch.object(rooms, "TABLES", self.folder), contextlib.redirect_stdout(said):
            self.room.row("rows", line)
        return self.tally.passed, self.tally.failed, said.getvalue()

    def test_one_row_is_counted_and_those_before_it_are_run(self) -> None:
        with open(f"{self.folder}/rows.runs", "w", encoding="utf-8") as file:
            file.write(ROWS.format(room=self.folder))
        self.assertEqual(self.row(4), (1, 0, ""))
        self.assertEqual(self.row(10), (2, 0, "rows.runs:10: 1 of 2 checks before it failed\n"))
        passed, failed, said = self.row(6)
        self.assertEqual((passed, failed), (2, 1))
        self.assertTrue(said.startswith("rows.runs:6: a wrong status: no"), said)
        self.assertEqual(self.row(8)[:2], (3, 2), "the title of rows has all of them")
        with self.assertRaises(NoRow):
            self.row(1)

    def test_what_makes_ready_is_not_counted_and_has_to_be_good(self) -> None:
        self.assertEqual(self.judged(("$", ""), title="(ready)"), (0, 0))
        with self.assertRaises(RuntimeError):
            self.judged(("$", "x 1"), title="(ready)")


if __name__ == "__main__":
    unittest.main()
