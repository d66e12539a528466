"""tools/cases and tools/databases judge one row of a table alone, after those before it."""
import contextlib
import importlib.machinery
import importlib.util
import io
import os
import tempfile
import unittest
from types import ModuleType
from unittest import mock

from lib.places import TOP
from lib.rows import NoRow
from lib.tally import Tally

# what is wanted of each line is its text in capitals; the second step has something else
STEPS = """\
# A title.
row one
  ROW ONE
new
  other
select two
  SELECT TWO
select three
  other
"""
TABLE = """\
# A title.
new
  taken
1 * HALT
  other
2 * HALT
  2 DONE -
3 * HALT
  3 DONE -
"""


def tool(name: str) -> ModuleType:
    loader = importlib.machinery.SourceFileLoader(name, f"{TOP}/tools/{name}")
    module = importlib.util.module_from_spec(importlib.util.spec_from_loader(name, loader))
    loader.exec_module(module)
    return module


class Rows(unittest.TestCase):
    def path(self, text: str, name: str) -> str:
        folder = tempfile.TemporaryDirectory()
        self.addCleanup(folder.cleanup)
        with open(f"{folder.name}/{name}", "w", encoding="utf-8") as file:
            file.write(text)
        return f"{folder.name}/{name}"

    def database(self, line: int | None) -> tuple[int, int, str]:
        """How many steps passed and failed, and what was printed."""
        databases, tally, said = tool("databases"), Tally(), io.StringIO()
        answers = mock.patch.object(databases.Room, "answer", lambda _, text: [text.upper()])
        with answers, contextlib.redirect_stdout(said):
            databases.try_file(self.path(STEPS, "few.cases"), line, tally)
        return tally.passed, tally.failed, said.getvalue()

    def test_a_file_of_databases(self) -> None:
        passed, failed, said = self.database(None)
        self.assertEqual((passed, failed), (2, 2))
        self.assertIn("few.cases:8: select three: no", said)

    def test_a_row_of_databases(self) -> None:
        for line in (6, 7):
            self.assertEqual(self.database(line), (1, 0, f"few.cases:{line}: 1 of 2 checks before it failed\n"))
        self.assertEqual(self.database(2), (1, 0, ""))
        self.assertEqual(self.database(8)[:2], (0, 1))
        with self.assertRaises(NoRow):
            self.database(1)

    def test_a_path_of_databases(self) -> None:
        databases, path = tool("databases"), f"{TOP}/examples/databases/rows.cases"
        for name in ("rows", "rows.cases", "examples/databases/rows.cases"):
            self.assertTrue(os.path.samefile(databases.path_of(name), path), name)
        self.assertEqual(databases.path_of("nosuch"), "nosuch")

    def cases(self, line: int) -> tuple[list[str], int, str]:
        """What is wrong with a row, how much was judged, and what was printed."""
        cases, said = tool("cases"), io.StringIO()
        room, has_account = cases.tables.room_of(self.path(TABLE, "few.cases"), line)
        asking = mock.Mock()
        asking.found.return_value = [["taken"], ["1 DONE -"], ["2 DONE -"], ["4 DONE -"]][: len(room.cases)]
        asking.account.return_value = ["a row"]
        with mock.patch.object(cases.rooms, "Asking", lambda *_: asking), contextlib.redirect_stdout(said):
            texts, count = cases.tried(cases.Trial("few", room, line, has_account), "")
        return texts, count, said.getvalue()

    def test_a_row_of_cases(self) -> None:
        self.assertEqual(self.cases(2), ([], 1, ""))
        self.assertEqual(self.cases(6), ([], 1, "few.cases:6: 1 of 2 checks before it failed\n"))
        texts, count, _ = self.cases(4)
        self.assertEqual((texts, count), (["few.cases:4: 1 * HALT\n  - other\n  + 1 DONE -"], 1))

    def test_the_account_goes_with_the_last_row_of_cases(self) -> None:
        texts, count, _ = self.cases(9)
        wanted = [
            "few.cases:8: 3 * HALT\n  - 3 DONE -\n  + 4 DONE -",
            "few.cases:8: the account at the end\n  + a row",
        ]
        self.assertEqual((texts, count), (wanted, 2))

    def test_tables_that_are_not_there(self) -> None:
        cases = tool("cases")
        for words in (["nosuch"], ["nosuch:3"], ["requests:1"]):
            with self.assertRaises(NoRow):
                cases.trials_of(words)
        self.assertEqual([trial.title() for trial in cases.trials_of(["requests.cases:46"])], ["line 46"])


if __name__ == "__main__":
    unittest.main()
