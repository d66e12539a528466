"""What a table of runs says."""
import os
import tempfile
import unittest

from lib.program.tables import BadTable, Check, checks_of

TABLE = """\
# A remark.
file {room}/small.csv
  < a,b
(SECADM is on)
  $ run --db {room}/db

the line '{1}'
  $ run
  <- {1}
  status {2}
  >
  |1 * |0 or 1|
  ||2|
"""


class Reading(unittest.TestCase):
    def checks(self, text: str) -> list[Check]:
        with tempfile.NamedTemporaryFile("w", suffix=".runs", delete=False) as out:
            out.write(text)
        self.addCleanup(os.remove, out.name)
        found = list(checks_of(out.name, {"room": "/room"}))
        self.lines = [check.at for check in found]
        return [check._replace(place=check.place.split(":")[1], at=()) for check in found]

    def test_a_table(self) -> None:
        file, ready, first, second = self.checks(TABLE)
        self.assertEqual(file, Check("2", "file /room/small.csv", [("<", "a,b")]))
        self.assertEqual((ready.title, ready.text("$")), ("(SECADM is on)", "run --db /room/db"))
        self.assertEqual([check.is_ready() for check in (file, ready, first, second)], [True, True, False, False])
        lines = [("$", "run"), ("<-", "1 * "), ("status", "0 or 1"), (">", "")]
        self.assertEqual(first, Check("12", "the line '1 * '", lines))
        self.assertEqual(second.place, "13")
        self.assertEqual((second.title, second.text("<-"), second.text("status")), ("the line ''", "", "2"))

    def test_where_it_stands(self) -> None:
        self.checks(TABLE)
        title = (7, 8, 9, 10, 11)
        self.assertEqual(self.lines, [(2, 3), (4, 5), (*title, 12), (*title, 13)])

    def test_marks(self) -> None:
        check, = self.checks("a title\n  > one\n  >   two\n  <\n")
        self.assertEqual((check.texts(">"), check.texts("<"), check.text("$")), (["one", "  two"], [""], None))

    def test_what_is_no_table(self) -> None:
        for text in ("  > no title\n", "title\n  ? mark\n", "title\n  |cell\n", "title\n  |\n"):
            with self.assertRaises(BadTable):
                self.checks(text)
        check, = self.checks("title\n  $ run\n  $ export\n")
        with self.assertRaises(BadTable):
            check.text("$")


if __name__ == "__main__":
    unittest.main()
