"""The runs that a crate's folder stores."""
import os
import tempfile
import unittest

from lib.runs import Run, runs_of


class Stored(unittest.TestCase):
    def setUp(self) -> None:
        room = tempfile.TemporaryDirectory()
        self.addCleanup(room.cleanup)
        self.crate = f"{room.name}/it"

    def write(self, **texts: str) -> None:
        for path, text in texts.items():
            path = f"{self.crate}/{path.replace('__', '/').replace('_', '.')}"
            os.makedirs(os.path.dirname(path), exist_ok=True)
            with open(path, "w", encoding="utf-8") as file:
                file.write(text)

    def test_the_one_beside_the_sources(self) -> None:
        self.write(stdin="a\n", args="b\nc d\n", stdout="e\n", status="3\n")
        self.assertEqual(runs_of(self.crate), [Run("it", ["b", "c d"], b"a\n", b"e\n", 3)])

    def test_one_for_each_table(self) -> None:
        self.write(cases__names="a\n", cases__names_args="names\n", cases__names_stdout="b\n", cases__bare="c\n")
        tables = [Run("it bare", [], b"c\n", b"", 0), Run("it names", ["names"], b"a\n", b"b\n", 0)]
        self.assertEqual(runs_of(self.crate), [Run("it", [], b"", b"", 0), *tables])


if __name__ == "__main__":
    unittest.main()
