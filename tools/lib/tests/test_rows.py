"""How words name a table, or one row of it."""
import unittest

from lib import rows


class Words(unittest.TestCase):
    def test_a_table(self) -> None:
        for word in ("requests", "requests.cases", "examples/cases/requests.cases"):
            self.assertEqual(rows.name_in(word, ".cases"), ("requests", None))

    def test_a_row_as_a_failure_names_it(self) -> None:
        for word in ("requests:46", "requests.cases:46", "requests.cases:46:", "examples/cases/requests.cases:46"):
            self.assertEqual(rows.name_in(word, ".cases"), ("requests", 46))

    def test_a_path_is_kept(self) -> None:
        self.assertEqual(rows.place_in("/tmp/a.cases:7:"), ("/tmp/a.cases", 7))
        self.assertEqual(rows.place_in("/tmp/a.cases"), ("/tmp/a.cases", None))


if __name__ == "__main__":
    unittest.main()
