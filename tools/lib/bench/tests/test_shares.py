"""What is read of the tables of callgrind."""
import unittest

from lib.bench.shares import share_in

TABLE = """Ir
--------------------------------------------------------------------------------
721,871,464 (100.0%)  PROGRAM TOTALS

--------------------------------------------------------------------------------
Ir                    file:function
--------------------------------------------------------------------------------
721,715,361 (99.98%)  ???:main [/crates/opcmds/out/opcmds]
541,403,598 (75.00%)  ???:sqlite::file::connect::<#f3536397ff5e9152> [/crates/opcmds/out/opcmds]
  2,875,864 ( 0.40%)  ???:sqlite::file::connected [/crates/opcmds/out/opcmds]
"""


class Shares(unittest.TestCase):
    def test_a_function_with_all_that_it_calls(self) -> None:
        self.assertAlmostEqual(share_in(TABLE, "sqlite::file::connect"), 0.75, 6)
        self.assertAlmostEqual(share_in(TABLE, "main"), 0.99978, 4)

    def test_a_function_that_is_not_there(self) -> None:
        self.assertEqual(share_in(TABLE, "sqlite::file::conn"), 0.0)
        self.assertEqual(share_in("", "main"), 0.0)


if __name__ == "__main__":
    unittest.main()
