"""The longest chain of crates: by which minutes, and which it is."""
import unittest

from lib import chain
from lib.chain import Chain, Minutes

# c stands on a and on b, e on c and d; the tests of t wait for c, and nothing waits for them
BELOW = {"a": ["kit"], "b": [], "c": ["a", "b"], "d": ["b"], "e": ["c", "d"], "t": ["c"]}


class Chains(unittest.TestCase):
    def test_the_longest_is_found(self) -> None:
        took = {"a": Minutes(1.0), "b": Minutes(2.0), "c": Minutes(1.0), "d": Minutes(1.5), "e": Minutes(1.0)}
        self.assertEqual(chain.longest(BELOW, took), Chain(["b", "d", "e"], 4.5))

    def test_tests_count_at_the_end_alone(self) -> None:
        took = {"a": Minutes(1.0), "b": Minutes(2.0, 9.0), "c": Minutes(1.0, 2.0), "t": Minutes(0.1, 3.0)}
        self.assertEqual(chain.longest({**BELOW, "b": []}, took), Chain(["b"], 11.0))
        self.assertEqual(chain.longest(BELOW, {**took, "b": Minutes(2.0)}), Chain(["b", "c", "t"], 6.1))

    def test_each_crate_is_in_a_longest_one(self) -> None:
        took = {"a": Minutes(1.0), "b": Minutes(2.0), "c": Minutes(1.0), "d": Minutes(1.5), "e": Minutes(1.0)}
        found = {"a": 3.0, "b": 4.5, "c": 4.0, "d": 4.5, "e": 4.5, "t": 3.0}
        self.assertEqual(chain.through(BELOW, took), found)


class Tables(unittest.TestCase):
    maxDiff = None

    def test_rows_are_read_and_written(self) -> None:
        rows = [f"{'opc_a':24}  ~1.5         2 in 0.3", f"{'opc_t':24}   0.1    2.0"]
        found = {"opc_a": Minutes(1.5, 0.0, "2 in 0.3", True), "opc_t": Minutes(0.1, 2.0)}
        self.assertEqual(chain.minutes_in("\n".join([*rows, f"{'opc_n':24}  soon"])), found)
        self.assertEqual(chain.rows_of(found)[1:], [*rows, f"{'all':24}  ~1.6    2.0  2 in 0.3"])

    def test_what_the_full_test_prints_is_read(self) -> None:
        report = f"{'opc_a':27} {1.5:7.1f} {0.0:7.1f}   2 in 0.3\n{'opc_t':27} {0.1:7.1f} {2.0:7.1f}   \n"
        found = {"opc_a": Minutes(1.5, 0.0, "2 in 0.3"), "opc_t": Minutes(0.1, 2.0)}
        self.assertEqual(chain.minutes_reported(report), found)

    def test_a_whole_run_takes_the_place_of_all(self) -> None:
        old = {"opc_a": Minutes(1.0, 0.0, "2 in 0.3", True), "opc_gone": Minutes(1.0)}
        new = {"opc_a": Minutes(2.0, 0.0, "1 in 0.1"), "opc_b": Minutes(3.0, 0.0, "1 in 0.1")}
        found = {"opc_a": Minutes(2.0, 0.0, "2 in 0.3"), "opc_b": Minutes(3.0, 0.0, "1 in 0.1")}
        self.assertEqual(chain.merged(old, new, {"opc_a": 2, "opc_b": 1}), found)

    def test_a_run_of_some_is_marked(self) -> None:
        old = {"opc_a": Minutes(1.0, 0.0, "2 in 0.3"), "opc_b": Minutes(1.0)}
        found = {"opc_a": Minutes(1.0, 0.0, "2 in 0.3"), "opc_b": Minutes(3.0, 0.0, "1 in 0.1", True)}
        new = {"opc_b": Minutes(3.0, 0.0, "1 in 0.1")}
        self.assertEqual(chain.merged(old, new, {"opc_a": 2, "opc_b": 1}), found)

    def test_the_page_has_chain_and_budgets(self) -> None:
        took = {"opc_a": Minutes(30.0, 0.0, "2 in 0.3"), "opc_b": Minutes(7.0)}
        page = chain.page_of({"opc_a": [], "opc_b": ["opc_a"]}, took)
        self.assertEqual(chain.minutes_in(page), took)
        self.assertIn("The longest chain is `opc_a`, `opc_b`.\n", page)
        self.assertIn("| the longest chain of crates | 36 | 37.0: missed |\n", page)
        self.assertIn("| all must-fail edits | 170 | 0.3: met |\n", page)
