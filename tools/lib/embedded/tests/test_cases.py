"""Random policies and questions."""
import unittest

from lib.embedded.cases import ASKED, Case, case, case_of
from lib.model.steps import Check, Explain, Run
from lib.model.trying import Diff


class CasesTest(unittest.TestCase):
    def test_no_file_is_named(self) -> None:
        words = {"user": "ANNA", "policy": "", "db": "", "why": ""}
        self.assertEqual(case_of(Explain(words, b"rows")), Case(["explain", "--user", "ANNA", "--why"], b"rows"))

    def test_notes(self) -> None:
        found = case_of(Check(True, ["N01", "N02"], b"rows", {"policy": ""}))
        self.assertEqual(found, Case(["check", "--json", "--allow", "N01,N02"], b"rows"))

    def test_two_policies(self) -> None:
        self.assertEqual(case_of(Diff({}, b"old", b"new")), Case(["diff", "old.csv", "new.csv"], b"old", b"new"))
        self.assertIsNone(case_of(Diff({}, None, b"new")))

    def test_other_steps(self) -> None:
        self.assertIsNone(case_of(Run(b"", [])))

    def test_each_is_asked(self) -> None:
        found = [case(1, number) for number in range(len(ASKED))]
        self.assertEqual({it.words[0] for it in found}, set(ASKED))
        self.assertEqual(found, [case(1, number) for number in range(len(ASKED))])


if __name__ == "__main__":
    unittest.main()
