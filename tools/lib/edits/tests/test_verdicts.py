"""What a check over stubs says of the functions that call them."""
import unittest
from types import SimpleNamespace

from lib.edits.verdicts import Verdict, must_fail

STUBS = {"low::stub": "Rattle.low.proofs.stub.Proof.stub_spec"}


class Subject:
    def __init__(self, name: str) -> None:
        self.name = name

    def is_called(self, symbol: str) -> bool:
        return symbol == f"low::{self.name}"

    def is_at(self, path: str, line: str) -> bool:
        return (path, line) == ("src/lib.rt", 7)

    def is_proof(self, path: str) -> bool:
        return f"/{self.name}/" in path


def ran(*lines: str, status: int = 1) -> SimpleNamespace:
    return SimpleNamespace(lines=list(lines), text="\n".join(lines), status=status)


class OverStubs(unittest.TestCase):
    def verdict(self, *lines: str) -> Verdict:
        return Verdict(ran(*lines, "only=2 holes=1"), STUBS)

    def test_a_hole_of_a_stub_is_no_reason_against_what_calls_it(self) -> None:
        made = self.verdict("fn low::right: depends on a hole in `Rattle.low.proofs.stub.Proof.stub_spec`")
        self.assertTrue(made.is_judged)
        self.assertTrue(made.proves(Subject("right")))

    def test_a_hole_of_its_own_is_one(self) -> None:
        made = self.verdict("fn low::right: depends on a hole in `Rattle.low.proofs.right.Answers.ensures-1`")
        self.assertFalse(made.proves(Subject("right")))

    def test_the_same_holes_as_another_function(self) -> None:
        first = "fn low::first: depends on a hole in `Rattle.low.proofs.stub.Proof.stub_spec`"
        self.assertTrue(
            self.verdict(first, "fn low::right: depends on a hole in the same 2 declarations as `low::first`").proves(
                Subject("right")
            )
        )
        self.assertFalse(
            self.verdict("fn low::right: depends on a hole in the same 2 declarations as `low::first`").proves(
                Subject("right")
            )
        )

    def test_a_goal_of_its_own_refuses_a_wrong_body(self) -> None:
        said = "fn low::wrong: not proved: `search` did not prove `ensures-1`"
        said += "; it calls `low::stub`, which is not proved"
        is_refused, why = self.verdict(said, "note: src/lib.rt:7:5: this is not proved").refusal(Subject("wrong"))
        self.assertEqual((is_refused, why), (True, "this is not proved"))

    def test_a_call_alone_refuses_nothing(self) -> None:
        self.assertFalse(
            self.verdict("fn low::wrong: not proved: it calls `low::stub`, which is not proved").refusal(
                Subject("wrong")
            )[0]
        )

    def test_nothing_is_proved_of_what_is_not_named(self) -> None:
        self.assertFalse(self.verdict().proves(Subject("right")))


class Reasons(unittest.TestCase):
    """What counts as a refusal of a wrong body, and what does not."""

    OWN = "fn low::wrong: not proved: `search` did not prove `ensures-1`"

    def refusal(self, *lines: str) -> tuple[bool, str]:
        return Verdict(ran(*lines, "logic=not-proved")).refusal(Subject("wrong"))

    def test_a_goal_that_is_open(self) -> None:
        self.assertEqual(self.refusal(self.OWN), (True, "not proved: `search` did not prove `ensures-1`"))

    def test_an_error_in_its_own_proof(self) -> None:
        line = "./proofs/wrong/Answers.antt:3:5: error: this is no proof of `ensures-1`"
        self.assertEqual(self.refusal(self.OWN, line), (True, "this is no proof of `ensures-1`"))

    def test_a_name_that_its_own_proof_lacks_is_no_reason(self) -> None:
        for said in ("`made` is not in scope", "`c.args` has no field `made`", "`made` was not admitted"):
            is_refused, why = self.refusal(self.OWN, f"proofs/wrong/Answers.antt:3:5: error[scope]: {said}")
            self.assertEqual((is_refused, why), (False, f"only a name in a proof file refuses it: {said}"))

    def test_a_text_that_cannot_be_read_is_none(self) -> None:
        line = "src/lib.rt:7:5: error: expected the end of the statement"
        self.assertEqual(self.refusal(self.OWN, line), (False, "its text cannot be read"))

    def test_a_call_of_what_is_not_proved_is_none(self) -> None:
        said = "not proved: it calls `low::other`, which is not proved"
        self.assertEqual(self.refusal(f"fn low::wrong: {said}"), (False, said))
        is_refused, _ = self.refusal(f"{self.OWN}; it calls `low::other`, which is not proved")
        self.assertFalse(is_refused)

    def test_nothing_said_is_none(self) -> None:
        self.assertEqual(self.refusal("fn low::other: proved"), (False, "the check says nothing of it"))

    def test_others_that_are_refused_in_their_own_right(self) -> None:
        own = "fn low::other: not proved: `search` did not prove `ensures-1`"
        call = "fn low::caller: not proved: it calls `low::other`, which is not proved"
        made = Verdict(ran(own, call, self.OWN, "logic=not-proved"))
        self.assertEqual(made.others_refused([Subject("wrong")]), ["low::other"])
        self.assertEqual(made.others_refused([Subject("wrong"), Subject("other")]), [])

    def test_a_check_that_came_to_no_end_judges_nothing(self) -> None:
        stale = "error: module `Rattle-low-0123` is of another check. Run the lower steps again."
        self.assertTrue(Verdict(ran(self.OWN, "logic=not-proved")).is_judged)
        self.assertFalse(Verdict(ran(self.OWN)).is_judged)
        self.assertFalse(Verdict(ran("logic=not-proved")).is_judged)
        self.assertFalse(Verdict(ran(self.OWN, stale, "logic=not-proved")).is_judged)


class OfOneEdit(unittest.TestCase):
    """A check of the crate with one edit, judged as rt must-fail does."""

    NOTE = "note: ./src/lib.rt:7:5: this is not proved"

    def judged(self, *lines: str, status: int = 1) -> tuple[bool, str]:
        return must_fail(ran(*lines, status=status), {"src/lib.rt": ""})

    def test_a_goal_that_is_open_refuses_it(self) -> None:
        self.assertEqual(self.judged(self.NOTE, "logic=not-proved"), (True, self.NOTE))

    def test_a_proved_crate_does_not(self) -> None:
        is_refused, why = self.judged("logic=proved", status=0)
        self.assertFalse(is_refused)
        self.assertIn("NOT REFUSED", why)

    def test_a_text_that_cannot_be_read_does_not(self) -> None:
        for line in (
            "src/lib.rt:3:5: error: a `;` is missing", "./specs/Sums.antt:3:5: error: `sum`: it is not in scope"
        ):
            is_refused, why = self.judged(line, self.NOTE, "logic=not-proved")
            self.assertFalse(is_refused)
            self.assertIn("the prover cannot read the edited text", why)

    def test_an_error_that_names_a_function_is_no_such_text(self) -> None:
        line = "src/lib.rt:3:5: error: `low::wrong`: this is not proved"
        self.assertEqual(self.judged(line, "logic=not-proved"), (True, line))

    def test_a_name_in_a_proof_file_alone_does_not(self) -> None:
        line = "proofs/first/Answers.antt:3:5: error: `made` is not in scope"
        is_refused, why = self.judged(line, "logic=not-proved")
        self.assertFalse(is_refused)
        self.assertIn("only a name in a proof file refuses it", why)
        self.assertEqual(self.judged(line, self.NOTE, "logic=not-proved"), (True, self.NOTE))

    def test_kept_work_that_does_not_fit_does_not(self) -> None:
        stale = "error: module `Rattle-low-0123` is of another check. Run the lower steps again."
        self.assertEqual(
            self.judged(stale, "logic=not-proved"), (False, "the kept work of a library could not be used")
        )


class OfSomeFunctions(unittest.TestCase):
    def test_functions_that_are_not_proved_refuse(self) -> None:
        self.assertTrue(must_fail(ran("note: ./src/lib.rt:7:5: this is not proved", "only=2 proved=1"), {})[0])

    def test_functions_that_are_all_proved_do_not(self) -> None:
        self.assertFalse(must_fail(ran("only=2 proved=2", status=0), {})[0])
        self.assertFalse(must_fail(ran("note: ./src/lib.rt:7:5: a note", "only=2 proved=2"), {})[0])

    def test_nor_does_a_check_that_reached_no_prover(self) -> None:
        self.assertFalse(must_fail(ran("error: no function has this name", status=2), {})[0])
