"""What a step of a test keeps of what its tool printed."""
import sys
import tempfile
import unittest

from lib.test.steps import MOST, Step

REFUSED = "opc_names/drops_a_name.edit: refused: fn first: `returns-clause-first`: the goal fails"
ACCEPTED = "opc_names/keeps_a_name.edit: FAILED: accepted"


def step(*lines: str) -> Step:
    """A tool that prints these lines."""
    with tempfile.TemporaryDirectory() as folder:
        return Step([sys.executable, "-c", f"print({chr(10).join(lines)!r})"], folder, lambda line: None)


class Steps(unittest.TestCase):
    def test_what_failed_is_named(self) -> None:
        ran = step(REFUSED, ACCEPTED, REFUSED, "exports are whole: no, but (1, 'and not', 2)", "1 passed, 2 failed")
        self.assertEqual((ran.passed, ran.failed), (1, 2))
        self.assertEqual(ran.failures(), [ACCEPTED, "exports are whole: no, but (1, 'and not', 2)"])

    def test_of_a_step_that_names_none_the_last_lines_are_kept(self) -> None:
        lines = [f"line {at}" for at in range(2 * MOST)]
        self.assertEqual(step(*lines).failures(), lines[MOST:])

    def test_of_a_step_that_passed_nothing_is_named(self) -> None:
        self.assertEqual(step(REFUSED, "1 passed, 0 failed").failures(), [])

    def test_a_hundred_failures_are_not_all_named(self) -> None:
        self.assertEqual(len(step(*[ACCEPTED] * 100, "0 passed, 100 failed").failures()), MOST)


if __name__ == "__main__":
    unittest.main()
