"""Stops at writes: none that is counted is a failure, and so is a run that was not stopped."""
import contextlib
import io
import unittest
from unittest import mock

from lib.serve import kills
from lib.tally import Tally


class Counting:
    """In the place of the trial: a program that makes so many writes, or whose calls the preload does not see."""

    def __init__(self, writes: int, is_stopped: bool = True) -> None:
        self.writes, self.is_stopped = writes, is_stopped

    def stopped(self, at: int) -> tuple[kills.Kept, int]:
        return (True, (0, 0, 0)), at if at and self.is_stopped else self.writes


class Stops(unittest.TestCase):
    def tally(self, trial: Counting) -> tuple[int, int]:
        found = Tally()
        with mock.patch.object(kills, "Kills", lambda *_: trial), contextlib.redirect_stdout(io.StringIO()):
            kills.stops(found, "room", "base")
        return found.passed, found.failed

    def test_each_write(self) -> None:
        self.assertEqual(self.tally(Counting(3)), (4, 0))

    def test_no_write_is_counted(self) -> None:
        self.assertEqual(self.tally(Counting(0)), (0, 1))

    def test_a_run_that_is_not_stopped(self) -> None:
        self.assertEqual(self.tally(Counting(3, is_stopped=False)), (2, 2))

    def test_without_a_count(self) -> None:
        self.assertEqual(kills.counted("/nonexistent/count"), 0)


if __name__ == "__main__":
    unittest.main()
