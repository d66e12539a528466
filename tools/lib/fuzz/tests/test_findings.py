"""How inputs are shared out, made, tried, cut and reported."""
import contextlib
import io
import os
import tempfile
import unittest
from random import Random
from unittest import mock

from lib.fuzz import policies, scripts, turning, words
from lib.fuzz.findings import KINDS, Fuzz, Kind, counts
from lib.fuzz.inputs import Input
from lib.fuzz.runs import Wrong


class Made(Input):
    """Numbers, of which 7 is wrong, and 9 is what the tool can't do."""

    def __init__(self, pieces: list) -> None:
        self.pieces = pieces

    def tried(self, room: str) -> None:
        for self.at, number in enumerate(self.pieces):
            if number == 7:
                raise Wrong("seven", self.pieces)
            if number == 9:
                raise ValueError("nine")

    def kept(self) -> dict[str, bytes]:
        return {"numbers": repr(self.pieces).encode()}


def alone(chance: Random, base: object, size: int) -> Made:
    return Made([1, 2, 7, 3])


def group(chance: Random, base: object, size: int) -> Made:
    return Made([5, 7, 6, 7, 9, 8][:size])


class Findings(unittest.TestCase):
    def setUp(self) -> None:
        folder = tempfile.TemporaryDirectory()
        self.addCleanup(folder.cleanup)
        self.folder = folder.name
        patch = mock.patch.dict(KINDS, {"alone": Kind(alone, 1), "group": Kind(group, 1, 6)})
        patch.start()
        self.addCleanup(patch.stop)
        self.fuzz = Fuzz(3, self.folder, f"{self.folder}/keep", None)

    def reported(self, *words: object, only: bool = False) -> str:
        out = io.StringIO()
        with contextlib.redirect_stdout(out):
            (self.fuzz.only if only else self.fuzz.all_of)(*words)
        return out.getvalue()

    def test_alone(self) -> None:
        reported = self.reported("alone", 2)
        self.assertEqual((self.fuzz.passed, self.fuzz.failed), (0, 2))
        self.assertIn("alone:1 of seed 3: seven: [7]\n  cut to 1 of 4 pieces", reported)
        self.assertIn("again: tools/fuzz --seed 3 --only alone:1\n", reported)
        with open(f"{self.folder}/keep/alone-1-of-seed-3/numbers", encoding="utf-8") as file:
            self.assertEqual(file.read(), "[7]")

    def test_group(self) -> None:
        reported = self.reported("group", 6)
        self.assertEqual((self.fuzz.passed, self.fuzz.failed), (3, 3))
        for number in (1, 3, 4):
            self.assertIn(f"group:{number} of seed 3: ", reported)
        self.assertIn("the tool fails with ValueError", reported)

    def test_only(self) -> None:
        self.assertEqual(self.reported("group", 0, only=True), "")
        self.assertIn("group:1 of seed 3: seven", self.reported("group", 1, only=True))
        self.assertEqual((self.fuzz.passed, self.fuzz.failed), (1, 1))

    def test_what_is_tried_leaves_nothing(self) -> None:
        self.reported("group", 5)
        self.assertEqual(os.listdir(self.folder), ["keep"])


class Inputs(unittest.TestCase):
    def test_shares(self) -> None:
        for total in (0, 1, 7, 1_000, 10_000):
            self.assertEqual(sum(counts(total, list(KINDS)).values()), total)
        self.assertEqual(counts(10, ["words"]), {"words": 10})
        self.assertEqual(counts(10_000, list(KINDS))["policies"], KINDS["policies"].share)

    def test_a_number_makes_the_same_input(self) -> None:
        for make in (policies.make, scripts.make, words.make):
            self.assertEqual(make(Random("1 x 3")).pieces, make(Random("1 x 3")).pieces)

    def test_turned(self) -> None:
        data = b"some bytes that are turned"
        found = {turning.turned(Random(number), data) for number in range(200)}
        self.assertGreater(len(found), 150)
        for number in range(200):
            turning.turned(Random(number), b"")


if __name__ == "__main__":
    unittest.main()
