"""How a run is judged by its end, over programs of the system."""
import os
import tempfile
import unittest
from unittest import mock

from lib.fuzz import runs
from lib.fuzz.runs import Ran, Wrong

# prints its input, says its first word, and ends as its second says
PROGRAM = """#!/bin/sh
cat
test -z "$1" || echo "$1" >&2
eval "${2:-exit 0}"
"""


class Runs(unittest.TestCase):
    def setUp(self) -> None:
        folder = tempfile.TemporaryDirectory()
        self.addCleanup(folder.cleanup)
        program = f"{folder.name}/program"
        with open(program, "w", encoding="utf-8") as file:
            file.write(PROGRAM)
        os.chmod(program, 0o755)
        patch = mock.patch.object(runs, "built", lambda: program)
        patch.start()
        self.addCleanup(patch.stop)

    def what(self, *words: str) -> str | None:
        try:
            runs.wants_end(runs.run(words, b"a\n"))
        except Wrong as wrong:
            return wrong.what
        return None

    def test_streams(self) -> None:
        ran = runs.run(["a word", "exit 3"], b"in\n")
        self.assertEqual(ran[:3], (3, b"in\n", b"a word\n"))
        self.assertGreater(ran.memory, 1 << 16)

    def test_ends(self) -> None:
        self.assertIsNone(self.what())
        self.assertIsNone(self.what("E57 NotEmpty", "exit 1"))
        self.assertEqual(self.what("", "kill -SEGV $$"), "a signal ended it")
        self.assertEqual(self.what("", "exit 4"), "a status that no rule has")
        self.assertEqual(self.what("odd", "exit 1"), "not what is said of a fault")

    def test_what_does_not_end(self) -> None:
        with mock.patch.object(runs, "SECONDS", 0.1):
            self.assertRaisesRegex(Wrong, "it does not end", runs.run, ["", "exec sleep 10"])

    def test_memory(self) -> None:
        with mock.patch.object(runs, "MEMORY", 1 << 10):
            self.assertEqual(self.what(), "it takes too much memory")


class Answers(unittest.TestCase):
    def test_the_models_answer(self) -> None:
        runs.wants_answer(Ran(1, b"1 DONE -\n", b"", 0), (1, "1 DONE -\n", ""))
        runs.wants_answer(Ran(2, b"", b"error: odd\nmore\n", 0), (2, "", None))
        runs.wants_answer(Ran(2, b"", b"E60 RowFault 1 Kind\nopcmds: why\n", 0), (2, "", "E60 RowFault 1 Kind"))
        for ran in (Ran(0, b"1 DONE -\n", b"", 0), Ran(1, b"1 DONE\n", b"", 0), Ran(1, b"1 DONE -\n", b"x", 0)):
            self.assertRaises(Wrong, runs.wants_answer, ran, (1, "1 DONE -\n", ""))
        self.assertRaises(Wrong, runs.wants_answer, Ran(2, b"", b"", 0), (2, "", None))

    def test_what_is_reported_begins_where_they_differ(self) -> None:
        self.assertEqual(runs.cut((1, "a\nbc\n"), (1, "a\nbd\n")), (1, "bc\n"))


if __name__ == "__main__":
    unittest.main()
