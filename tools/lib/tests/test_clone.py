"""A copy of some crates of a repository."""
import os
import subprocess
import tempfile
import unittest

from lib.clone import Clone, below_in, crates_of_tests, lines_in, lines_of, standing_on
from lib.places import TOP

CRATES = """\
# words
low: arrayvec
other: low  # beside it
high: low thiserror
high_tests: high
"""


class Copies(unittest.TestCase):
    def setUp(self) -> None:
        room = tempfile.TemporaryDirectory()
        self.addCleanup(room.cleanup)
        self.top, self.room = f"{room.name}/top", f"{room.name}/room"
        for name in ("low", "other", "high", "high_tests"):
            self.write(f"crates/{name}/src/lib.rt", name)
            self.write(f"crates/{name}/out/kept", name)
        self.write("crates/high/must-fail/it.edit", "")
        self.write("crates.txt", CRATES)
        self.write(".gitignore", "out/\n")
        subprocess.run(["git", "init", "-q", self.top], check=True)

    def write(self, path: str, text: str) -> None:
        os.makedirs(os.path.dirname(f"{self.top}/{path}"), exist_ok=True)
        with open(f"{self.top}/{path}", "w", encoding="utf-8") as file:
            file.write(text)

    def test_what_crates_stand_on(self) -> None:
        known = lines_of(self.top)
        self.assertEqual(
            {name: below for name, (_, below) in known.items()},
            {"low": [], "other": ["low"], "high": ["low"], "high_tests": ["high"]},
        )
        self.assertEqual(standing_on(known, ["high"]), {"high", "low"})

    def test_only_what_is_named_and_below_it(self) -> None:
        clone = Clone(self.top, self.room, ["high"])
        self.assertEqual(sorted(os.listdir(f"{clone.root}/crates")), ["high", "low"])
        self.assertFalse(os.path.exists(f"{clone.root}/crates/low/out"))
        with open(f"{clone.root}/crates.txt", encoding="utf-8") as file:
            self.assertEqual(file.read(), "low: arrayvec\nhigh: low thiserror\n")

    def test_what_the_product_stands_on_is_proved_with_it(self) -> None:
        known = lines_in("high: kept_failing\nkept_failing:\nhigh_tests: high lost_failing\nlost_failing:\n")
        self.assertEqual(crates_of_tests(below_in(known)), {"high_tests", "lost_failing"})
        known = lines_of(TOP)
        proved = known.keys() - crates_of_tests(below_in(known))
        self.assertEqual(standing_on(known, proved), proved)

    def test_edits_and_tests_are_away_for_a_time(self) -> None:
        clone = Clone(self.top, self.room, [])
        parts = ("crates/high/must-fail", "crates/high_tests", "crates.txt")
        folder, tests, listed = (f"{clone.root}/{part}" for part in parts)
        with clone.to_prove():
            self.assertFalse(os.path.exists(folder))
            self.assertFalse(os.path.exists(tests))
            self.assertNotIn("high_tests", lines_of(clone.root))
            self.assertIn("high", lines_of(clone.root))
        self.assertEqual(os.listdir(folder), ["it.edit"])
        self.assertEqual(os.listdir(f"{tests}/src"), ["lib.rt"])
        with open(listed, encoding="utf-8") as file:
            self.assertEqual(file.read(), CRATES)


if __name__ == "__main__":
    unittest.main()
