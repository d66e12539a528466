"""How must-fail edits are read and placed."""
import os
import tempfile
import unittest

from lib.edits.edit import Edit, edits_in, texts_of

SOURCE = """\
pub fn least(a: u32, b: u32) -> u32 {
    if a < b { a } else { b }
}

pub const MOST: u32 = 7;
"""
GOOD = """\
file: src/lib.rt
old:     if a < b { a } else { b }
new:     if a < b { b } else { a }
"""


class Reading(unittest.TestCase):
    def setUp(self) -> None:
        room = tempfile.TemporaryDirectory()
        self.addCleanup(room.cleanup)
        self.folder = room.name
        os.makedirs(f"{self.folder}/src")
        os.makedirs(f"{self.folder}/must-fail")
        self.write("src/lib.rt", SOURCE)

    def write(self, path: str, text: str) -> None:
        with open(f"{self.folder}/{path}", "w", encoding="utf-8") as file:
            file.write(text)

    def edits(self) -> tuple[list[Edit], list[str]]:
        return edits_in(self.folder, "low", texts_of(self.folder))

    def fault(self, text: str) -> str | None:
        self.write("must-fail/it.edit", text)
        return self.edits()[0][0].fault

    def test_the_function_in_whose_body_it_lies(self) -> None:
        self.write("must-fail/it.edit", GOOD)
        (edit,), stray = self.edits()
        self.assertEqual((edit.fault, stray, edit.key()), (None, [], ("src/lib.rt", "least", "")))
        self.assertEqual(edit.function.text[1], "    if a < b { a } else { b }")
        self.assertEqual(edit.wrong.text[1], "    if a < b { b } else { a }")

    def test_a_constant_has_no_function(self) -> None:
        self.write("must-fail/it.edit", "file: src/lib.rt\nold: = 7\nnew: = 8\n")
        (edit,), _ = self.edits()
        self.assertEqual((edit.fault, edit.function), (None, None))
        self.assertIn("MOST: u32 = 8;", edit.made["src/lib.rt"])

    def test_a_later_pair_applies_to_what_an_earlier_one_made(self) -> None:
        self.write("must-fail/it.edit", f"{GOOD}old: {{ b }} else {{ a }}\nnew: {{ a }} else {{ a }}\n")
        (edit,), _ = self.edits()
        self.assertEqual(edit.wrong.text[1], "    if a < b { a } else { a }")

    def test_a_text_that_stands_there_twice(self) -> None:
        self.assertIn("2 times", self.fault("file: src/lib.rt\nold: pub \nnew:\n"))

    def test_a_text_that_is_not_there(self) -> None:
        self.assertIn("0 times", self.fault("file: src/lib.rt\nold: max(a, b)\nnew: a\n"))

    def test_a_file_that_is_not_there(self) -> None:
        self.assertIn("no file src/other.rt", self.fault("file: src/other.rt\nold: a\nnew: b\n"))

    def test_a_file_outside(self) -> None:
        self.assertIn("names no file", self.fault("file: src/../../x\nold: a\nnew: b\n"))

    def test_no_pair(self) -> None:
        self.assertIn("no 'old:' and 'new:' pair", self.fault("file: src/lib.rt\n"))

    def test_a_file_of_another_name(self) -> None:
        self.write("must-fail/it.txt", GOOD)
        self.write("must-fail/why.md", "read me")
        self.assertEqual(self.edits(), ([], ["it.txt"]))


if __name__ == "__main__":
    unittest.main()
