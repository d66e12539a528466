"""Bytes as tables write them."""
import unittest

from lib.escapes import unescaped


class Escapes(unittest.TestCase):
    def test_each(self) -> None:
        self.assertEqual(unescaped(r"a\r\n\t\xff\x5cn\[3 xy\n]é"), b"a\r\n\t\xff\\nxy\nxy\nxy\n\xc3\xa9")

    def test_other_backslashes_stand_for_themselves(self) -> None:
        self.assertEqual(unescaped(r"\q \["), rb"\q \[")


if __name__ == "__main__":
    unittest.main()
