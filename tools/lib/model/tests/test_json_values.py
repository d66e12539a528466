"""Values of JSON: what reads, and how deep."""
import unittest

from lib.model.json_values import DEEPEST, read
from lib.model.told import shown

BAD = (
    b"", b"{", b"01", b"1.", b"NaN", b"1e999", b"9" * 400, b'"\\ud800"', b'{"a":"\\ud800","a":1}', b"\xff", b"[1,]",
    b"\xef\xbb\xbf1", b"[" * 100_000, b'"\x00"',
)


class JsonValues(unittest.TestCase):
    def test_what_reads(self) -> None:
        self.assertEqual(read(b' {"a":[1,-0.5e1,null,"\\ud834\\udd1e"],"a":{"b":true}} '), {"a": {"b": True}})
        self.assertEqual(read(b"9" * 300), int("9" * 300))

    def test_what_does_not(self) -> None:
        for data in BAD:
            with self.subTest(data[:40]), self.assertRaises(ValueError):
                read(data)

    def test_depth(self) -> None:
        for opens, inner, closes in ((b"[", b"", b"]"), (b'{"[\\"{":', b"1", b"}")):
            read(opens * DEEPEST + inner + closes * DEEPEST)
            with self.assertRaises(ValueError):
                read(opens * (DEEPEST + 1) + inner + closes * (DEEPEST + 1))


class Shown(unittest.TestCase):
    def test_quotes_and_other_characters(self) -> None:
        self.assertEqual(shown('a"b\\c\u00e9\n'), '"a\\"b\\\\c\\xc3\\xa9\\x0a"')

    def test_length(self) -> None:
        self.assertEqual(shown("x" * 126), f'"{"x" * 126}"')
        self.assertEqual(shown("x" * 127), f'"{"x" * 126}"..')


if __name__ == "__main__":
    unittest.main()
