"""The worst inputs are as large as the limits of the rules allow, and no larger."""
import unittest

from lib.bench.inputs import INPUTS
from lib.bench.mixture import kinds, mixed

# Of each work the most bytes of a text, and the most lines after the header of a policy file.
MOST = {
    "explain": (16_777_216, 10_000), "first policy": (16_777_216, 10_000), "export": (16_777_216, 10_000),
    "import": (16_777_216, 10_000), "again": (16_777_216, 10_000), "script": (1_048_576, None),
    "body": (65_536, None), "account": (4, None), "commands": (16_777_216, 10_000),
    **{work: (16_777_216, 9_999) for work in ("check", "may", "diff", "sheet")},
}


class Limits(unittest.TestCase):
    def test_texts_are_within_them(self) -> None:
        for title, (work, size, made) in INPUTS.items():
            most_bytes, most_rows = MOST[work]
            text = made(size)
            with self.subTest(title):
                self.assertTrue(text.isascii())
                self.assertLessEqual(len(text), most_bytes)
                # (the size of others is not their rows, and their texts are large)
                if most_rows and size <= most_rows:
                    self.assertLessEqual(len(text.splitlines()) - 1, most_rows)

    def test_a_tenth_is_a_tenth(self) -> None:
        for title, (work, size, made) in INPUTS.items():
            nothing, few, many = (len(made(it)) for it in (0, size // 10, size))
            with self.subTest(title):
                if work != "account":
                    self.assertAlmostEqual((many - nothing) / (few - nothing), 10, delta=0.3)


class Mixtures(unittest.TestCase):
    def test_kinds_come_in_turn(self) -> None:
        names = list(kinds())
        asked = mixed(names)
        first = [next(asked).data for _ in names]
        self.assertEqual(first, [next(kinds()[name]).data for name in names])
        self.assertNotEqual(first, [next(asked).data for _ in names])

    def test_each_import_has_a_number_of_its_own(self) -> None:
        imports = kinds()["imports"]
        asked = [next(imports).data.split(b" ")[1] for _ in range(6)]
        self.assertEqual(asked, [b"/consoles/C2/import/%d" % batch for batch in (1, 1, 1, 2, 2, 2)])


if __name__ == "__main__":
    unittest.main()
