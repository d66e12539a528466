"""docs/performance/minutes.md has the minutes of each crate, and names the longest chain that follows from them and
from crates.txt. No other page has either."""
import os
import re
import unittest

from lib import chain
from lib.crates import crates, layers_in, listed
from lib.places import TOP

FOLDER = f"{TOP}/docs/performance"
UNKNOWN = re.compile(r"(?i)not measured")
CHAIN = re.compile(r"`opc\w*`(?:, `opc\w*`){5}")


def text_of(path: str) -> str:
    with open(path, encoding="utf-8") as it:
        return it.read()


class Minutes(unittest.TestCase):
    maxDiff = None

    @classmethod
    def setUpClass(cls) -> None:
        cls.page = text_of(f"{FOLDER}/minutes.md")
        others = [f"{FOLDER}/{name}" for name in sorted(os.listdir(FOLDER)) if name != "minutes.md"]
        cls.others = {path: text_of(path) for path in (f"{TOP}/docs/PERFORMANCE.md", *others)}

    def test_each_crate_has_minutes(self) -> None:
        self.assertEqual([*chain.minutes_in(self.page)], crates(), "tools/test NAME > FILE; tools/chain --write FILE")

    def test_the_page_is_that_of_its_minutes(self) -> None:
        below = {name: used for _, names in layers_in(listed()) for name, used in names.items()}
        self.assertEqual(self.page, chain.page_of(below, chain.minutes_in(self.page)), "tools/chain --write makes it")

    def test_no_other_page_has_them(self) -> None:
        found = [path for path, text in self.others.items() if chain.minutes_in(text) or CHAIN.search(text)]
        self.assertEqual(found, [])

    def test_each_row_has_a_figure(self) -> None:
        self.assertEqual([path for path, text in self.others.items() if UNKNOWN.search(text)], [])
