"""The page, of its parts."""
import base64
import gzip
import re
import unittest

from lib.embedded.paging import asking, digest, page, text
from lib.files import bytes_of
from lib.places import TOP

MODULE = b"\0asm\1\0\0\0"


class PagingTest(unittest.TestCase):
    def setUp(self) -> None:
        self.page = page(MODULE, "opcmds 9.9")

    def part(self, tag: str) -> str:
        return re.findall(rf"(?s)<{tag}>(.*?)</{tag}>", self.page)[0]

    def test_digests(self) -> None:
        rules = re.findall('Content-Security-Policy" content="(.*)">', self.page)[0]
        self.assertIn(f"script-src {digest(self.part('script'))} 'wasm-unsafe-eval';", rules)
        self.assertIn(f"style-src {digest(self.part('style'))};", rules)
        self.assertTrue(rules.startswith("default-src 'none';"))

    def test_module(self) -> None:
        packed = re.findall('const MODULE = "(.*)";', self.page)[0]
        self.assertEqual(gzip.decompress(base64.b64decode(packed)), MODULE)

    def test_nothing_is_left_open(self) -> None:
        self.assertNotIn("{{", self.page)
        self.assertIn("opcmds 9.9", self.page)
        self.assertEqual(len(re.findall("</script>", self.page)), 1)

    def test_same_bytes(self) -> None:
        self.assertEqual(page(MODULE, "opcmds 9.9"), self.page)

    def test_what_asks_is_part_of_the_script(self) -> None:
        self.assertIn(asking(MODULE), self.part("script"))

    def test_each_note_has_a_meaning(self) -> None:
        notes = re.findall(r"(?m)^- (N\d\d) ", bytes_of(f"{TOP}/docs/rules/notes.md").decode())
        self.assertGreater(len(notes), 10)
        self.assertEqual(re.findall(r"(?m)^  (N\d\d):", text("meanings.js")), notes)


if __name__ == "__main__":
    unittest.main()
