"""What a browser is asked for, where one is installed."""
import unittest

from lib.sheet.browser import WIDTHS, installed, shown

HEAD = "<!doctype html><html><head><title>T</title></head><body>"


@unittest.skipUnless(installed(), "needs Chromium")
class Browser(unittest.TestCase):
    def test_shown(self) -> None:
        narrow, wide = WIDTHS
        texts = f"<p>&lt;/script&gt; {'W' * 45}</p><p style=\"display:none\">hidden</p>"
        found = shown(installed(), f"{HEAD}{texts}</body></html>")
        self.assertGreater(found[narrow].most, narrow)
        self.assertEqual(found[wide].most, wide)
        self.assertEqual(found[wide].hidden, ["hidden"])
        self.assertIn("<p>&lt;/script&gt; WWW", found[wide].read)


if __name__ == "__main__":
    unittest.main()
