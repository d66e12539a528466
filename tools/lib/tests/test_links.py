"""Dead links of a folder of pages."""
import os
import tempfile
import unittest

from lib.links import dead_below

PAGE = """\
# A page, with `code`

[itself](#a-page-with-code), [no heading](#a-page), [elsewhere](https://example.org/page#x), [a folder](below).
[a page](below/other.md#twice-1), [no heading of it](below/other.md#thrice), [no page](below/none.md),
![a picture](none.svg "named"), [out of the folder](../outside.md).

```
[in a block](none.md)
```
"""


class Links(unittest.TestCase):
    def test_dead_ones(self) -> None:
        with tempfile.TemporaryDirectory() as room:
            os.makedirs(f"{room}/top/below")
            for name, text in (
                ("outside.md", "# Outside\n"),
                ("top/page.md", PAGE),
                ("top/below/other.md", "# Twice\n\n## Twice\n\n[back](../page.md)\n"),
            ):
                with open(f"{room}/{name}", "w", encoding="utf-8") as file:
                    file.write(text)
            wanted = ["#a-page", "below/other.md#thrice", "below/none.md", "none.svg", "../outside.md"]
            self.assertEqual(dead_below(f"{room}/top"), [f"page.md: {link}" for link in wanted])


if __name__ == "__main__":
    unittest.main()
