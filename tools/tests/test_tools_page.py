"""docs/tools.md is the page of the tools as they are, and says of each what it does and how long it takes."""
import unittest

from lib.places import TOP
from lib.repo.tools import Tool, page, table_of, tool_of, tools

PYTHON = '''\
#!/usr/bin/env python3
"""Tries all of it.py, and
more. How long: 2.5 seconds. It is good.

  it-all             another tool
  it [--all] [--seed
     S]              not a second line of the call
  it -- NAME         one

The program is that of OPCMDS."""
'''
LONG = '#!/usr/bin/env python3\n"""It.\n\n  it [--one]\n      [NAME..]     these"""\n'
BASH = "#!/bin/bash\n# Prints one. By\n# contents.\n#\n#   it NAME PART..     of these\nset -o pipefail\n# No. No.\n"


class Page(unittest.TestCase):
    maxDiff = None

    def test_the_page_is_that_of_the_tools(self) -> None:
        with open(f"{TOP}/docs/tools.md", encoding="utf-8") as file:
            self.assertEqual(file.read(), page(), "tools/repo tools --write makes it")

    def test_each_tool_says_what_it_does_and_how_long_it_takes(self) -> None:
        self.assertEqual([it.name for it in tools() if not (it.sentence and it.how_long)], [])

    def test_heads_are_read(self) -> None:
        found = tool_of("it", PYTHON)
        self.assertEqual(found.call, "tools/it [--all] [--seed")
        self.assertEqual(found[2:], ("Tries all of it.py, and more.", "2.5 seconds", True))
        self.assertEqual(tool_of("it", BASH), Tool("it", "tools/it NAME PART..", "Prints one.", "", False))
        self.assertEqual(tool_of("it", LONG).call, "tools/it [--one] [NAME..]")
        self.assertEqual(tool_of("it", LONG.replace("[--one]", "[--one N] [--two N]")).call, "tools/it ..")
        self.assertEqual(tool_of("it", '#!/usr/bin/env python3\n"""It."""\n').call, "tools/it")

    def test_rows_are_written(self) -> None:
        rows = table_of([Tool("it", "tools/it [A | B]", "Does it.", "a second", False)]).splitlines()
        self.assertEqual(rows[-1], r"| `tools/it [A \| B]` | Does it. | a second |")
