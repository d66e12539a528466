"""The chart of the room's size is that of its table; tools/lib/older.py finds the statements of the rules."""
import os
import subprocess
import unittest

from lib import older

TOP = os.path.dirname(os.path.dirname(os.path.dirname(os.path.abspath(__file__))))


class Documents(unittest.TestCase):
    def test_growth_is_drawn(self) -> None:
        self.assertEqual(subprocess.run([f"{TOP}/tools/growth", "--check"], stdout=subprocess.DEVNULL).returncode, 0)

    def test_statements_are_found(self) -> None:
        old, new = older.statements(1), older.statements(3)
        self.assertEqual(len(new), 17)
        self.assertEqual(sorted(it for it in new if old[it] != new[it]), ["entries", "profiles", "usr"])
