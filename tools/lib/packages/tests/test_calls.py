"""Which calls a unit allows."""
import unittest

from lib.packages.calls import CALL, allowed_in

UNIT = "[Service]\nSystemCallFilter=read write chown\nSystemCallFilter=~chown write\nSystemCallFilter=openat\n"


class Calls(unittest.TestCase):
    def test_lines_follow_one_another(self) -> None:
        self.assertEqual(allowed_in(UNIT), {"read", "openat"})

    def test_what_was_traced(self) -> None:
        traced = '12 read(3, "write(", 6) = 6\n13 <... accept4 resumed>) = 4\n13 openat(AT_FDCWD, "x") = 3\n'
        self.assertEqual(CALL.findall(traced), ["read", "openat"])


if __name__ == "__main__":
    unittest.main()
