"""What is found under valgrind, over small programs."""
import shutil
import subprocess
import tempfile
import unittest
from unittest import mock

from lib.fuzz import checkers

COMPILER = shutil.which("cc")
# reads a byte that was allocated, and, if there is an argument, one past it
SOURCE = """
#include <stdio.h>
#include <stdlib.h>
int main(int count, char **words) {
    volatile char *bytes = calloc(8, 1);
    putchar(bytes[7 + count - 1] + 'a' > 0 ? 'y' : 'n');
    return words[0] == NULL;
}
"""


@unittest.skipUnless(COMPILER and shutil.which("valgrind"), "there is no compiler, or no valgrind")
class Valgrind(unittest.TestCase):
    def setUp(self) -> None:
        folder = tempfile.TemporaryDirectory()
        self.addCleanup(folder.cleanup)
        program = f"{folder.name}/a program"
        subprocess.run([COMPILER, "-O0", "-x", "c", "-o", program, "-"], input=SOURCE.encode(), check=True)
        with mock.patch.object(checkers, "built", lambda: program):
            self.program = checkers.program_under("valgrind", folder.name)

    def ran(self, *words: str) -> tuple[int, bytes, bool]:
        ran = subprocess.run([self.program, *words], capture_output=True)
        return ran.returncode, ran.stdout, b"Invalid read" in ran.stderr

    def test_nothing_is_wrong(self) -> None:
        self.assertEqual(self.ran(), (0, b"y", False))

    def test_a_read_past_the_end(self) -> None:
        self.assertEqual(self.ran("more"), (checkers.BAD, b"", True))


if __name__ == "__main__":
    unittest.main()
