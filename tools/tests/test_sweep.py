"""tools/sweep over programs of its own: where nothing is refused it fails."""
import os
import shutil
import subprocess
import tempfile
import unittest

TOOLS = os.path.dirname(os.path.dirname(os.path.abspath(__file__)))
COMPILER = shutil.which("cc")
# asks for memory, writes one line, and reports a fault as the program does
GOOD = r"""
#include <stdio.h>
#include <stdlib.h>
#include <string.h>
#include <unistd.h>
static int fault(const char *text) {
    (void)!write(2, text, strlen(text));
    return 3;
}
int main(void) {
    void *volatile room = malloc(9);
    if (!room) return fault("E90 NoMemory\n");
    return write(1, "one\n", 4) == 4 ? 0 : fault("E91 Store\nopcmds: standard output: Input/output error\n");
}
"""


@unittest.skipUnless(COMPILER, "there is no compiler")
class Sweeps(unittest.TestCase):
    def setUp(self) -> None:
        folder = tempfile.TemporaryDirectory()
        self.addCleanup(folder.cleanup)
        self.folder = folder.name

    def made(self, text: str = GOOD) -> str:
        program = f"{self.folder}/program"
        subprocess.run([COMPILER, "-x", "c", "-o", program, "-"], input=text.encode(), check=True)
        return program

    def swept(self, call: str, *words: str) -> tuple[int, str]:
        ran = subprocess.run(
            [f"{TOOLS}/sweep", "--call", call, "--", *words], stdin=subprocess.DEVNULL, capture_output=True, text=True
        )
        self.assertEqual(ran.stderr, "")
        return ran.returncode, ran.stdout

    def assert_fails(self, status: int, said: str) -> None:
        self.assertEqual(status, 1)
        self.assertIn("0 refused, 0 bad\n  nothing was refused: the program does not make such calls", said)
        self.assertTrue(said.endswith("\n0 passed, 1 failed\n"), said)

    def test_each_call_is_refused(self) -> None:
        program = self.made()
        for call in ("alloc", "write"):
            status, said = self.swept(call, program)
            self.assertEqual((status, said), (0, f"{program}: 1 of {call}, 1 refused, 0 bad\n1 passed, 0 failed\n"))

    def test_a_program_that_makes_no_such_call(self) -> None:
        self.assert_fails(*self.swept("read", self.made()))
        self.assert_fails(*self.swept("write", "/bin/true"))

    def test_a_program_that_drops_the_preload(self) -> None:
        for call in ("alloc", "write"):
            self.assert_fails(*self.swept(call, shutil.which("env"), "-u", "LD_PRELOAD", self.made()))

    def test_a_refusal_that_is_not_reported(self) -> None:
        status, said = self.swept("alloc", self.made(GOOD.replace("NoMemory", "NoRoom")))
        self.assertEqual((status, said.splitlines()[-1]), (1, "0 passed, 1 failed"))


if __name__ == "__main__":
    unittest.main()
