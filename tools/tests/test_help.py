"""What tools answer without a program: names that are unknown, and that no program is there."""
import os
import subprocess
import tempfile
import unittest

TOOLS = os.path.dirname(os.path.dirname(os.path.abspath(__file__)))


def ran(tool: str, *words: str, program: str = "/nonexistent") -> subprocess.CompletedProcess:
    how = {"stdin": subprocess.DEVNULL, "capture_output": True, "text": True, "timeout": 60}
    return subprocess.run([f"{TOOLS}/{tool}", *words], env={**os.environ, "OPCMDS": program}, **how)


class Names(unittest.TestCase):
    def test_source_digest_without_a_name(self) -> None:
        for words in ((), ("--other",)):
            found = ran("source-digest", *words)
            self.assertEqual((found.returncode, found.stdout), (2, ""))
            self.assertIn("source-digest NAME PART", found.stderr)


class Scripts(unittest.TestCase):
    def test_a_script_that_is_not_there(self) -> None:
        found = ran("scripts", "nosuch")
        self.assertEqual(found.returncode, 2)
        self.assertIn("there is no script nosuch", found.stderr)

    def test_without_a_program(self) -> None:
        found = ran("scripts", "tour")
        self.assertEqual((found.returncode, found.stdout), (1, ""))
        self.assertRegex(found.stderr, r"\Ano proved program is there.*\n\Z")

    def test_one_script_alone(self) -> None:
        with tempfile.TemporaryDirectory() as folder:
            program = f"{folder}/program"
            with open(program, "w", encoding="utf-8") as out:
                out.write("#!/bin/sh\n")
            os.chmod(program, 0o700)
            found = ran("scripts", "tour", program=program)
        self.assertIn("tour: at once: no\n", found.stdout)
        self.assertTrue(found.stdout.endswith("\n0 passed, 4 failed\n"))


if __name__ == "__main__":
    unittest.main()
