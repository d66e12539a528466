"""The version of the program: the file, the copies in the program, and what an unproved program says."""
import os
import tempfile
import unittest

from lib import version


class Copies(unittest.TestCase):
    def test_the_program_has_the_version_of_the_file(self) -> None:
        # VERSION and tools/kit-line against what the program prints, and what its contract says that it prints
        self.assertEqual(version.lines_in(version.SOURCE), [version.line()])
        self.assertEqual(version.lines_in(version.DEFINITION), [version.line()])


class Unproved(unittest.TestCase):
    def setUp(self) -> None:
        folder = tempfile.TemporaryDirectory()
        self.addCleanup(folder.cleanup)
        self.folder = folder.name

    def test_a_program_without_a_proof_says_so(self) -> None:
        copy = version.unproved_copy(os.path.dirname(version.SOURCE), f"{self.folder}/copy")
        self.assertEqual(sorted(os.listdir(copy)), sorted(os.listdir(os.path.dirname(version.SOURCE))))
        self.assertEqual(version.lines_in(f"{copy}/version.rt"), [version.line(version.UNPROVED)])

    def test_a_patched_program_says_so(self) -> None:
        copy = version.unproved_copy(os.path.dirname(version.SOURCE), f"{self.folder}/copy", version.PATCHED)
        self.assertEqual(version.lines_in(f"{copy}/version.rt"), [version.line(version.PATCHED)])
        self.assertTrue(version.line(version.PATCHED).endswith("not proved, patched)"))

    def test_sources_without_the_word_are_not_compiled(self) -> None:
        os.mkdir(f"{self.folder}/src")
        with open(f"{self.folder}/src/version.rt", "w", encoding="utf-8") as file:
            file.write('const VERSION: &str = "opcmds 1.0\\n";\n')
        with self.assertRaises(version.NoWord):
            version.unproved_copy(f"{self.folder}/src", f"{self.folder}/copy")


if __name__ == "__main__":
    unittest.main()
