"""A program is packed as proved only if it is the one that was proved, of the sources as they are."""
import os
import re
import tempfile
import unittest
from unittest import mock

from lib import record
from lib.packages.proof import NoProgram, note_of, note_of_library, proof_of, version
from lib.packages.trees import listed
from lib.places import TOP

ANSWERS = "#!/bin/sh\necho opcmds\n"


class Proof(unittest.TestCase):
    def setUp(self) -> None:
        folder = tempfile.TemporaryDirectory()
        self.addCleanup(folder.cleanup)
        self.program = f"{folder.name}/opcmds"
        self.write(ANSWERS)
        record.write(self.program, "d1", 1e9, "commit c1, proved by kit-1")

    def write(self, text: str) -> None:
        with open(self.program, "w", encoding="utf-8") as file:
            file.write(text)
        os.chmod(self.program, 0o755)

    def note(self, sources: str, is_named: bool = False) -> str:
        with mock.patch.object(record, "digest", return_value=sources):
            return note_of(self.program, is_named)

    def test_a_proved_program(self) -> None:
        wanted = rf"opcmds {re.escape(version())}: commit c1, proved by kit-1; SHA-256 [\da-f]{{64}}"
        self.assertRegex(self.note("d1"), f"^{wanted}$")

    def test_the_sources_changed(self) -> None:
        with self.assertRaisesRegex(NoProgram, "not known to be proved of these sources: tools/build proves"):
            self.note("d2")
        self.assertIn("not known to be proved; ", self.note("d2", True))

    def test_the_program_changed(self) -> None:
        self.write(f"{ANSWERS}exit 0\n")
        with mock.patch.object(record, "digest", return_value="d1"):
            self.assertIsNone(proof_of(self.program))

    def test_no_program(self) -> None:
        os.remove(self.program)
        with self.assertRaisesRegex(NoProgram, "there is no proved program: tools/build proves"):
            self.note("d1")
        with self.assertRaisesRegex(NoProgram, "is not a program that answers --help"):
            self.note("d1", True)

    def test_a_library(self) -> None:
        with mock.patch.object(record, "digest", return_value="d1") as digest:
            self.assertIn(": commit c1, proved by kit-1; SHA-256", note_of_library(self.program))
        digest.assert_called_once_with(TOP, "opc_c", record.PROVED)
        with mock.patch.object(record, "digest", return_value="d2"):
            self.assertIn(": not known to be proved; SHA-256", note_of_library(self.program))
        with self.assertRaisesRegex(NoProgram, "tools/library makes it"):
            note_of_library(f"{self.program}.so")

    def test_what_is_installed_is_there(self) -> None:
        with open(f"{TOP}/packaging/files", encoding="utf-8") as file:
            sources = [line.split()[1] for line in file if not line.startswith("#")]
        self.assertEqual(len(sources), len(listed()))
        sources = [source for source in sources if source not in ("PROGRAM", "PROOF")]
        self.assertEqual([source for source in sources if not os.path.isfile(f"{TOP}/{source}")], [])


if __name__ == "__main__":
    unittest.main()
