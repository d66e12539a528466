"""The completions: what is quoted in them, and that bash reads them."""
import subprocess
import tempfile
import unittest

from lib.files import bytes_of
from lib.manual.completions import bash, zsh
from lib.manual.help import Command, Option, codes_of
from lib.manual.shells import by_bash
from lib.places import TOP

TABLE = [
    Command("run", "Runs 'it'", [
        Option("--db", "FILE", "The file: [new]"),
        Option("--level", "LEVEL", "The level: NONE or READ"),
        Option("--json", "", ""),
    ]),
    Command("check", "Checks", [Option("--json", "", "")], Option("", "FILE", "")),
    Command("help", "Helps", []),
]


class Completions(unittest.TestCase):
    def test_zsh_quotes_what_help_says(self) -> None:
        text = zsh(TABLE)
        self.assertIn("'--db[The file\\: \\[new\\]]:FILE:_files'", text)
        self.assertIn("'run:Runs '\\''it'\\'''", text)
        self.assertIn(":LEVEL:(NONE READ)'", text)
        self.assertIn("    check) _arguments \\\n        '--json[]' \\\n        '::FILE:_files' ;;", text)

    def test_bash_offers(self) -> None:
        with tempfile.NamedTemporaryFile("w", suffix=".bash") as file:
            file.write(bash(TABLE))
            file.flush()
            self.assertEqual(subprocess.run(["bash", "-n", file.name]).returncode, 0)
            for words, wanted in (
                (["opcmds", ""], ["run", "check", "help"]),
                (["opcmds", "run", "--level", "R"], ["READ"]),
                (["opcmds", "run", "--level", "=", "N"], ["NONE"]),
                (["opcmds", "run", "--json", "-"], ["--db", "--level"]),
                (["opcmds", "check", "hom"], ["home"]),
                (["opcmds", "check", "-"], ["--json"]),
                (["opcmds", "none", ""], []),
            ):
                with self.subTest(words):
                    self.assertEqual(by_bash(words, file.name, "/"), wanted)

    def test_codes_are_those_of_the_documents(self) -> None:
        for name in ("opcmds.bash", "_opcmds"):
            text = bytes_of(f"{TOP}/packaging/{name}").decode()
            for value in ("CODE", "CODES"):
                with self.subTest(name, value=value):
                    self.assertIn(" ".join(codes_of(value)), text, "tools/manual --write makes it")


if __name__ == "__main__":
    unittest.main()
