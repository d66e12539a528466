"""The help of a program as a table of its commands and options."""
import unittest

from lib.manual.help import Command, Option, codes_of, commands_in, file_in, options_in, too_wide, usage_of

SCREEN = """\
Decides who may.

Usage: gate COMMAND [OPTIONS]

Ask a policy      who       who may enter it
                  explain   why one may, or may not (--why)
Keep a policy     import    load a policy file

gate COMMAND --help has options; man gate has all.
"""
COMMAND = """\
Says why

Usage: gate explain --user USER (--json | --mode MODE)
                    --level LEVEL [--db FILE] [< POLICY]

Arguments:
  [FILE]  The policy

Options:
      --user <USER>    The user: 1 to 8 name characters
      --db <FILE>
          The database file,
          which is there
      --level <LEVEL>  The level: NONE, READ or UPDATE [default: READ]
      --logon <LOGON>  The logon [possible values: OPTIONAL, AUTO]
      --mode <MODE>    The mode, 600 or 660; 600 without this
      --json           For programs
  -h, --help           Print help

It says why.

Examples: gate explain
Status: 0 allowed,
      --none  of the options
"""


class Help(unittest.TestCase):
    def test_commands(self) -> None:
        wanted = {
            "who": "who may enter it", "explain": "why one may, or may not (--why)", "import": "load a policy file",
        }
        self.assertEqual(commands_in(SCREEN), wanted)

    def test_usage(self) -> None:
        wanted = "gate explain --user USER (--json | --mode MODE) --level LEVEL [--db FILE] [< POLICY]"
        self.assertEqual((usage_of(SCREEN), usage_of(COMMAND)), ("gate COMMAND [OPTIONS]", wanted))

    def test_rest(self) -> None:
        command = Command("explain", "", [], file_in(COMMAND), COMMAND)
        self.assertEqual(command.file, Option("", "FILE", "The policy"))
        self.assertIsNone(file_in(SCREEN))
        self.assertEqual(command.said(), ["Says why", "It says why."])
        self.assertEqual(command.statuses(), "0 allowed, --none of the options")

    def test_width(self) -> None:
        self.assertEqual(too_wide("x" * 78 + "\n" + "y" * 79), ["y" * 79])

    def test_codes(self) -> None:
        codes, notes = codes_of("CODE"), codes_of("CODES")
        self.assertEqual((codes[0], codes[-1], notes[0], codes_of("FILE")), ("E01", "WARN", "N01", ()))
        self.assertEqual(Option("--code", "CODE", "As E20 or WARN", codes=("E20",)).words(), ["E20"])

    def test_options(self) -> None:
        self.assertEqual(
            options_in(COMMAND),
            [
                Option("--user", "USER", "The user: 1 to 8 name characters"),
                Option("--db", "FILE", "The database file, which is there"),
                Option("--level", "LEVEL", "The level: NONE, READ or UPDATE [default: READ]"),
                Option("--logon", "LOGON", "The logon [possible values: OPTIONAL, AUTO]"),
                Option("--mode", "MODE", "The mode, 600 or 660; 600 without this"),
                Option("--json", "", "For programs"),
                Option("--help", "", "Print help"),
            ],
        )

    def test_values(self) -> None:
        words = {option.name: option.words() for option in options_in(COMMAND) if option.words()}
        wanted = {"--level": ["NONE", "READ", "UPDATE"], "--logon": ["OPTIONAL", "AUTO"], "--mode": ["600", "660"]}
        self.assertEqual(words, wanted)


if __name__ == "__main__":
    unittest.main()
