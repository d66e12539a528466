"""What the manual repeats of the documents and of the definitions."""
import unittest

from lib.manual.rules import codes_in, commands_in, known_notes_in, needs_in, needs_listed

NEEDS = """\
## Operands

| `C` | `name` | cancels | a unit |

## What a command needs

| Command | Group | Level | Resource |
|---|---|---|---|
| `C name` | SYS | UPDATE | `MVS.JOB.name`; of a started task `MVS.STC.name` |
| `D A,L`, `D U` | INFO | READ | `MVS.D`, whatever it is |
| `LOGOFF` | | | none |
"""
LISTED = """\
COMMAND GROUP LEVEL RESOURCE
C name  SYS   UPDATE MVS.JOB.NAME
C name  SYS   UPDATE MVS.STC.NAME
D A,L   INFO  READ  MVS.D
D U     INFO  READ  MVS.D
LOGOFF  -     -     -
"""


class Rules(unittest.TestCase):
    def test_needs(self) -> None:
        wanted = [
            ("C name", "SYS", "UPDATE", "MVS.JOB.NAME"),
            ("C name", "SYS", "UPDATE", "MVS.STC.NAME"),
            ("D A,L", "INFO", "READ", "MVS.D"),
            ("D U", "INFO", "READ", "MVS.D"),
            ("LOGOFF", "-", "-", "-"),
        ]
        self.assertEqual((needs_in(NEEDS), needs_listed(LISTED)), (wanted, wanted))

    def test_commands(self) -> None:
        specs = 'command name options = record\n    command (codes "run") run_options\n    ∷ command (codes "who") []\n'
        self.assertEqual(commands_in(specs), ["run", "who"])

    def test_codes(self) -> None:
        self.assertEqual(codes_in("- N02 user: `it`: b.\nN03\n- E03 `BadCharacter` at: c\n"), ["N02", "E03"])
        self.assertEqual(known_notes_in('codes "N01" ∷ codes "E02" ∷ codes "N03" ∷ []'), ["N01", "N03"])


if __name__ == "__main__":
    unittest.main()
