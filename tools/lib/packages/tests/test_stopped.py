"""The commands of a unit."""
import unittest

from lib.packages.stopped import commands_in

UNIT = """[Service]
Type=exec
ExecStart=/bin/opcmds serve --db %S/opcmds/gate.db --socket %t/opcmds/http.sock
ExecStopPost=-/bin/opcmds run --db %S/opcmds/gate.db
"""


class Commands(unittest.TestCase):
    def test_the_commands_of_a_unit(self) -> None:
        file = ["--db", "/room/opcmds/gate.db"]
        started = ["/bin/opcmds", "serve", *file, "--socket", "/room/opcmds/http.sock"]
        wanted = {"ExecStart": started, "ExecStopPost": ["/bin/opcmds", "run", *file]}
        self.assertEqual(commands_in(UNIT, "/room"), wanted)


if __name__ == "__main__":
    unittest.main()
