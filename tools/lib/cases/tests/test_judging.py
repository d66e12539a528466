"""What a table says, what its lines ask, and what counts as the answer that is wanted."""
import json
import os
import tempfile
import unittest

from lib import answers
from lib.cases import accounts, exchanges, rooms, tables
from lib.rows import NoRow

TABLE = """\
# Two rooms.
row group,,OPS,,,,,,,
begin 1 * HALT

# The first.
new
  taken
2 C1 D C
  DONE -
    C1       ONLINE  -- SYS -
row group,,DAY,,,,,,,
# The second.
new
  taken
"""
RULE = "PROFILE OPERCMDS MVS.VARY.DEV HELD NONE NEEDED UPDATE"


def left(*cases: tuple[str, list[str]]) -> list[str]:
    room = tables.Room("", (), (), [tables.Case(1, line, wanted) for line, wanted in cases])
    return accounts.left_by(room)


class Tables(unittest.TestCase):
    def setUp(self) -> None:
        with tempfile.NamedTemporaryFile("w", suffix=".cases", delete=False) as out:
            out.write(TABLE)
        self.addCleanup(os.remove, out.name)
        self.path = out.name

    def test_a_line_is_asked_with_those_before_it(self) -> None:
        first, second = tables.rooms_of(self.path)
        self.assertEqual(tables.room_of(self.path, 6), (first._replace(cases=first.cases[:1]), False))
        for line in (8, 9, 10):
            self.assertEqual(tables.room_of(self.path, line), (first, True))
        self.assertEqual(tables.room_of(self.path, 13), (second, True))

    def test_lines_in_which_nothing_is_asked(self) -> None:
        for line in (0, 1, 2, 3, 4, 5, 11, 12, 15):
            with self.assertRaises(NoRow):
                tables.room_of(self.path, line)

    def test_rooms_begin_with_what_stands_above_them(self) -> None:
        first, second = tables.rooms_of(self.path)
        self.assertEqual(
            (first.title, first.rows, first.beginning), ("The first", ("group,,OPS,,,,,,,",), ("1 * HALT",))
        )
        self.assertEqual(first.cases[1], tables.Case(8, "2 C1 D C", ["DONE -", "  C1       ONLINE  -- SYS -"]))
        self.assertEqual((second.title, second.rows), ("The second", ("group,,OPS,,,,,,,", "group,,DAY,,,,,,,")))


class Lines(unittest.TestCase):
    def test_a_body_has_the_length_that_is_sent(self) -> None:
        asked = exchanges.exchange_of(r'7 POST /x {"\x00"}')
        self.assertEqual(
            asked, exchanges.Exchange("7", b'POST /x HTTP/1.1\r\nContent-Length: 5\r\n\r\n{"\0"}', False, True)
        )

    def test_an_operation_by_its_row(self) -> None:
        asked = exchanges.exchange_of("7 C2 ADMIN Permit permit,OPERCMDS,MVS.**,OPS,READ,,,,C1,")
        head, body = asked.data.split(b"\r\n\r\n")
        self.assertEqual(head.split(b" ")[:2], [b"POST", b"/consoles/C2/admin"])
        keys = {"op": "Permit", "class": "OPERCMDS", "pattern": "MVS.**", "id": "OPS", "level": "READ", "when": "C1"}
        self.assertEqual(json.loads(body), keys)


class Answers(unittest.TestCase):
    def test_only_the_exact_bytes_are_an_answer(self) -> None:
        good = answers.done("07 it's me", rule="GROUP INFO AUTH SYS")
        self.assertEqual(rooms.transcript(good), ["DONE GROUP INFO AUTH SYS", "  07 it's me"])
        for bad in (
            good.replace(b"200 OK", b"200 Ok"), good.replace(b"application/json", b"text/plain"), good + b" ",
            good[:-1], b"",
        ):
            self.assertEqual(rooms.transcript(bad), rooms.shown(bad))

    def test_a_refusal_has_its_status(self) -> None:
        good = answers.refused("E55", "InUse ANNA")
        self.assertEqual(rooms.transcript(good), ["REFUSED E55 InUse ANNA -"])
        self.assertEqual(
            rooms.transcript(good.replace(b"409 Conflict", b"403 Forbidden"))[0], r"HTTP/1.1 403 Forbidden\r"
        )

    def test_a_status_and_a_missing_end_of_a_line_are_shown(self) -> None:
        self.assertEqual(rooms.end(3, b"", b"E91 Store\n"), ["status 3", "E91 Store"])
        self.assertEqual(rooms.end(0, b"BATCH 7 KEPT", b""), ["BATCH 7 KEPT (without the end of the line)"])


class Accounts(unittest.TestCase):
    def test_refusals_and_warnings_leave_rows(self) -> None:
        rows = left(
            ("12 C1 C X", ["REFUSED E55 InUse ANNA -"]),
            ("-1 C2 V 0A80,OFFLINE", [f"DONE {RULE} WARNED"]),
            ("13 C1 D C", [f"DONE {RULE}"]),
        )
        self.assertEqual(rows, ["12 C1 E55 -", f"0 C2 WARN {RULE} WARNED"])

    def test_what_is_not_handled_leaves_none(self) -> None:
        body = json.dumps({"code": "E10", "rule": "-", "status": "refused", "text": "NoConsole"})
        self.assertEqual(left(("7 POST /consoles/A%231/command {}", ["404 handled", body])), ["7 A#1 E10 -"])
        self.assertEqual(left(("7 POST /consoles/A%231/command {}", ["400 not handled", body])), [])


if __name__ == "__main__":
    unittest.main()
