"""What counts as wrong with an answer, with what is said of a fault, and with a response."""
import unittest

from lib.answers import done, refused, unread
from lib.fuzz import rules


class Forms(unittest.TestCase):
    def test_the_table_of_the_rules(self) -> None:
        forms = rules.forms()
        self.assertEqual((forms["E03"].response, forms["E03"].run), (400, 1))
        self.assertEqual((forms["E45"].response, forms["E51"].run), (None, None))
        self.assertEqual((forms["E92"].response, forms["E92"].run), (None, 3))

    def test_texts(self) -> None:
        self.assertIsNone(rules.wrong_fault("E04", "UnknownVerb 0 3"))
        self.assertIsNone(rules.wrong_fault("E60", "RowFault 7 Columns"))
        for code, text in (("E04", "UnknownVerb 0"), ("E04", "UnknownVerb 0 03"), ("E53", "Missing"), ("E99", "X")):
            self.assertIsNotNone(rules.wrong_fault(code, text))


class Answers(unittest.TestCase):
    def test_good(self) -> None:
        good = (
            b"", b"BAD LINE 0\n", b"1 DONE -\n  any text\n", b"7 REFUSED E03 BadCharacter 2 -\n",
            b"7 REFUSED E20 DeniedProfile PROFILE OPERCMDS MVS.** HELD NONE NEEDED UPDATE\n",
            b"7 DONE PROFILE CONSOLE C1 HELD NONE NEEDED READ WARNED\n", b"7 DONE GROUP INFO AUTH SYS,CONS\n",
        )
        for printed in good:
            self.assertIsNone(rules.wrong_answers(printed), printed)

    def test_bad(self) -> None:
        bad = (
            b"1 DONE -", b"  a line\n", b"1 DONE\n", b"1 REFUSED E20 DeniedProfile\n", b"BAD LINE 1\n1 DONE -\n", b"\n",
            b"12345678901234 DONE -\n", b"1 REFUSED E99 Odd -\n", b"1 DONE GROUP INFO AUTH CONS,SYS\n",
            b"1 DONE \xff\n",
        )
        for printed in bad:
            self.assertIsNotNone(rules.wrong_answers(printed), printed)


class Said(unittest.TestCase):
    def test_good(self) -> None:
        good = (
            (0, b""), (1, b""), (2, b"error: what is this\n\nUsage: opcmds\n"), (1, b"E57 NotEmpty\n"), (3,
            b"E90 NoMemory\n"),
            (2, b"E60 RowFault 0 Header\nopcmds: standard input: not UTF-8\n"),
            (2, b'E60 RowFault 3 Name\nopcmds: policy file a, row 3, line 4: the name is no name: "\\u{1b}\\u{a}"\n'),
            (3, b"E92 NotOurs 7\nopcmds: database a: tables of version 7\n"),
            (3, b"E91 Store\nopcmds: database a\nb: Is a directory\n"),
            (2, b'opcmds: script, line 3: no time: "x\\u{1b}" (a line is TIME CONSOLE COMMAND)\n'),
            (2, b'opcmds: script, line 3: no time: "LOGON".. (a line is TIME CONSOLE COMMAND)\n'),
            (2, b'opcmds: script, line 3: the event is invalid: "1 * A".. (a line of an event is TIME * EVENT; '
             b"events: JOBIN, JOBEND, ATTACH, ALLOCATE, FREE, ASK, RESUME)\n"),
            (2, b"opcmds: script: not UTF-8\n"),
            (1, b"E53 Missing OP5\nopcmds: standard input, row 23, line 24: no user or group OP5\n"),
            (1, b"E53 Missing OP5\nopcmds: standard input, row 23, line 24: no user or group OP5; OPS?\n"),
            (1, b"E50 NotSpecial\nopcmds: console C2: nobody is logged on\n"),
            (2, b"E60 RowFault 0 Header\nopcmds: standard input: the first row is not the header: \"a;b\"; "
             b"fields are separated by ';', expected ','\n"),
        )
        for status, said in good:
            self.assertIsNone(rules.wrong_said(status, said), said)

    def test_bad(self) -> None:
        bad = (
            (0, b"a word"), (3, b"E57 NotEmpty\n"), (1, b"E57 NotEmpty"), (1, b"E57 NotEmpty\nand more\n"), (3,
            b"E91 Store\n"),
            (3, b"E92 NotOurs 7\nopcmds: database a: tables of version 8\n"), (3, b"==1==ERROR: AddressSanitizer\n"),
            (2, b"E60 RowFault 0 Header\nopcmds: standard input: odd\n"), (1, b"error: what is this\n"),
            (2, b'E60 RowFault 3 Name\nopcmds: a, row 4, line 5: the name is no name: "x"\n'),
            (2, b'E60 RowFault 3 Name\nopcmds: a, row 3, line 4: the name is no name: "\x1b"\n'),
            (2, b'E60 RowFault 3 Name\nopcmds: a, row 3, line 4: the name is no name: "' + b"x" * 40 + b'"\n'),
            (2, b'E60 RowFault 3 Name\nopcmds: a, row 3, line 4: the name is no name: "x"..\n'),
            (2, b'opcmds: script, line 3: no time: "x\x1b" (a line is TIME CONSOLE COMMAND)\n'),
            (2, b'opcmds: script, line 3: no time: "LOGON ANNA,ABC" (a line is TIME CONSOLE COMMAND)\n'),
            (2, b'opcmds: script, line 3: no command: "1 LOGON,A".. (a line is TIME CONSOLE COMMAND)\n'),
            (2, b'opcmds: script, line 3: odd: "x" (a line is TIME CONSOLE COMMAND)\n'),
            (1, b"E53 Missing OP5\nopcmds: standard input: no user or group OP5\n"),
            (1, b"E41 LastMaster\nopcmds: standard input, row 2, line 3: no user ANNA\n"),
        )
        for status, said in bad:
            self.assertIsNotNone(rules.wrong_said(status, said), said)


class Responses(unittest.TestCase):
    def test_good(self) -> None:
        for data in (
            done("a", "é", rule="NOPROFILE"), refused("E10", "NoConsole"), unread(413), unread(403), unread(405, "GET")
        ):
            self.assertIsNone(rules.wrong_response(data), data)

    def test_bad(self) -> None:
        good = done("a")
        bad = (
            b"", good[:-1], good + b"x", good.replace(b"200 OK", b"200 Fine"), unread(404, "GET"), unread(405),
            refused("E10", "NoConsole").replace(b"404 Not Found", b"403 Forbidden"), refused("E99", "Odd"),
            done("a", rule="odd"), good.replace(b'"lines"', b'"linez"'), good.replace(b"done", b"DONE"),
            good.replace(b",", b", ").replace(b"Length: 43", b"Length: 45"), refused("E45", "ReplyExists"),
        )
        for data in bad:
            self.assertIsNotNone(rules.wrong_response(data), data)


if __name__ == "__main__":
    unittest.main()
