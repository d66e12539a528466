"""The converter of RACF commands (examples/racf2csv): the rows that each command leaves, or why it is left out."""
import contextlib
import functools
import importlib.machinery
import importlib.util
import io
import os
import subprocess
import sys
import tempfile
import types
import unittest
from unittest import mock

from lib.files import bytes_of
from lib.model import names
from lib.places import PROGRAM, TOP, WIDE_HEADER

RACF2CSV = f"{TOP}/examples/racf2csv"
LIST = f"{TOP}/examples/opercmds"
POLICY = f"{TOP}/examples/base-policy.csv"
NO_DIGEST = "no user has a digest, so nobody can log on; opcmds digest makes one"
# What stands before each command of the table, and the rows that this leaves.
BEFORE = """ADDUSER (SECADM ANNA BERT)
ADDGROUP OPS
CONNECT ANNA GROUP(OPS)
RDEFINE OPERCMDS MVS.** UACC(READ) OWNER(SECADM)
PERMIT MVS.** CLASS(OPERCMDS) ID(OPS) ACCESS(UPDATE)
PERMIT MVS.** CLASS(OPERCMDS) ID(OPS) ACCESS(ALTER) WHEN(CONSOLE(C1))
"""
ROWS = """class,CONSOLE,,,INACTIVE,,,,,
class,OPERCMDS,,,INACTIVE,,,,,
group,,OPS,,,,,,,
user,,ANNA,,,,,,,
user,,BERT,,,,,,,
user,,SECADM,,,,,,,
connect,,ANNA,OPS,,,,,,
profile,OPERCMDS,MVS.**,,READ,SECADM,,,,
permit,OPERCMDS,MVS.**,OPS,UPDATE,,,,,
permit,OPERCMDS,MVS.**,OPS,ALTER,,,,C1,
""".splitlines()
PROFILE, PLAIN, AT_C1 = ROWS[-3:]
# A command, and the rows that it takes away (-) and adds (+).
DONE = {
    "RDEFINE OPERCMDS MVS.CANCEL.JOB.* UACC(NONE) OWNER(ANNA) WARNING":
        ["+profile,OPERCMDS,MVS.CANCEL.JOB.*,,NONE,ANNA,W,,,"],
    "RDEF CONSOLE C1 OWNER(ANNA) AUDIT(ALL(READ)) DATA('why (it), ''is''') LEVEL(1) NOTIFY(ANNA)":
        ["+profile,CONSOLE,C1,,NONE,ANNA,,,,"],
    "rdef opercmds (mvs.a, mvs.b%*) ow(anna) uacc(c)":
        ["+profile,OPERCMDS,MVS.A,,CONTROL,ANNA,,,,", "+profile,OPERCMDS,MVS.B%*,,CONTROL,ANNA,,,,"],
    "RALTER OPERCMDS MVS.** UACC(NONE) WARNING": [f"-{PROFILE}", "+profile,OPERCMDS,MVS.**,,NONE,SECADM,W,,,"],
    "RALT OPERCMDS MVS.** OWNER(BERT)": [f"-{PROFILE}", "+profile,OPERCMDS,MVS.**,,READ,BERT,,,,"],
    "RALT OPERCMDS MVS.** NOWARNING": [],
    "RDELETE OPERCMDS MVS.**": [f"-{PROFILE}", f"-{PLAIN}", f"-{AT_C1}"],
    "RDEL OPERCMDS MVS.**\nRDEF OPERCMDS MVS.** UACC(READ) OWNER(SECADM)": [f"-{PLAIN}", f"-{AT_C1}"],
    "PERMIT MVS.** CLASS(OPERCMDS) ID(OPS) ACCESS(NONE)": [f"-{PLAIN}", "+permit,OPERCMDS,MVS.**,OPS,NONE,,,,,"],
    "PE MVS.** AC(R) ID(* BERT) CL(OPERCMDS) GENERIC":
        ["+permit,OPERCMDS,MVS.**,*,READ,,,,,", "+permit,OPERCMDS,MVS.**,BERT,READ,,,,,"],
    "PE MVS.** CLASS(OPERCMDS) ID(BERT) ACCESS(READ) WHEN(CONSOLE(C1,C2))":
        ["+permit,OPERCMDS,MVS.**,BERT,READ,,,,C1,", "+permit,OPERCMDS,MVS.**,BERT,READ,,,,C2,"],
    "PE MVS.** CLASS(OPERCMDS) ID(OPS) DELETE": [f"-{PLAIN}"],
    "PE MVS.** CLASS(OPERCMDS) ID(OPS) DELETE WHEN( CONSOLE (C1) )": [f"-{AT_C1}"],
    "PE MVS.** CLASS(OPERCMDS) RESET": [f"-{PLAIN}", f"-{AT_C1}"],
    "PE MVS.** CLASS(OPERCMDS) RESET ID(OPS) ACCESS(UPDATE)": [f"-{AT_C1}"],
    "PE MVS.** CLASS(OPERCMDS) RESET( ALL )": [f"-{PLAIN}", f"-{AT_C1}"],
    "PE MVS.** CLASS(OPERCMDS) RESET(STANDARD)": [f"-{PLAIN}"],
    "PE MVS.** CLASS(OPERCMDS) RESET(WHEN)": [f"-{AT_C1}"],
    "ADDUSER DORA SPECIAL AUDITOR NAME('D') PASSWORD(X) TSO(ACCTNUM(1)) OWNER(SYS1)": ["+user,,DORA,,,,SA,,,"],
    "AU (DORA EVE) DFLTGRP(OPS)": [
        "+connect,,DORA,OPS,,,,,,", "+connect,,EVE,OPS,,,,,,", "+user,,DORA,,,,,,,", "+user,,EVE,,,,,,,",
    ],
    "AU (DORA 9E#$@) RESTRICTED NOSPECIAL": ["+user,,9E#$@,,,,,,,Y", "+user,,DORA,,,,,,,Y"],
    "ALTUSER ANNA REVOKE AUDITOR RESTRICTED": ["-user,,ANNA,,,,,,,", "+user,,ANNA,,,,AR,,,Y"],
    "ALU ANNA REVOKE SPECIAL RESTRICTED\nALU ANNA RESUME NOSPEC NORESTRICTED": [],
    "ADDGROUP (NIGHT #DAY) OWNER(SYS1) SUPGROUP(SYS1)": ["+group,,#DAY,,,,,,,", "+group,,NIGHT,,,,,,,"],
    "CO (ANNA BERT) GROUP(OPS) NOSPECIAL OWNER(SYS1)": ["+connect,,BERT,OPS,,,,,,"],
    "REMOVE ANNA GROUP(OPS)": ["-connect,,ANNA,OPS,,,,,,"],
    "SETROPTS CLASSACT(OPERCMDS CONSOLE) RACLIST(OPERCMDS) REFRESH": [
        "-class,CONSOLE,,,INACTIVE,,,,,", "-class,OPERCMDS,,,INACTIVE,,,,,", "+class,CONSOLE,,,ACTIVE,,,,,",
        "+class,OPERCMDS,,,ACTIVE,,,,,",
    ],
    "SETR CLASSACT(OPERCMDS)\nSETR NOCLASSACT(OPERCMDS)": [],
    "/* nothing */ /* at all */\n\n": [],
    "PERMIT /* which */ MVS.-\n** CLASS(OPERCMDS) +  \n   DELETE ID(OPS)": [f"-{PLAIN}"],
}
# A command, and why it is left out: the words before the first colon are the command as it is named.
LEFT_OUT = {
    "RDEFINE OPERCMDS MVS.A UACC(READ)": "RDEFINE OPERCMDS MVS.A: OWNER is missing",
    "RDEF OPERCMDS MVS.A OWNER(OPS)": "RDEFINE OPERCMDS MVS.A: its owner OPS is no user",
    "RDEF OPERCMDS MVS.** OWNER(ANNA)": "RDEFINE OPERCMDS MVS.**: there is a profile OPERCMDS MVS.**",
    "RDEF OPERCMDS MVS.A OWNER(ANNA) UACC(EXECUTE)": "RDEFINE OPERCMDS MVS.A: there is no UACC(EXECUTE)",
    "RDEF OPERCMDS MVS.A OWNER(ANNA) UACC": "RDEFINE OPERCMDS MVS.A: there is no UACC()",
    "RDEF FACILITY A.B OWNER(ANNA)": "RDEFINE FACILITY A.B: FACILITY is no name of a class",
    "RDEF OPERCMDS MVS.&A OWNER(ANNA)": "RDEFINE OPERCMDS MVS.&A: MVS.&A has a variable",
    "RDEF OPERCMDS MVS.%** OWNER(ANNA)": "RDEFINE OPERCMDS MVS.%**: MVS.%** is no name of a profile",
    f"RDEF OPERCMDS {'A' * 40} OWNER(ANNA)": f"RDEFINE OPERCMDS {'A' * 40}: {'A' * 40} is no name of a profile",
    "RDEF OPERCMDS OWNER(ANNA)": "RDEFINE OPERCMDS OWNER: its parentheses do not match",
    "RDEF OPERCMDS (MVS.A MVS.**) OWNER(BERT) ADDMEM(X)": "RDEFINE OPERCMDS MVS.A: no row says ADDMEM of the profile",
    "RALT OPERCMDS MVS.A UACC(READ)": "RALTER OPERCMDS MVS.A: there is no profile OPERCMDS MVS.A",
    "RALT OPERCMDS MVS.** WARNING NO": "RALTER OPERCMDS MVS.**: NO may be NOWARNING or NONOTIFY or NOTIFY",
    "RDEL OPERCMDS MVS.A": "RDELETE OPERCMDS MVS.A: there is no profile OPERCMDS MVS.A",
    "PE MVS.A CLASS(OPERCMDS) ID(OPS) ACCESS(READ)": "PERMIT MVS.A: there is no profile OPERCMDS MVS.A",
    "PE MVS.** ID(OPS) ACCESS(READ)": "PERMIT MVS.**: DATASET is no name of a class",
    "PE MVS.** CLASS(OPERCMDS) ACCESS(READ)": "PERMIT MVS.**: ID is missing",
    "PE MVS.** CLASS(OPERCMDS) ID(OPS)": "PERMIT MVS.**: it has to have either ACCESS or DELETE",
    "PE MVS.** CLASS(OPERCMDS) ID(OPS) AC(READ) DELETE": "PERMIT MVS.**: it has to have either ACCESS or DELETE",
    "PE MVS.** CLASS(OPERCMDS) ID(OPS CARL) ACCESS(READ)": "PERMIT MVS.**: there is no user or group CARL",
    "PE MVS.** CLASS(OPERCMDS) ID(OPS ANNA) DELETE": "PERMIT MVS.**: there is no entry of ANNA",
    "PE MVS.** CLASS(OPERCMDS) ID(OPS) DELETE WHEN(CONSOLE(C2))": "PERMIT MVS.**: there is no entry of OPS at C2",
    "PE MVS.** CLASS(OPERCMDS) ID(OPS) AC(READ) WHEN(CONSOLE(*))": "PERMIT MVS.**: * is no name of a console",
    "PE MVS.** CLASS(OPERCMDS) ID(OPS) AC(READ) WHEN(SYSID(S1))": "PERMIT MVS.**: no row says WHEN(SYSID(S1))",
    "PE MVS.** CLASS(OPERCMDS) FROM(MVS.A) FCLASS(OPERCMDS)": "PERMIT MVS.**: no row says FROM of the permit",
    "PE MVS.** CLASS(OPERCMDS) RESET(OTHER)": "PERMIT MVS.**: there is no RESET(OTHER)",
    "PE MVS.** CLASS(OPERCMDS) ID(OPS) DELETE(X)": "PERMIT MVS.**: there is no DELETE(X)",
    "ADDUSER ANNA": "ADDUSER ANNA: there is a user ANNA",
    "ADDUSER OPS": "ADDUSER OPS: there is a group OPS",
    "ADDUSER BERTHOLDER": "ADDUSER BERTHOLDER: BERTHOLDER is no name of a user",
    "ADDUSER DORA DFLTGRP(SYS1)": "ADDUSER DORA: there is no group SYS1",
    "ADDUSER DORA DFLTGRP": "ADDUSER DORA: there is no group (none)",
    "ALU ANNA DFLTGRP(OPS)": "ALTUSER ANNA: no row says DFLTGRP of the user",
    "ALU ANNA REVOKE(12/31/26)": "ALTUSER ANNA: there is no REVOKE(12/31/26)",
    "ALU ANNA SPECIAL RESUME(1/1/27)": "ALTUSER ANNA: there is no RESUME(1/1/27)",
    "AU DORA OPERATIONS": "ADDUSER DORA: no row says OPERATIONS of the user",
    "ALU DORA REVOKE": "ALTUSER DORA: there is no user DORA",
    "ALU ANNA REVOKE DATA('x": "ALTUSER ANNA: a quote or a comment is not closed",
    "AG BERT": "ADDGROUP BERT: there is a user or group BERT",
    "AG 9NIGHT": "ADDGROUP 9NIGHT: 9NIGHT is no name of a group",
    "CO BERT": "CONNECT BERT: there is no user BERT, or no GROUP()",
    "CO BERT GROUP(OPS) AUDITOR": "CONNECT BERT: no row says AUDITOR of the connect",
    "REMOVE BERT GROUP(OPS)": "REMOVE BERT: BERT is not connected to OPS",
    "SETROPTS CLASSACT(OPERCMDS FACILITY)": "SETROPTS: FACILITY is no name of a class",
    "SETROPTS LOGOPTIONS(ALWAYS(OPERCMDS))": "SETROPTS: no row says LOGOPTIONS of the system",
    "DELUSER ANNA": "DELUSER: it gives no row",
    "PASSWORD(SECRET)": "PASSWORD: it gives no row",
    "/* not closed": "/*: it gives no row",
    "ADDUSER": "ADDUSER: (none) is no name of a user",
    "ADDUSER \x1b[2J": "ADDUSER \\u{1b}[2J: \\u{1b}[2J is no name of a user",
}


def ran(typed: str, *words: str) -> tuple[int, str, str]:
    """How it ends by this input, and what it prints."""
    done = subprocess.run([sys.executable, RACF2CSV, *words], input=typed.encode(), capture_output=True)
    return done.returncode, done.stdout.decode(), done.stderr.decode()


@functools.cache
def module() -> types.ModuleType:
    loader = importlib.machinery.SourceFileLoader("racf2csv", RACF2CSV)
    found = importlib.util.module_from_spec(importlib.util.spec_from_loader("racf2csv", loader))
    sys.modules["racf2csv"] = found  # (where its dataclasses look)
    loader.exec_module(found)
    return found


def converted(typed: str, *words: str) -> tuple[int, str, str]:
    """The same without a process of its own, which costs most of the time."""
    printed, said = io.StringIO(), io.StringIO()
    with tempfile.NamedTemporaryFile("w", encoding="utf-8", newline="") as file:
        file.write(typed)
        file.flush()
        with mock.patch.object(sys, "argv", ["racf2csv", *words, file.name]):
            with contextlib.redirect_stdout(printed), contextlib.redirect_stderr(said):
                return module().main(), printed.getvalue(), said.getvalue()


def changes(rows: list[str]) -> list[str]:
    """What is not as it was before."""
    return [f"-{row}" for row in ROWS if row not in rows] + [f"+{row}" for row in rows if row not in ROWS]


class Converted(unittest.TestCase):
    maxDiff = None

    def test_rows_that_commands_leave(self) -> None:
        for command, wanted in DONE.items():
            with self.subTest(command):
                status, printed, said = converted(f"{BEFORE}{command}\n")
                header, *rows = printed.splitlines()
                self.assertEqual((header, sorted(changes(rows))), (WIDE_HEADER, sorted(wanted)))
                self.assertEqual((status, said), (0, f"racf2csv: {NO_DIGEST}\n"))

    def test_commands_that_are_left_out(self) -> None:
        for command, why in LEFT_OUT.items():
            with self.subTest(command):
                status, printed, said = converted(f"{BEFORE}{command}\nADDUSER LAST\n")
                _, *rows = printed.splitlines()
                self.assertEqual(changes(rows), ["+user,,LAST,,,,,,,"])
                line = said.splitlines()[0]
                self.assertEqual((status, line), (1, f"racf2csv: line 7: {why}"))

    def test_a_worked_list(self) -> None:
        typed = bytes_of(f"{LIST}.clist").decode()
        status, printed, said = ran(typed, "--owner", "secadm", "--consoles", POLICY)
        self.assertEqual((printed, said), (bytes_of(f"{LIST}.csv").decode(), bytes_of(f"{LIST}.left-out").decode()))
        self.assertEqual((status, typed.count("\n")), (1, 60))

    @unittest.skipUnless(os.path.isfile(PROGRAM), "no program is there")
    def test_its_rows_are_taken_and_in_their_order(self) -> None:
        policy = bytes_of(f"{LIST}.csv")
        checked = subprocess.run([PROGRAM, "check"], input=policy, capture_output=True)
        self.assertEqual((checked.returncode, checked.stdout.splitlines()[-1]), (1, b"29 rows, 14 notes"))
        with tempfile.TemporaryDirectory() as room:
            file = f"{room}/room.db"
            subprocess.run([PROGRAM, "import", "--db", file, "--batch", "1"], input=policy, check=True)
            self.assertEqual(subprocess.run([PROGRAM, "export", "--db", file], capture_output=True).stdout, policy)

    def test_patterns_are_in_their_order(self) -> None:
        ends = ("", ".B", ".B.C", ".B*", ".%", ".%*", ".*", ".*.B", ".**", ".**.B", "*", "%", "%.B")
        patterns = [f"A{end}" for end in ends]
        _, printed, _ = converted(f"ADDUSER U\nRDEF OPERCMDS ({' '.join(patterns)} ** *) OWNER(U)\n")
        found = [row.split(",")[2] for row in printed.splitlines() if row.startswith("profile")]
        self.assertEqual(found, sorted([*patterns, "**", "*"], key=names.sort_key))

    def test_lines_are_counted_from_their_first(self) -> None:
        _, _, said = converted("\r\nAU (A -\r\nB)\r\nFIRST +\n/* X */\n\nSECOND")
        self.assertEqual([line.split(" ")[2] for line in said.splitlines()[:2]], ["4:", "7:"])

    def test_an_owner_that_is_missing(self) -> None:
        typed = "AU (A B)\nRDEF OPERCMDS X\nRDEF OPERCMDS Y OWNER(B)\n"
        _, printed, _ = converted(typed, "--owner", "a")
        self.assertEqual([row.split(",")[5] for row in printed.splitlines() if row.startswith("profile")], ["A", "B"])
        self.assertIn("X: its owner C is no user", converted("RDEF OPERCMDS X\n", "--owner", "C")[2])

    def test_consoles_are_those_of_a_file(self) -> None:
        with tempfile.NamedTemporaryFile("w", suffix=".csv") as file:
            file.write(f"{WIDE_HEADER}\nconsole,,C2,,\"SYS,IO\",,AUTO,,,\ngroup,,OPS,,,,,,,\n")
            file.write("console,,C1,,INFO,,AUTO,,,\nconsole,,C1,,ALL,,AUTO,,,\n")
            file.flush()
            status, printed, said = converted("", "--consoles", file.name)
        self.assertEqual((status, said), (0, ""))
        self.assertEqual(printed.splitlines()[3:], ["console,,C1,,ALL,,AUTO,,,", 'console,,C2,,"SYS,IO",,AUTO,,,'])

    def test_what_cannot_be_read(self) -> None:
        for words in (["/none"], [TOP], ["--consoles", "/none"], ["--consoles", TOP], ["a", "b"], ["--own"]):
            status, printed, said = ran("AU X\n", *words)
            self.assertEqual((status, printed, said[:6]), (2, "", "usage:"), words)
        self.assertEqual(ran("", "--help")[0], 0)

    def test_it_stays_short(self) -> None:
        lines = bytes_of(RACF2CSV).decode().splitlines()
        self.assertLessEqual((len(lines), max(map(len, lines))), (200, 120))


if __name__ == "__main__":
    unittest.main()
