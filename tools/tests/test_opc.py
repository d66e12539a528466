"""The prompt for operators (examples/opc): what it sends to a listener, and what it shows of the answer."""
import base64
import json
import os
import pty
import re
import select
import shutil
import signal
import socket
import subprocess
import sys
import tempfile
import termios
import threading
import time
import unittest

from lib import setup
from lib.places import TOP

OPC = f"{TOP}/examples/opc"
SECONDS = 20  # of patience
DONE = {"lines": ["0A80 ONLINE"], "rule": "NOPROFILE", "status": "done"}
REFUSED = {"code": "E20", "rule": "PROFILE OPERCMDS MVS.**", "status": "refused", "text": "DeniedProfile"}
QUIET = {"lines": [], "rule": "-", "status": "done"}
NOBODY = "http://127.0.0.1:9/consoles/C1"  # where nothing listens
PAGE = "<html>\r\n\r\n<title>no</title></html>"


def refused(code: str, text: str) -> bytes:
    return response({"code": code, "rule": "-", "status": "refused", "text": text}, "400 Bad Request")


def response(body: object, status: str = "200 OK") -> bytes:
    data = (body if isinstance(body, str) else json.dumps(body)).encode()
    return f"HTTP/1.1 {status}\r\nContent-Length: {len(data)}\r\nConnection: close\r\n\r\n".encode() + data


class Listener:
    """Answers a connection after another by these bytes, and keeps what it is sent."""

    def __init__(self, *answers: bytes, path: str = "") -> None:
        self.answers, self.heads, self.bodies = answers, [], []
        self.socket = socket.socket(socket.AF_UNIX if path else socket.AF_INET)
        self.socket.bind(path or ("127.0.0.1", 0))
        self.socket.listen()
        self.socket.settimeout(SECONDS)
        self.at = path or f"127.0.0.1:{self.socket.getsockname()[1]}"
        self.thread = threading.Thread(target=self.run)

    def __enter__(self) -> "Listener":
        self.thread.start()
        return self

    def __exit__(self, *_: object) -> None:
        self.thread.join()
        self.socket.close()

    def run(self) -> None:
        for answer in self.answers:
            link, _ = self.socket.accept()
            with link, link.makefile("rb") as sent:
                head = "".join(iter(lambda: sent.readline().decode(), "\r\n"))
                self.heads.append(head)
                length = re.search(r"Content-Length: (\d+)", head)
                self.bodies.append(sent.read(int(length[1])) if length else b"")
                link.sendall(answer)

    @property
    def texts(self) -> list[object]:
        return [json.loads(body) for body in self.bodies]

    @property
    def lines(self) -> list[str]:
        """The methods and paths."""
        return [head.split(" HTTP")[0] for head in self.heads]

    def url(self, console: str) -> str:
        return f"http://{self.at}/consoles/{console}"


def ran(typed: str, *words: str, cwd: str = TOP, **environment: str) -> tuple[int, str, str]:
    """How it ends by this input, with no terminal, and what it prints."""
    how = {"input": typed.encode(), "capture_output": True, "start_new_session": True, "timeout": SECONDS}
    done = subprocess.run([OPC, *words], env={**os.environ, **environment}, cwd=cwd, **how)
    return done.returncode, done.stdout.decode(), done.stderr.decode()


class Terminal:
    """The prompt at a terminal of its own."""

    def __init__(self, *words: str) -> None:
        self.shown = ""
        self.pid, self.file = pty.fork()
        if self.pid == 0:
            # as at a terminal: what starts tests in the background ignores it, and so would the shell
            signal.signal(signal.SIGINT, signal.SIG_DFL)
            os.execv(OPC, [OPC, *words])

    def until(self, text: str) -> None:
        end = time.monotonic() + SECONDS
        while not self.shown.endswith(text) and time.monotonic() < end:
            if select.select([self.file], [], [], 0.1)[0]:
                try:
                    self.shown += os.read(self.file, 4096).decode()
                except OSError:
                    return

    def types(self, text: str, until: str) -> None:
        os.write(self.file, text.encode())
        self.until(until)

    def shows_what_is_typed(self) -> bool:
        return bool(termios.tcgetattr(self.file)[3] & termios.ECHO)

    def ends(self) -> int:
        status = os.waitstatus_to_exitcode(os.waitpid(self.pid, 0)[1])
        os.close(self.file)
        return status


def setUpModule() -> None:
    if lacking := setup.lacking("curl", "jq"):
        raise unittest.SkipTest(f"not found: {', '.join(lacking)}")


def rows_of(page: str, heading: str) -> list[list[str]]:
    """The cells of a table of the rules, row by row."""
    with open(f"{TOP}/docs/rules/{page}", encoding="utf-8") as file:
        rows = file.read().partition(heading)[2].partition("\n\n")[0].splitlines()[2:]
    return [[cell.strip() for cell in row[1:-1].split("|")] for row in rows]


def operands() -> list[tuple[str, str]]:
    """The verbs of the commands in capitals, each with one form of its operands, or with none."""
    rows = rows_of("commands.md", "| Command | Group | Level | Resource |")
    found = [form.partition(" ") for forms, *_ in rows for form in re.findall(r"`([^`]+)`", forms)]
    return [(verb, form.upper()) for verb, _, form in found]


class Prompt(unittest.TestCase):
    maxDiff = None

    def test_lines_are_sent_and_answers_shown(self) -> None:
        with Listener(response(DONE), response(REFUSED, "403 Forbidden")) as gate:
            found = ran("  D U\r\n\n \t\nV 0A80,\"\\é", gate.url("C1/"))
        printed = "0A80 ONLINE\n-- NOPROFILE\nE20 DeniedProfile PROFILE OPERCMDS MVS.**\n"
        self.assertEqual(found, (1, printed, ""))
        self.assertEqual(gate.texts, [{"text": "  D U"}, {"text": "V 0A80,\"\\é"}])
        self.assertTrue(gate.heads[0].startswith("POST /consoles/C1/command HTTP/1.1\r\n"), gate.heads)
        self.assertNotIn("Authorization", gate.heads[0])

    def test_status_of_lines_that_are_done(self) -> None:
        with Listener(response({**DONE, "lines": []})) as gate:
            self.assertEqual(ran("L X\n", gate.url("C1")), (0, "-- NOPROFILE\n", ""))

    def test_names_of_consoles_are_escaped(self) -> None:
        with Listener(response(DONE), response(DONE)) as gate:
            ran("D U\nD U\n", gate.url("C#$@%23"))
        with tempfile.TemporaryDirectory() as room, Listener(response(DONE), path=f"{room}/a b.sock") as by_socket:
            self.assertEqual(ran("D U\n", "--socket", by_socket.at, "C#$@")[0], 0)
        paths = [head.split(" ")[1] for head in [*gate.heads, *by_socket.heads]]
        self.assertEqual(paths, ["/consoles/C%23%24%40%23/command"] * 2 + ["/consoles/C%23%24%40/command"])

    def test_names_of_consoles_are_in_capitals(self) -> None:
        with tempfile.TemporaryDirectory() as room:
            with Listener(response(QUIET), path=f"{room}/gate") as gate:
                ran("D U\n", "--socket", gate.at, "op1")
        with Listener(response(QUIET), response(QUIET)) as other:
            ran("D U\n", other.url("op1"))
            ran("D U\n", f"http://{other.at}/desk/op1")
        lines = ["/consoles/OP1/command", "/consoles/OP1/command", "/desk/op1/command"]
        self.assertEqual([*gate.lines, *other.lines], [f"POST {path}" for path in lines])

    def test_what_a_terminal_would_act_on(self) -> None:
        lines = ["\x1b[2J\x00\x7f\x9b", "\u202e\u200b\u2028\U000e0041\ufeff\xad", "a\n-- X", "é\\€\U0001f600"]
        with Listener(response({**DONE, "lines": lines}), response(PAGE, "502 \x1b[2J")) as gate:
            found = ran("D U\nD U\n", gate.url("C1"))[1].split("\n")
        shown = [
            "\\u{1b}[2J\\u{0}\\u{7f}\\u{9b}", "\\u{202e}\\u{200b}\\u{2028}\\u{e0041}\\u{feff}\\u{ad}",
            "a\\u{a}-- X", lines[3], "-- NOPROFILE", "not an answer of opcmds: 502 \\u{1b}[2J", "",
        ]
        self.assertEqual(found, shown)

    def test_what_is_no_answer_of_opcmds(self) -> None:
        odd = ('{"status":"done"}', '{"status":"other"}', '{"lines":1,"status":"done"}')
        others = (PAGE, "", "null", "[]", '"done"', *odd)
        with Listener(*(response(other, "401 Unauthorized") for other in others)) as gate:
            status, printed, said = ran("D U\n" * len(others), gate.url("C1"))
        self.assertEqual((status, said), (1, ""))
        self.assertEqual(printed, "not an answer of opcmds: 401 Unauthorized\n" * len(others))

    def test_no_answer_and_sent_once(self) -> None:
        cut = response(DONE)[:-5]
        with tempfile.TemporaryDirectory() as room, Listener(b"", cut, response(DONE)) as gate:
            with open(f"{room}/.curlrc", "w", encoding="utf-8") as file:
                file.write("retry = 5\nretry-all-errors\n")
            found = ran("D U\nD A\nD C\n", gate.url("C1"), HOME=room, http_proxy="http://127.0.0.1:9")
        self.assertEqual([each["text"] for each in gate.texts], ["D U", "D A", "D C"])
        pattern = r"(no answer: \(\d+\) [^\n]+\n){2}0A80 ONLINE\n-- NOPROFILE\n"
        self.assertTrue(found[0] == 1 and re.fullmatch(pattern, found[1]) and not found[2], found)
        self.assertRegex(ran("D U\n", gate.url("C1"))[1], r"^no answer: \(7\) .*\n$")

    def test_no_secret_is_a_word_of_a_program(self) -> None:
        with tempfile.TemporaryDirectory() as room, Listener(*[response(DONE)] * 5) as gate:
            with open(f"{room}/secret.csv", "w", encoding="utf-8") as file:
                file.write("SECRET")
            for name in ("curl", "jq", "stty", "sed", "tr"):
                with open(f"{room}/{name}", "w", encoding="utf-8") as file:
                    file.write(f'#!/bin/sh\necho "$0 $*" >> {room}/words\nexec {shutil.which(name)} "$@"\n')
                os.chmod(f"{room}/{name}", 0o755)
            url = f"http://anna@{gate.at}"
            lines = ["pass:w@rd", "LOGON CARL,SECRET", "D U", "/AddUser id=SECRET digest=SECRET", "/profiles SECRET"]
            typed = "\n".join([*lines, f"/import 1 {room}/secret.csv"])
            found = ran(typed, url, PATH=f"{room}:{os.environ['PATH']}")
            with open(f"{room}/words", encoding="utf-8") as file:
                words = file.read()
        self.assertEqual((found[0], found[2], json.loads(gate.bodies[0])), (0, "", {"text": "LOGON CARL,SECRET"}))
        self.assertEqual((gate.lines[3], gate.bodies[4]), ("GET /profiles/SECRET", b"SECRET"))
        pair = base64.b64encode(b"anna:pass:w@rd").decode()
        self.assertTrue(gate.heads[0].startswith(f"POST /command HTTP/1.1\r\nHost: {gate.at}\r\n"), gate.heads)
        self.assertIn(f"\r\nAuthorization: Basic {pair}\r\n", gate.heads[0])
        self.assertTrue("curl" in words and "jq" in words)
        self.assertEqual([it for it in ("pass", "SECRET", pair, "secret.csv") if it in words], [])

    def test_passwords_at_a_terminal_are_not_shown(self) -> None:
        with Listener(response(DONE), response(REFUSED), response(DONE)) as gate:
            prompt = Terminal(f"http://anna@{gate.at}")
            prompt.until("anna, password: ")
            self.assertFalse(prompt.shows_what_is_typed())
            prompt.types("of anna\n", "anna> ")
            prompt.types(" logon  c@rl \n", "password: ")
            self.assertFalse(prompt.shows_what_is_typed())
            prompt.types("hidden\n", "anna C@RL> ")
            self.assertTrue(prompt.shows_what_is_typed())
            for text in ("LOGON CARL,seen", "D U"):
                prompt.types(f"{text}\n", "anna C@RL> ")
            prompt.types("\x04", "\r\n")
            self.assertEqual(prompt.ends(), 1)
        texts = ["logon c@rl,hidden", "LOGON CARL,seen", "D U"]
        self.assertEqual([each["text"] for each in gate.texts], texts)
        self.assertNotIn("of anna", prompt.shown)
        self.assertNotIn("hidden", prompt.shown)

    def test_a_terminal_shows_what_is_typed_again_whatever_ends_it(self) -> None:
        for key, wanted in (("\x03", 130), ("\x04", 3)):
            prompt = Terminal("http://anna@127.0.0.1:9")
            prompt.until("password: ")
            self.assertFalse(prompt.shows_what_is_typed())
            os.write(prompt.file, key.encode())
            end = time.monotonic() + SECONDS
            while not prompt.shows_what_is_typed() and time.monotonic() < end:
                time.sleep(0.01)
            self.assertTrue(prompt.shows_what_is_typed())
            self.assertEqual(prompt.ends(), wanted)
        prompt = Terminal("http://127.0.0.1:9/consoles/C1")
        prompt.until("C1> ")
        os.write(prompt.file, b"\x03")
        self.assertEqual(prompt.ends(), -signal.SIGINT)

    def test_the_prompt_says_who_is_on(self) -> None:
        steps = (
            ("D U", response(DONE), ""), ("LOGON anna,ABC", response({**DONE, "lines": []}), " ANNA"),
            ("LOGON BERT,ABC", refused("E15", "AlreadyOn ANNA"), " ANNA"), ("LOGOFF", response(QUIET), ""),
            ("LOGON BERT,ABC", refused("E14", "BadLogon"), ""),
            ("LOGON BERT,ABC", refused("E15", "AlreadyOn CARL"), " CARL"), ("logoff", refused("E16", "NotOn"), ""),
        )
        with Listener(*(answer for _, answer, _ in steps)) as gate:
            prompt = Terminal(gate.url("C1"))
            prompt.until("C1> ")
            for text, _, user in steps:
                prompt.shown = ""
                prompt.types(f"{text}\n", "> ")
                self.assertEqual(prompt.shown.splitlines()[-1], f"C1{user}> ")
            prompt.types("\x04", "\r\n")
            self.assertEqual(prompt.ends(), 1)

    def test_a_mark_stands_under_the_place_of_a_fault(self) -> None:
        faults = (
            ("D  T", "E05 BadOperand 3 4", "   ^"), ("  frob it", "E04 UnknownVerb 2 6", "  ^^^^"),
            ("D", "E05 BadOperand 1 1", " ^"), ("L 'x", "E06 OpenQuote 2", "  ^"), ("é", "E03 BadCharacter 0", "^"),
            ("D Q", "E05 BadOperand 99999 2", None), ("C X", "E30 NoUnit", None),
        )
        with Listener(*(refused(*fault.split(" ", 1)) for _, fault, _ in faults)) as gate:
            prompt = Terminal(gate.url("C1"))
            prompt.until("C1> ")
            for text, fault, mark in faults:
                prompt.shown = ""
                prompt.types(f"{text}\n", "C1> ")
                wanted = [text, *([f"    {mark}"] if mark else []), f"{fault} -", "C1> "]
                self.assertEqual(prompt.shown.splitlines(), wanted)
            prompt.types("\x04", "\r\n")
            prompt.ends()
        with Listener(refused("E05", "BadOperand 3 4")) as gate:
            self.assertEqual(ran("D  T\n", gate.url("C1")), (1, "E05 BadOperand 3 4 -\n", ""))

    def test_no_rule_is_not_shown(self) -> None:
        with Listener(response(QUIET), response({**QUIET, "lines": ["x"]}), response(QUIET)) as gate:
            found = ran("LOGOFF\n/account 1 1\n/DelUser id=X\n", gate.url("C1"))
        self.assertEqual(found, (0, "x\ndone\n", ""))

    def test_lists_of_what_can_be_typed(self) -> None:
        found = ran("?\n help \nHelp me\n", NOBODY)
        self.assertEqual((found[0], found[2]), (0, ""))
        commands = found[1][: len(found[1]) // 3]
        self.assertEqual(found[1], commands * 3)
        listed = {}
        for line in commands.splitlines():
            words, _, _ = line.partition("  ")
            verb, _, forms = words.partition(" ")
            listed[verb] = [*listed.get(verb, []), *forms.split(" | ")]
        listed["PM"] = ["JOBNAMES"] if "PM JOBNAMES" in commands else []
        wanted: dict[str, list[str]] = {}
        for verb, form in operands():
            wanted[verb] = [*wanted.get(verb, []), form]
        self.assertEqual(listed.pop("?"), [""])
        self.assertEqual(listed, wanted)

    def test_the_list_of_operations(self) -> None:
        status, printed, said = ran("/?\n", NOBODY)
        self.assertEqual((status, said), (0, ""))
        lines = [line for line in printed.splitlines() if line.startswith("/") and "  " not in line]
        listed = {verb: [key.split("=")[0] for key in keys] for verb, *keys in (line[1:].split(" ") for line in lines)}
        wanted = {}
        for verbs, keys in rows_of("http.md", "| `op` | Further keys |"):
            found = re.findall(r"`(\w+)`", keys)
            wanted |= {verb: found for verb in re.findall(r"`(\w+)`", verbs)}
        # (what sets all keys of something that is there has none that counts though nobody typed it)
        self.assertEqual([line for line in lines if line.startswith(("/AltUser", "/RAlter")) and "=" in line], [])
        in_order = {verb: sorted(keys) for verb, keys in wanted.items()}
        self.assertEqual({verb: sorted(keys) for verb, keys in listed.items()}, in_order)

    def test_operations_listings_and_imports(self) -> None:
        entry = {"class": "OPERCMDS", "pattern": "MVS.CANCEL.JOB.PAY*", "id": "ANNA", "level": "UPDATE"}
        user = {"id": "DORA", "special": False, "auditor": False, "digest": None, "restricted": False}
        profile = {"class": "OPERCMDS", "pattern": "MVS.**", "owner": "ANNA", "uacc": "READ", "warning": True}
        asked = {
            "/Permit class=OPERCMDS pattern=MVS.CANCEL.JOB.PAY* id=ANNA level=UPDATE":
                {"op": "Permit", **entry, "when": None},
            "/permit Level=update when=c1 class=opercmds pattern=mvs.cancel.job.pay*  id=anna":
                {"op": "Permit", **entry, "when": "C1"},
            "/AddUser id=DORA": {"op": "AddUser", **user},
            "/AltUser id=DORA special=TRUE auditor=false revoked=true digest=abc restricted=false":
                {"op": "AltUser", **user, "special": True, "revoked": True, "digest": "abc"},
            "/RDefine class=OPERCMDS pattern=MVS.** owner=ANNA uacc=READ warning=true": {"op": "RDefine", **profile},
            "/DefineConsole name=C#1 auth=SYS,IO mode=AUTO":
                {"op": "DefineConsole", "name": "C#1", "auth": "SYS,IO", "mode": "AUTO"},
        }
        with Listener(*(response(QUIET) for _ in asked)) as gate:
            found = ran("\n".join(asked), gate.url("C1"))
        self.assertEqual(found, (0, "done\n" * len(asked), ""))
        self.assertEqual(gate.texts, [*asked.values()])
        self.assertEqual({*gate.lines}, {"POST /consoles/C1/admin"})
        with tempfile.TemporaryDirectory() as room, Listener(*[response({**QUIET, "lines": ["A"]})] * 3) as gate:
            with open(f"{room}/a.csv", "wb") as file:
                file.write(b"kind\r\n\x00@")
            found = ran(f"/profiles opercmds\n/Account 1 20\n/import 2 {room}/a.csv\n", gate.url("C1"))
        self.assertEqual(found, (0, "A\nA\nA\n", ""))
        paths = ["GET /consoles/C1/profiles/OPERCMDS", "GET /consoles/C1/account/1/20", "POST /consoles/C1/import/2"]
        self.assertEqual((gate.lines, gate.bodies), (paths, [b"", b"", b"kind\r\n\x00@"]))

    def test_lines_that_are_not_sent(self) -> None:
        missing = "a word is missing, or too many; see /?"
        lines = {
            "/Frob x=1": "/frob is not known; see /?", "/": "/ is not known; see /?", "/profiles": missing,
            "/account 1": missing, "/import 2": missing, "/import 2 a b": missing,
            "/import 2 /none": "this file cannot be read", "/import 2 /": "this file cannot be read",
            "/RAlter class=OPERCMDS pattern=X owner=A uacc=NONE": "warning is missing",
            "/Permit class=OPERCMDS": "pattern is missing", "/DelUser id=": "id is missing",
            "/AltUser id=X special=true": "auditor is missing", "/AddUser id=X special=yes": "special is true or false",
            "/DelUser id=X name=Y": "DelUser has no key name", "/DelUser X": "DelUser has no key x",
            "/DelUser \x1b[2J=1": "DelUser has no key \\u{1b}[2j",
        }
        for line, why in lines.items():
            with self.subTest(line):
                self.assertEqual(ran(f"{line}\n", NOBODY), (1, f"opc: {why}\n", ""))
        with tempfile.TemporaryDirectory() as room:
            for name in ("-", "file"):  # (to curl - is its input)
                os.close(os.open(f"{room}/{name}", os.O_CREAT))
            self.assertEqual(ran("/import 2 -\n", NOBODY, cwd=room)[1], "opc: this file cannot be read\n")
            self.assertRegex(ran("/import 2 file\n", NOBODY, cwd=room)[1], r"^no answer: \(7\) ")

    def test_help_mistakes_and_what_is_missing(self) -> None:
        shown = ran("", "--help")
        self.assertEqual((shown[0], shown[1][:13], shown[2]), (0, "A prompt for ", ""))
        self.assertEqual((ran(""), ran("", "-h")), (shown, shown))
        for words in (["gate.example"], ["--socket", "/x"], ["ftp://gate.example"], ["http://a", "b"], ["http://"]):
            status, printed, said = ran("D U\n", *words)
            self.assertEqual((status, printed, said[:14]), (2, "", "opc: give URL,"))
        with tempfile.TemporaryDirectory() as room:
            os.symlink(shutil.which("curl"), f"{room}/curl")
            missing = "opc: not found: jq. On Debian: sudo apt-get install -y jq\n"
            self.assertEqual(ran("D U\n", "http://127.0.0.1:9/consoles/C1", PATH=room), (3, "", missing))
        self.assertEqual(ran("", "http://anna@127.0.0.1:9"), (3, "", "opc: no password for anna\n"))


if __name__ == "__main__":
    unittest.main()
