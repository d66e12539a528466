"""The log of exchanges: its lines are those of docs/rules/http.md, and nothing else depends on it."""
import calendar
import contextlib
import json
import os
import shutil
import sqlite3
import subprocess
import time
from typing import NamedTuple

from lib import clients, stored
from lib.places import built, preload
from lib.requests import DIGEST
from lib.service import Service
from lib.tally import Tally

HEADER = "kind,class,name,id,value,owner,flags,digest\n"


class Asked(NamedTuple):
    """A request, and the line about it without its time."""
    line: str
    path: str
    body: bytes | None = None

    def method(self) -> str:
        return "GET" if self.body is None else "POST"

    def has_row(self) -> bool:
        """Whether the account gets a row: for a refusal of a request, and for what a warning alone let pass."""
        console, _, _, code, _ = self.line.split(" ", 4)
        return console != "-" and (code != "-" or self.line.endswith(" WARNED"))


def typed(console: str, text: str, line: str) -> Asked:
    return Asked(f"{console} {line}", f"/consoles/{console}/command", json.dumps({"text": text}).encode())


def operation(console: str, line: str, **keys: object) -> Asked:
    return Asked(f"{console} {line}", f"/consoles/{console}/admin", json.dumps(keys).encode())


def operation_refused(reason: str, **keys: object) -> Asked:
    return Asked(f"- - 400 H400 - body: {reason}", "/consoles/C1/admin", json.dumps(keys).encode())


PAYROLL = "PROFILE OPERCMDS MVS.CANCEL.JOB.PAY* HELD NONE NEEDED UPDATE"
WARNED = "PROFILE OPERCMDS MVS.VARY.DEV HELD NONE NEEDED UPDATE WARNED"
LISTS = "PROFILE OPERCMDS MVS.** HELD READ NEEDED READ"
FLAGS = {"special": False, "auditor": True, "restricted": False}
PATTERN = {"class": "OPERCMDS", "pattern": "MVS.LOG"}
PROFILE = {**PATTERN, "owner": "SECADM", "uacc": "READ", "warning": True}
SHOWN = "class=OPERCMDS pattern=MVS.LOG"
LINES = [
    typed("C1", "D U", '- 200 - "D U" GROUP INFO AUTH SYS'),
    typed("C3", "D U", '- 403 E12 "D U" LOGONREQUIRED'),
    typed("C9", "D U", '- 404 E10 "D U" -'),
    # no password of a LOGON, nor what follows the verb of what is no command, nor that word if it is no verb
    typed("C1", "LOGON ANNA,WRONG", '- 403 E14 "LOGON ANNA,********" -'),
    typed("C1", "  logon   anna,wrong  ", '- 403 E14 "  logon   anna,********" -'),
    typed("C9", "LOGON ANNA,ABC", '- 404 E10 "LOGON ANNA,********" -'),
    typed("C1", "  logon   anna , abc", '- 400 E05 "  logon,********" -'),
    typed("C1", "LOGON,ANNA,ABC", '- 400 E04 "LOGON,********" -'),
    typed("C1", "LGON ANNA,ABC", '- 400 E04 ",********" -'),
    typed("C1", "LOGONANNA,ABC", '- 400 E04 ",********" -'),
    typed("C9", "Logon ANNA ABC", '- 404 E10 "Logon,********" -'),
    typed("C1", "LOGON ABC", '- 400 E05 "LOGON,********" -'),
    typed("C1", "LOGOFF ANNA,ABC", '- 400 E05 "LOGOFF,********" -'),
    typed("C1", "LOGON ANNA,ABC\u20ac", '- 400 E03 "LOGON,********" -'),
    typed("C1", "LOGON ANNA,ABC" + " " * 113, '- 400 E02 "LOGON,********" -'),
    typed("C1", "LOGON", '- 400 E05 "LOGON" -'),
    typed("C1", "  LOGON.ANNA.GEHEIM", '- 400 E04 "  ,********" -'),
    typed("C1", ",ANNA,GEHEIM", '- 400 E04 ",********" -'),
    # but a password in another place
    typed("C1", "LOGON ABC,ANNA", '- 403 E14 "LOGON ABC,********" -'),
    typed("C1", "LOGON ANNA,ABC", '- 200 - "LOGON ANNA,********" NOPROFILE'),
    typed("C1", "LOGON ANNA,ABC", 'ANNA 403 E15 "LOGON ANNA,********" AlreadyOn ANNA'),
    typed("C1", "C PAYROLL", f'ANNA 403 E20 "C PAYROLL" {PAYROLL}'),
    typed("C1", "V 0A80,OFFLINE", f'ANNA 200 - "V 0A80,OFFLINE" {WARNED}'),
    # one line of printable ASCII
    typed("C1", "L 'a\"b\\c'", rf'''ANNA 200 - "L 'a\"b\\c'" {LISTS}'''),
    typed("C1", "D\nU\t\x00\x7f\x1b[31mé D,U", 'ANNA 400 E03 ",********" -'),
    typed("C1", "D \nU\t\x00\x7f\x1b[31mé", 'ANNA 400 E03 "D,********" -'),
    typed("C1", "", 'ANNA 400 E01 "" -'),
    typed("C1", "  ", 'ANNA 400 E01 "  " -'),
    typed("C1", "L" * 126, 'ANNA 400 E04 ",********" -'),
    typed("C1", " " * 126 + "L", f'ANNA 400 E02 "{" " * 126}".. -'),
    typed("C1", "\u20ac" * 10_000, 'ANNA 400 E02 ",********" -'),
    # operations, without digests
    operation("C1", 'ANNA 403 E50 "AddGroup name=DAY" -', op="AddGroup", name="DAY"),
    typed("C2", "LOGON SECADM,ABC", '- 200 - "LOGON SECADM,********" NOPROFILE'),
    operation("C2", 'SECADM 200 - "AddUser id=NEW special=false auditor=true restricted=false" -', op="AddUser",
              id="NEW", digest=DIGEST, **FLAGS),
    operation("C2", 'SECADM 200 - "AltUser id=NEW special=false auditor=true revoked=true restricted=false" -',
              op="AltUser", id="NEW", revoked=True, digest=DIGEST, **FLAGS),
    operation("C2", 'SECADM 409 E52 "AddUser id=NEW special=false auditor=true restricted=false" Exists NEW',
              op="AddUser", id="NEW", digest=None, **FLAGS),
    operation("C2", 'SECADM 200 - "AddGroup name=DAY" -', op="AddGroup", name="DAY"),
    operation("C2", 'SECADM 200 - "Connect user=NEW group=DAY" -', op="Connect", user="NEW", group="DAY"),
    operation("C2", 'SECADM 200 - "Remove user=NEW group=DAY" -', op="Remove", user="NEW", group="DAY"),
    operation("C2", 'SECADM 200 - "DelUser id=NEW" -', op="DelUser", id="NEW"),
    operation("C2", 'SECADM 409 E55 "DelUser id=ANNA" InUse ANNA', op="DelUser", id="ANNA"),
    operation("C2", f'SECADM 200 - "RDefine {SHOWN} owner=SECADM uacc=READ warning=true" -', op="RDefine", **PROFILE),
    operation("C2", f'SECADM 200 - "RAlter {SHOWN} owner=SECADM uacc=NONE warning=true" -', op="RAlter",
              **{**PROFILE, "uacc": "NONE"}),
    operation("C2", f'SECADM 200 - "Permit {SHOWN} id=* level=UPDATE when=C1" -', op="Permit", id="*",
              level="UPDATE", when="C1", **PATTERN),
    operation("C2", f'SECADM 409 E53 "PermitDelete {SHOWN} id=* when=-" Missing *', op="PermitDelete", id="*",
              when=None, **PATTERN),
    operation("C2", f'SECADM 200 - "RDelete {SHOWN}" -', op="RDelete", **PATTERN),
    operation("C2", 'SECADM 200 - "ClassActive class=CONSOLE active=false" -', op="ClassActive",
              **{"class": "CONSOLE", "active": False}),
    operation("C2", 'SECADM 200 - "DefineConsole name=C1 auth=IO,CONS mode=REQUIRED" -', op="DefineConsole",
              name="C1", auth="IO,CONS", mode="REQUIRED"),
    Asked('C2 SECADM 200 - "import 2" -', "/consoles/C2/import/2", f"{HEADER}user,,DAVE,,,,,{DIGEST}\n".encode()),
    Asked('C2 SECADM 409 E53 "import 3" Missing DAYOP', "/consoles/C2/import/3",
          f"{HEADER}connect,,ANNA,DAYOP,,,,\n".encode()),
    Asked('C2 SECADM 200 - "profiles OPERCMDS" -', "/consoles/C2/profiles/OPERCMDS"),
    Asked('C2 SECADM 200 - "account 0 1" -', "/consoles/C2/account/0/1"),
    typed("C1", "LOGOFF", 'ANNA 200 - "LOGOFF" -'),
    # no requests
    Asked("- - 404 H404 - -", "/consoles/C1", b""),
    Asked("- - 405 H405 - -", "/consoles/C1/command"),
    Asked("- - 400 H400 - path: the console", "/consoles/c1/command", b'{"text":"D U"}'),
    Asked("- - 400 H400 - path: the batch", "/consoles/C2/import/0", HEADER.encode()),
    Asked("- - 400 H400 - path: the class", "/consoles/C2/profiles/USER"),
    Asked("- - 400 H400 - path: the first number", "/consoles/C2/account/X/1"),
    Asked("- - 400 H400 - path: the count", "/consoles/C2/account/0/0"),
    Asked("- - 400 H400 - body: not JSON", "/consoles/C1/command", b'{"text":"LOGON ANNA,ABC"'),
    Asked("- - 400 H400 - body: not an object", "/consoles/C1/command", b'"LOGON ANNA,ABC"'),
    # no key of the client's, and no value
    Asked("- - 400 H400 - body: the key text is missing", "/consoles/C1/command", b'{"line":"LOGON ANNA,ABC"}'),
    Asked("- - 400 H400 - body: the value of text", "/consoles/C1/command", b'{"text":["LOGON ANNA,ABC"]}'),
    Asked("- - 400 H400 - body: a key is not known", "/consoles/C1/command", b'{"text":"D U","LOGON ANNA,ABC":1}'),
    Asked("- - 400 H400 - body: the value of op", "/consoles/C1/admin", b'{"op":"Rename","id":"NEW"}'),
    Asked("- - 400 H400 - body: the key id is missing", "/consoles/C1/admin", b'{"op":"DelUser","user":"NEW"}'),
    Asked("- - 400 H400 - body: the value of id", "/consoles/C1/admin", b'{"op":"DelUser","id":""}'),
    operation_refused("the value of digest", op="AddUser", id="NEW", digest=DIGEST[1:], **FLAGS),
    operation_refused("a key is not known", op="AddUser", id="NEW", digest=DIGEST, owner="SECADM", **FLAGS),
    operation_refused("the key when is missing", op="PermitDelete", id="*", **PATTERN),
    Asked("- - 400 H400 - body: not UTF-8", "/consoles/C2/import/3", b"\xff"),
    Asked("- - 400 E60 - RowFault 1 Digest", "/consoles/C2/import/3", f"{HEADER}user,,DAVE,,,,,ABC\n".encode()),
    # what people mistype
    Asked("- - 400 H400 - body: not JSON", "/consoles/C1/command", b"{'text':'D U'}"),
    Asked("- - 400 H400 - body: the key text is missing", "/consoles/C1/command", b'{"command":"D U"}'),
    Asked("- - 400 H400 - path: the count", "/consoles/C2/account/1/5000"),
    operation_refused("the value of op", op="PERMIT", id="*", level="READ", when=None, **PATTERN),
    operation_refused("the value of class", op="ClassActive", **{"class": "opercmds", "active": True}),
    operation_refused("the key when is missing", op="Permit", id="*", level="READ", **PATTERN),
    Asked("- - 400 E60 - RowFault 0 Header", "/consoles/C2/import/3", HEADER.replace(",", ";").encode()),
    Asked("- - 400 E60 - RowFault 0 Header", "/consoles/C2/import/3", b"@day.csv"),
]
COMMAND = b"POST /consoles/C1/command HTTP/1.1\r\n"
# what is sent as it is, and then closed, and the line about it
SENT = {
    b"": "- - 400 H400 - head",
    b"hello\r\n\r\n": "- - 400 H400 - head",
    COMMAND + b"Transfer-Encoding: chunked\r\n\r\n": "- - 400 H400 - framing: Transfer-Encoding",
    COMMAND + b"Content-Length: x\r\n\r\n": "- - 400 H400 - framing: Content-Length",
    COMMAND + b"Content-Length: 9\r\n\r\n{": "- - 400 H400 - body: cut short",
    COMMAND + b"Content-Length: 65537\r\n\r\n": "- - 413 H413 - -",
}
# how a database fails from the first sync on after a client was accepted
SYNC_FAULT = {"FAULT_CALL": "sync", "FAULT_FROM": "1", "FAULT_AT": "1", "FAULT_TIMES": "0"}
# moments and how they are written
TIMES = {
    0: "1970-01-01T00:00:00Z",
    951_782_399: "2000-02-28T23:59:59Z",
    951_782_400: "2000-02-29T00:00:00Z",
    951_868_800: "2000-03-01T00:00:00Z",
    1_795_759_790: "2026-11-27T06:09:50Z",
    4_107_542_399: "2100-02-28T23:59:59Z",
    4_107_542_400: "2100-03-01T00:00:00Z",
    253_402_300_799: "9999-12-31T23:59:59Z",
    253_402_300_800: "253402300800",
    9_999_999_999_999: "9999999999999",
}


def shape(tally: Tally, file: str) -> None:
    """Each kind of request and each form of a line, which ends with the number of its row of the account."""
    with contextlib.closing(sqlite3.connect(file)) as base:
        rows = base.execute("SELECT count(*) FROM account").fetchone()[0]
    began = int(time.time())
    with Service(file, "--log", "--count", str(len(LINES))) as service:
        for asked in LINES:
            clients.by_socket(service.port, asked.method(), asked.path, asked.body)
        status, output, said = service.ended()
    tally.equal("log: the service ends", (status, output), (0, ""))
    lines = said.splitlines()
    tally.equal("log: a line for each exchange", len(lines), len(LINES))
    for asked, line in zip(LINES, lines):
        moment, _, rest = line.partition(" ")
        rows += asked.has_row()
        wanted = f"{asked.line} #{rows}" if asked.has_row() else asked.line
        tally.equal(f"log: {asked.method()} {asked.path} {(asked.body or b'')[:40]!r}", rest, wanted)
        seconds = calendar.timegm(time.strptime(moment, "%Y-%m-%dT%H:%M:%SZ"))
        tally.wants(f"log: the time {moment}", began <= seconds <= time.time(), line)
    tally.wants("log: printable lines under 1,024 bytes", all(
        line.isascii() and line.isprintable() and len(line) < 1024 for line in lines
    ), lines)


def times(tally: Tally, room: str, file: str) -> None:
    """The time of a moment, by a clock that is set."""
    set_to = {"LD_PRELOAD": preload(room, "clock"), "CLOCK_FILE": f"{room}/clock"}
    for moment, wanted in TIMES.items():
        with open(f"{room}/clock", "w") as clock:
            clock.write(f"{moment}\n")
        with Service(file, "--log", "--count", "1", **set_to) as service:
            clients.by_socket(service.port, "POST", "/consoles/C2/command", b'{"text":"D R"}')
            _, _, said = service.ended()
        tally.equal(f"log: the time of {moment}", said.partition(" ")[0], wanted)


def silent(tally: Tally, file: str) -> None:
    """A peer that asks for nothing has a line of its own, and the next one is served; so do peers that close."""
    with Service(file, "--log", "--timeout", "1", "--count", str(2 + len(SENT))) as service:
        with clients.connected(service.port):
            clients.by_socket(service.port, "POST", "/consoles/C2/command", b'{"text":"D U"}')
        for data in SENT:
            clients.sent(service.port, data, closes=True)
        _, _, said = service.ended()
    lines = [line.partition(" ")[2] for line in said.splitlines()]
    tally.equal("log: a silent peer", lines[:1], ["- - - - - -"])
    tally.equal("log: peers that close", lines[2:], list(SENT.values()))


def foreign(tally: Tally, file: str) -> None:
    """What a web page may have sent to a strict service."""
    with Service(file, "--log", "--strict", "--count", "1") as service:
        clients.sent(service.port, COMMAND + b"Origin: http://room\r\nContent-Length: 14\r\n\r\n" + b'{"text":"D U"}')
        _, _, said = service.ended()
    tally.equal("log: a web page", said.partition(" ")[2], "- - 403 H403 - -\n")


def unloaded(tally: Tally, room: str, file: str) -> None:
    """Once the database has failed, nobody knows who is on."""
    with Service(file, "--log", "--count", "2", LD_PRELOAD=preload(room), **SYNC_FAULT) as service:
        for console in ("C9", "C1"):
            clients.by_socket(service.port, "POST", f"/consoles/{console}/command", b'{"text":"D U"}')
        _, _, said = service.ended()
    lines = [line.partition(" ")[2] for line in said.splitlines()[:2]]
    tally.equal("log: a database that fails", lines, ['C9 - 500 E91 "D U" -', 'C1 ? 500 E91 "D U" -'])


def unwritten(tally: Tally, room: str, file: str) -> None:
    """Where no line can be written, all is answered, and kept, as without a log."""
    wanted, kept = [], []
    streams = (("no log", (), os.devnull), ("a full log", ("--log",), "/dev/full"), ("a closed log", ("--log",), ""))
    for title, words, errors in streams:
        copy = shutil.copy(file, f"{room}/{title.replace(' ', '-')}")
        end, begin = os.pipe()
        os.close(end)
        stream = os.open(errors, os.O_WRONLY) if errors else begin
        command = [built(), "serve", "--db", copy, "--port", "0", "--count", str(len(LINES)), *words]
        with subprocess.Popen(command, stdin=subprocess.DEVNULL, stdout=subprocess.PIPE, stderr=stream) as process:
            port = int(process.stdout.readline().rpartition(b":")[2])
            found = [clients.by_socket(port, asked.method(), asked.path, asked.body) for asked in LINES]
            status = process.wait(timeout=20)
        tally.equal(f"log: {title}: the service ends", status, 0)
        # (a listing of the account has the moments of the clock)
        found = [answer for asked, answer in zip(LINES, found) if "/account/" not in asked.path]
        wanted, kept = wanted or found, kept or stored.whole(copy)
        tally.equal(f"log: {title}: the answers", found, wanted)
        tally.equal(f"log: {title}: the tables", stored.whole(copy), kept)


def logs(tally: Tally, room: str, base: str) -> None:
    shape(tally, shutil.copy(base, f"{room}/shape"))
    times(tally, room, shutil.copy(base, f"{room}/times"))
    silent(tally, shutil.copy(base, f"{room}/silent"))
    foreign(tally, shutil.copy(base, f"{room}/foreign"))
    unloaded(tally, room, shutil.copy(base, f"{room}/unloaded"))
    unwritten(tally, room, base)
    with Service(shutil.copy(base, f"{room}/quiet"), "--count", "1") as service:
        clients.by_socket(service.port, "POST", "/consoles/C2/command", b'{"text":"D U"}')
        tally.equal("log: none without --log", service.ended(), (0, "", ""))
