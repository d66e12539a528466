"""The log: a line for each exchange, as docs/rules/decide.md has it, and nothing else depends on it."""
import calendar
import os
import subprocess
import time

from lib import clients
from lib.model import point
from lib.places import built
from lib.tally import Tally
from .asking import (
    CARL, CARL_DENIED, DIGITS, Point, asked, base_policy, console, entering, having, put, user,
)
from .compared import LINE, lines_of
from .worked import ANNA, BACKUP, LOG, PAYROLL, SEARCHES, SEVERAL, VARY

# a question, and its line without the time
DECISIONS = [
    (entering(ANNA, "C PAYROLL", console="C1"), f'C1 ANNA 200 DENIED "enter C PAYROLL" {PAYROLL} {DIGITS}'),
    (entering(ANNA, "  c   backup "), f'- ANNA 200 ALLOWED "enter   c   backup " {BACKUP} {DIGITS}'),
    (entering(ANNA, "V 0A80,OFFLINE"), f'- ANNA 200 WARNED "enter V 0A80,OFFLINE" {VARY} {DIGITS}'),
    (entering(console("C1"), "C PAYROLL"), f'C1 - 200 ALLOWED "enter C PAYROLL" GROUP SYS AUTH SYS {DIGITS}'),
    (entering(user("ZOE"), "D U"), f'- ZOE 200 NOUSER "enter D U" - {DIGITS}'),
    (entering(console("C9"), "D U"), f'C9 - 200 NOCONSOLE "enter D U" - {DIGITS}'),
    (having(ANNA, "READ", "CONSOLE", "C1"), f'- ANNA 200 UNDECIDED "READ CONSOLE C1" - {DIGITS}'),
    (having(ANNA, "READ", "OPERCMDS", "MVS.LOG", console="C1"),
     f'C1 ANNA 200 ALLOWED "READ OPERCMDS MVS.LOG" {LOG} {DIGITS}'),
    (having(ANNA, "LOGON", "CONSOLE", "C1"), f'C1 ANNA 200 ALLOWED "LOGON C1" NOPROFILE {DIGITS}'),
    # no password of a LOGON, nor how long it is
    (entering(ANNA, "LOGON ANNA,ABC", console="C1"), f'C1 ANNA 200 ALLOWED "LOGON C1" NOPROFILE {DIGITS}'),
    (entering(ANNA, "LOGONANNA,ABC", console="C1"), f'- - 400 - "resource.id: E04" - {DIGITS}'),
    (entering(ANNA, "LOGOFF ANNA,ABC"), f'- - 400 - "resource.id: E05" - {DIGITS}'),
    (entering(ANNA, "L 'a\"b\\c'"), f'- ANNA 200 ALLOWED "enter L \'a\\"b\\\\c\'" {LOG} {DIGITS}'),
    (entering(ANNA, f"L '{'x' * 122}'"), f'- ANNA 200 ALLOWED "enter L \'{"x" * 117}".. {LOG} {DIGITS}'),
    (entering(ANNA, "LOGOFF"), f'- - 400 - "resource.id: the command needs nothing" - {DIGITS}'),
    (b"{", f'- - 400 - "the body is no JSON" - {DIGITS}'),
    ({"subject": {"type": "user", "id": "anna\n"}}, f'- - 400 - "the key subject.id is invalid" - {DIGITS}'),
]
OTHERS = [
    (SEVERAL[0].kind, SEVERAL[0].body, f'- - 200 - "evaluations" - {DIGITS}'),
    ("evaluations", entering(ANNA, "C PAYROLL"), f'- - 200 - "evaluations" - {DIGITS}'),
    ("evaluations", {"evaluations": 7}, f'- - 400 - "the key evaluations is invalid" - {DIGITS}'),
    *(
        (kind, next(it.body for it in SEARCHES if it.kind == kind), f'- - 200 - "{kind} search" - {DIGITS}')
        for kind in ("subject", "action", "resource")
    ),
    ("subject", {}, f'- - 400 - "the key subject is missing" - {DIGITS}'),
]


def sent_to(service: Point, path: str) -> list[str]:
    """The lines that are wanted of some requests, which are sent."""
    for body, _ in DECISIONS:
        asked(service.port, "evaluation", body)
    for kind, body, _ in OTHERS:
        asked(service.port, kind, body)
    clients.by_socket(service.port, "GET", point.CONFIGURATION)
    clients.by_socket(service.port, "GET", "/nowhere")
    clients.by_socket(service.port, "GET", point.PATHS["evaluation"])
    clients.sent(service.port, b"?\r\n\r\n")
    clients.sent(service.port, clients.head("POST", point.PATHS["evaluation"], None, ["Content-Length: 65537"]))
    os.rename(path, f"{path}.away")
    asked(service.port, "evaluation", CARL)
    os.rename(f"{path}.away", path)
    refusals = [f"- - {status} H{status} - - -" for status in (404, 405, 400, 413)]
    others = ["- - 200 - - - -", *refusals, '- - 500 - "no policy" - -']
    return [line for _, line in DECISIONS] + [line for _, _, line in OTHERS] + others


def lines(tally: Tally, room: str, path: str) -> None:
    count = len(DECISIONS) + len(OTHERS) + 6
    log, began = f"{room}/log", int(time.time())
    with open(log, "wb") as errors, Point(path, "--log", "--count", str(count), errors=errors) as service:
        wanted = sent_to(service, path)
        tally.equal("the end of a service with a log", service.ended(), (0, "", ""))
    found = lines_of(log)
    tally.equal("how many lines the log has", len(found), len(wanted))
    for line, told in zip(found, wanted):
        tally.equal("a line of the log", line, told)
    with open(log, encoding="ascii") as file:
        times = [calendar.timegm(time.strptime(line[:20], "%Y-%m-%dT%H:%M:%SZ")) for line in file if LINE.match(line)]
    good = times == sorted(times) and times and began <= times[0] and times[-1] <= time.time()
    tally.wants("the times of the lines", good, times)


def silent(tally: Tally, room: str, path: str) -> None:
    """Without --log nothing is written; a log that cannot be written changes no response."""
    with Point(path, "--count", "2") as service:
        found = [asked(service.port, "evaluation", CARL) for _ in range(2)]
        tally.equal("without a log: the responses", found, [CARL_DENIED] * 2)
        tally.equal("without a log: the end", service.ended(), (0, "", ""))
    with open("/dev/full", "wb") as full, Point(path, "--log", "--count", "2", errors=full) as service:
        found = [asked(service.port, "evaluation", CARL) for _ in range(2)]
        tally.equal("a log that is full: the responses", found, [CARL_DENIED] * 2)
        tally.equal("a log that is full: the end", service.ended(), (0, "", ""))
    at = f"{room}/closed.sock"
    words = ["decide", "--policy", path, "--socket", at, "--log", "--count", "1"]
    words = ["sh", "-c", 'exec "$0" "$@" 2>&-', built(), *words]
    with subprocess.Popen(words, stdin=subprocess.DEVNULL, stdout=subprocess.PIPE) as service:
        line = f"LISTENING unix:{at}\n".encode()
        tally.equal("standard error is closed: it listens", service.stdout.readline(), line)
        tally.equal("standard error is closed: the response", asked(at, "evaluation", CARL), CARL_DENIED)
        tally.equal("standard error is closed: the end", service.wait(20), 0)


def logs(tally: Tally, room: str) -> None:
    path = put(f"{room}/policy.csv", base_policy())
    lines(tally, room, path)
    silent(tally, room, path)
