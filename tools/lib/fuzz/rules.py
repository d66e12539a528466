"""The form of what the program prints, answers and says, by the tables of docs/RULES.md."""
import functools
import json
import re
from typing import NamedTuple

from lib.answers import PHRASES
from lib.places import TOP

ROW = re.compile(r"^- (E\d\d) `(\w+)`((?: \w+)*): ", re.M)
# the lines with the statuses of responses and of runs: each status with its codes, and with spans of them
STATUSES = re.compile(r"^- \*\*(?:Status of a response|Exit status)\b.*", re.M)
STATUS = re.compile(r"(\d+) for (E[^;.]*)")
SPAN = re.compile(r"(E\d\d)(?: to (E\d\d))?")
NUMBER, NAME = r"(?:0|[1-9]\d*)", r"[A-Z0-9#$@.%*]{1,39}"
REASONS = "Header Columns Many Kind Class Name Id Value Owner Flags Digest When Restricted".split()
DETAILS = {
    "at": NUMBER, "from": NUMBER, "to": NUMBER, "row": NUMBER, "version": NUMBER, "user": NAME, "name": NAME,
    "reason": f"(?:{'|'.join(REASONS)})",
}
GROUP, LEVEL = "(?:MASTER|INFO|SYS|IO|CONS)", "(?:NONE|READ|UPDATE|CONTROL|ALTER)"
AUTH = "(?:MASTER|ALL|INFO|SYS(?:,IO)?(?:,CONS)?|IO(?:,CONS)?|CONS)"
PROFILE = f"PROFILE (?:CONSOLE|OPERCMDS) {NAME} HELD {LEVEL} NEEDED {LEVEL}(?: WARNED)?"
RULE = f"(?:-|NOPROFILE|LOGONREQUIRED|REVOKED|GROUP {GROUP} AUTH {AUTH}|{PROFILE})"
# reasons for which the store does not take a database file that the system opens
REASONS_OF_DATABASE = (
    "not a database|tables of another program|tables of version [1-9][0-9]*|in use by another program|"
    "it has a rollback journal; open it with sqlite3 first|not a plain file of one name|not the path of a file|"
    "a database with auto_vacuum, which is not supported|a database in UTF-16, which is not supported|"
    "corrupt, or the disk is full or failing|the disk is full|"
    r"missing, but its log \(-wal\) is there; move the log along, or remove it"
)
# what an export says that made the tables; a path may have line ends
MADE = re.compile(r"(?s)opcmds: database .*: newly created; it has no policy\n")
# what a run says that refuses something, in memory without a policy
EMPTY_ROOM = "opcmds: without a policy there is no console; use --policy or --db"
DONE = re.compile(rf"\d{{1,13}} DONE {RULE}")
REFUSED = re.compile(rf"\d{{1,13}} REFUSED (E\d\d) (.*?) ({RULE})")
# what C0, DEL and C1 have, which a terminal would obey
CONTROL = re.compile(r"[\x00-\x1f\x7f-\x9f]")
ESCAPED = re.compile(r"\\u\{[0-9a-f]+\}|\\x[0-9a-f]{2}|\\.")
FIELD = re.compile(rf'"((?:[^"\\]|{ESCAPED.pattern})*)"(\.\.)?$')
MOST_SHOWN = 39  # characters of a field
# why a line of a script is bad; what follows a fault that some rows have, and the faults of which a line may follow
BAD_LINE = re.compile(
    rf'opcmds: script(?:: (?:more than 1,048,576 bytes|not UTF-8)|, line {NUMBER}: (no time|no console|no command|'
    r"the time has more than 13 digits|the (?:console's name|event) is invalid): (\".*\"(?:\.\.)?) "
    r"\(a line (?:is TIME CONSOLE COMMAND(?:; TIME is in seconds since 1970)?|of an event is TIME \* EVENT; "
    r"events: JOBIN, JOBEND, ATTACH, ALLOCATE, FREE, ASK, RESUME)\))\n"
)
# how many words of it are shown at most, since a password may follow; of any other fault two
WORDS = {"no time": 1, "the time has more than 13 digits": 1, "the event is invalid": 3}
REFUSED_ROW = (
    rf"opcmds: (?s:.*), row {NUMBER}, line {NUMBER}: (?:no (?:user|group|user or group|profile (?:CONSOLE|OPERCMDS))|"
    rf"a (?:user|group) has the name) {NAME}(?:; {NAME}\?)?"
)
NOTES = {
    "E04": r'opcmds: "[A-Za-z0-9#$@*]*": (?:no such verb(?:; [A-Z]+\?)?|no space follows the verb)',
    "E05": r'opcmds: "[^ ,]+(?: [^ ,]+)?"(?:\.\.)?: [A-Z]+ takes .+',
    "E10": rf"opcmds: (?:console \S+: there is no such console|no such console(?:; {NAME}\?)?)",
    "E12": r"opcmds: console \S+: nobody is logged on",
    "E50": r"opcmds: console \S+: (?:nobody is logged on|\S+ is not SPECIAL)", "E52": REFUSED_ROW,
    "E53": rf"(?:{REFUSED_ROW}|opcmds: no such user(?:; {NAME}\?)?)",
    "E57": r"(?s:opcmds: database .*): users are stored; (?:use --console|leave out --policy)",
}
HEADER = re.compile(
    r': (the first row is not the header: (".*"(?:\.\.)?)'
    r"; (?:fields are separated by '(?:;|\\t|\|)', expected ','|expected kind,class,name,id,value,owner,flags,digest)|"
    r'no rows; the first has to be the header|more than 16,777,216 bytes|(?:UTF-16 and )?not UTF-8(?:; save it as "CSV '
    r'UTF-8")?)$'
)
RESPONSE = re.compile(
    rb"HTTP/1\.1 (\d{3}) ([A-Za-z ]+)\r\nContent-Type: application/json\r\nContent-Length: (\d+)\r\n"
    rb"(?:Allow: (GET|POST)\r\n)?Connection: close\r\n\r\n(.*)", re.S
)


# how what is said of invalid arguments begins; without any it is the first screen
MISTAKES = ("error: ", "Decides from a written policy ")


class Form(NamedTuple):
    """What the index says of a fault: the form of its text, the status of a response with it, and that of a run."""
    text: re.Pattern[str]
    response: int | None
    run: int | None


def statuses(said: str, codes: list[str]) -> dict[str, int]:
    """The status of each code that a line of the index names."""
    found = {}
    for status, spans in STATUS.findall(said):
        for first, last in SPAN.findall(spans):
            found |= {code: int(status) for code in codes if first <= code <= (last or first)}
    return found


@functools.cache
def forms() -> dict[str, Form]:
    with open(f"{TOP}/docs/RULES.md", encoding="utf-8") as file:
        index = file.read()
    rows = ROW.findall(index)
    response, run = (statuses(said, [code for code, _, _ in rows]) for said in STATUSES.findall(index))
    found = {}
    for code, name, details in rows:
        text = " ".join([name, *(DETAILS[detail] for detail in details.split())])
        found[code] = Form(re.compile(text), response.get(code), run.get(code))
    return found


def wrong_fault(code: str, text: str) -> str | None:
    """What is wrong with the text of a fault."""
    form = forms().get(code)
    if form is None:
        return f"no rule has the code {code}"
    return None if form.text.fullmatch(text) else f"not the text of {code}: {text!r}"


def wrong_answers(printed: bytes) -> str | None:
    """What is wrong with what a script prints, whatever it says."""
    try:
        lines = printed.decode().split("\n")
    except UnicodeDecodeError:
        return "answers that are not UTF-8"
    if lines.pop() != "":
        return "the last line of the answers does not end"
    if len(lines) == 1 and re.fullmatch(rf"BAD LINE {NUMBER}", lines[0]):
        return None
    for at, line in enumerate(lines):
        found = REFUSED.fullmatch(line)
        if line.startswith("  ") and at > 0 or DONE.fullmatch(line):
            continue
        wrong = wrong_fault(found[1], found[2]) if found else f"not the form of an answer: {line!r}"
        if wrong:
            return wrong
    return None


def wrong_said(status: int, said: bytes) -> str | None:
    """What is wrong with what a run says on standard error, which ends with this status."""
    text = said.decode(errors="backslashreplace")
    if not text:
        return None
    if status == 0:
        return None if MADE.fullmatch(text) else f"it is done, and says {text[:200]!r}"
    if status == 2 and text.startswith(MISTAKES) or (status, text) == (1, f"{EMPTY_ROOM}\n"):
        return None
    if status == 2 and text.startswith("opcmds: script"):
        return wrong_note(text)
    first, end, rest = text.partition("\n")
    wrong = wrong_fault(first[:3], first[4:])
    if wrong:
        return wrong
    if forms()[first[:3]].run != status:
        return f"{first} with the status {status}"
    if first[:3] in ("E60", "E91", "E92"):
        return wrong_reason(first, rest)
    if end and first[:3] in NOTES and re.fullmatch(rf"(?:{NOTES[first[:3]]}\n)?", rest):
        return None
    return None if end and not rest else f"not the fault alone the fault is said: {text[:300]!r}"


def wrong_reason(first: str, line: str) -> str | None:
    """What is wrong with the line after a fault. (The path in it may have line ends of its own.)"""
    if not line.startswith("opcmds: ") or not line.endswith("\n") or line.endswith("\n\n"):
        return f"not one line after {first}: {line[:400]!r}"
    line = line[:-1]
    number = re.fullmatch(rf"E60 RowFault ({NUMBER}) \w+", first)
    if number and number[1] == "0":
        good = HEADER.search(line)
        is_good = good and (good[2] is None or is_clean(good[2]))
        return None if is_good else f"not a reason for {first}: {line!r}"
    if number:
        reason = re.search(rf"(?s), row {number[1]}, line {NUMBER}: (.+)", line)
        return None if reason and is_clean(reason[1]) else f"not a reason for {first}: {line!r}"
    if first.startswith("E92") and not line.endswith(": " + reason_of_version(first)):
        return f"not the reason for {first}: {line!r}"
    return None


def wrong_note(text: str) -> str | None:
    """What is wrong with what is said of the bad line of a script."""
    found = BAD_LINE.fullmatch(text)
    is_good = found and (found[2] is None or is_clean(found[2], True) and has_words(found[2], WORDS.get(found[1], 2)))
    return None if is_good else f"not why a line is bad: {text[:400]!r}"


def has_words(shown: str, most: int) -> bool:
    """Whether a text in quotes has at most so many words, which end at a space or a comma."""
    return re.fullmatch(rf'"(?: *[^ ,]*){{0,{most}}}"(?:\.\.)?', shown) is not None


def is_clean(reason: str, is_cut: bool = False) -> bool:
    """Whether what is said of a row has no control characters, and at most 39 characters of the field; of a line that
    is cut fewer may be shown."""
    shown = FIELD.search(reason)
    size = len(ESCAPED.sub("x", shown[1])) if shown else 0
    is_short = size <= MOST_SHOWN and (is_cut or not shown or not shown[2] or size == MOST_SHOWN)
    return not CONTROL.search(reason) and is_short


def reason_of_version(first: str) -> str:
    version = first.rpartition(" ")[2]
    return "tables of another program" if version == "0" else f"tables of version {version}"


def wrong_response(data: bytes) -> str | None:
    """What is wrong with a response, whatever was asked."""
    found = RESPONSE.fullmatch(data)
    if not found:
        return f"not the form of a response: {data[:300]!r}"
    status, phrase, length, allow, body = int(found[1]), found[2].decode(), int(found[3]), found[4], found[5]
    if PHRASES.get(status) != phrase or length != len(body) or (allow is not None) != (status == 405):
        return f"not a head of the rules: {data[:300]!r}"
    try:
        text = body.decode()
        answer = json.loads(text)
        compact = json.dumps(answer, separators=(",", ":"), ensure_ascii=False)
    except ValueError:
        return f"not a body of JSON: {body[:300]!r}"
    keys = ["lines", "rule", "status"] if status == 200 else ["code", "rule", "status", "text"]
    if list(answer) != keys or answer["status"] != ("done" if status == 200 else "refused") or compact != text:
        return f"not a body of the rules: {body[:300]!r}"
    if not re.fullmatch(RULE, answer["rule"]):
        return f"not the text of a rule: {answer['rule']!r}"
    return None if status == 200 else wrong_refusal(status, answer["code"], answer["text"])


def wrong_refusal(status: int, code: str, text: str) -> str | None:
    if code == f"H{status}":
        good = text == PHRASES[status] and status in (400, 403, 404, 405, 413)
        return None if good else f"not the text of {code}: {text!r}"
    wrong = wrong_fault(code, text)
    if wrong:
        return wrong
    return None if forms()[code].response == status else f"{code} with the status {status}"
