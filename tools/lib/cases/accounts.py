"""The account that a room's answers leave, by the rules: a row for each refusal, and for what a warning alone let
pass."""
import json
import re
from typing import Iterable

from .tables import Room

LAST_MOMENT = 9_999_999_999_999
REFUSED = re.compile(r"REFUSED (E\d\d) .+? (-|LOGONREQUIRED|REVOKED|NOPROFILE|(?:PROFILE|GROUP) .+)")
WARNED = re.compile(r"DONE (PROFILE .+ WARNED)")
PATH = re.compile(r"/consoles/([^/ ]+)/")
SCRIPT_ANSWER = re.compile(r"\d+ ((?:DONE|REFUSED) .+)")


def kept(moment: str) -> int:
    """The moment of a request, by what the clock said."""
    return min(max(int(moment), 0), LAST_MOMENT)


def row(moment: str, console: str, answer: str) -> list[str]:
    """The row of the account that an answer leaves, without its user; none for most answers."""
    if found := REFUSED.fullmatch(answer):
        code, rule = found.groups()
    elif found := WARNED.fullmatch(answer):
        code, rule = "WARN", found[1]
    else:
        return []
    return [f"{kept(moment)} {console} {code} {rule}"]


def of_script(lines: Iterable[str], wanted: list[str]) -> list[str]:
    """The rows of the answers to these lines of a script."""
    found = [found_answer[1] for found_answer in map(SCRIPT_ANSWER.fullmatch, wanted) if found_answer]
    return [row_of for line, answer in zip(lines, found) for row_of in row(*line.split(" ")[:2], answer)]


def of_response(moment: str, line: str, wanted: list[str]) -> list[str]:
    """The row of a request whose response stands as it is."""
    if not wanted[0].endswith(" handled") or wanted[0].endswith("not handled"):
        return []
    body = json.loads(wanted[-1])
    answer = (
        f"DONE {body['rule']}" if body["status"] == "done" else f"REFUSED {body['code']} {body['text']} {body['rule']}"
    )
    return row(moment, re.sub("%(23|24|40)", lambda escape: chr(int(escape[1], 16)), PATH.search(line)[1]), answer)


def of_case(room: Room, line: str, wanted: list[str]) -> list[str]:
    if line == "new":
        return of_script(room.beginning, wanted)
    if line in ("bootstrap", "policy", "rows"):
        return []
    moment, console, text = line.split(" ", 2)
    if console == "*":
        return of_script([line], wanted)
    if console in ("POST", "GET", "BYTES"):
        return of_response(moment, text, wanted)
    if text.startswith("BATCH ") and wanted[0] == "status 1":
        return row(moment, console, f"REFUSED {wanted[1]} -")
    return row(moment, console, wanted[0])


def left_by(room: Room) -> list[str]:
    """The rows of the account: moment, console, code and rule."""
    return [row_of for case in room.cases for row_of in of_case(room, case.line, case.wanted)]
