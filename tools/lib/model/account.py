"""The account as `account` prints it."""
import json
import re
from datetime import datetime, timedelta, timezone

from . import names

HEADER = "NUMBER TIME                 CONSOLE  USER     CODE RULE\n"
ALL_ROWS = (1 << 63) - 1
LAST_MOMENT = 9_999_999_999_999
EPOCH = datetime(1970, 1, 1, tzinfo=timezone.utc)
FORM = "%Y-%m-%dT%H:%M:%SZ"
Row = tuple  # moment, console, user, code, rule


def time_of(moment: int) -> str:
    """The time of a moment; after the year 9999 its number."""
    if moment >= 253_402_300_800:
        return str(moment)
    return (EPOCH + timedelta(seconds=moment)).strftime(FORM)


def moment_of(text: str) -> int | None:
    """The moment that a text names, if it names one."""
    if re.fullmatch("@[0-9]+", text):
        return int(text[1:]) if int(text[1:]) <= LAST_MOMENT else None
    if not re.fullmatch("[0-9]{4}-[0-9]{2}-[0-9]{2}T[0-9]{2}:[0-9]{2}:[0-9]{2}Z", text):
        return None
    try:
        found = datetime.strptime(text, FORM).replace(tzinfo=timezone.utc)
    except ValueError:
        return None
    if found < EPOCH or text[17:19] in ("60", "61"):
        return None
    return int((found - EPOCH).total_seconds())


def is_rows(text: str) -> bool:
    return re.fullmatch("[0-9]+", text) is not None and 1 <= int(text) <= ALL_ROWS


def reads(words: dict) -> bool:
    """Whether the values of the options read."""
    tests = {
        "from": is_rows, "last": is_rows, "count": is_rows,
        "since": lambda text: moment_of(text) is not None, "until": lambda text: moment_of(text) is not None,
        "user": lambda text: text == "-" or names.is_user(text),
        "console": lambda text: text == "*" or names.is_console(text),
        "code": lambda text: re.fullmatch(r"[A-Z0-9]+\*?", text) is not None,
    }
    return not {"from", "last"} <= set(words) and all(tests[name](words[name]) for name in tests if name in words)


def is_code(code: str, wanted: str) -> bool:
    return code.startswith(wanted[:-1]) if wanted.endswith("*") else code == wanted


def meets(row: Row, words: dict) -> bool:
    moment, console, user, code, _ = row
    return all((
        "since" not in words or moment >= moment_of(words["since"]),
        "until" not in words or moment <= moment_of(words["until"]),
        words.get("user", user) == user,
        words.get("console", console) == console,
        "code" not in words or is_code(code, words["code"]),
    ))


def line_of(number: int, row: Row, is_json: bool) -> str:
    moment, console, user, code, rule = row
    time = time_of(moment)
    if is_json:
        value = {
            "code": code, "console": console, "moment": moment, "number": number, "rule": rule, "time": time,
            "user": user,
        }
        return json.dumps(value, separators=(",", ":"), ensure_ascii=False) + "\n"
    return f"{number:<6} {time:<20} {console:<8} {user:<8} {code:<4} {rule}\n"


def answer(account: list[Row], words: dict) -> str:
    """What `account` prints of these rows, by the values of its options, of which `json` has none."""
    rows = list(enumerate(account, 1))
    rows = rows[-int(words["last"]):] if "last" in words else rows[int(words.get("from", 1)) - 1:]
    rows = [(number, row) for number, row in rows if meets(row, words)][:int(words.get("count", ALL_ROWS))]
    lines = [line_of(number, row, "json" in words) for number, row in rows]
    return "".join(lines if "json" in words else [HEADER, *lines])
