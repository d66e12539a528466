"""Command lines: what reads as a command, and the fault of what does not."""
import re
from typing import NamedTuple

from .faults import wants
from .names import read_auth

LONGEST = 126  # characters, spaces at both ends among them

# Each verb with its abbreviation, if it has one.
VERBS = {
    "DISPLAY": "D", "CANCEL": "C", "START": "S", "STOP": "P", "MODIFY": "F", "REPLY": "R", "VARY": "V", "MOUNT": "M",
    "UNLOAD": "U", "SWAP": "G", "SEND": "SE", "LOG": "L", "MONITOR": "MN", "STOPMN": "PM", "RESET": "E", "HALT": "Z",
    "FORCE": None, "LOGON": None, "LOGOFF": None,
}
SPELLED = {spelling: verb for verb, short in VERBS.items() for spelling in (verb, short) if spelling}

NAME = "([A-Z0-9#$@]{1,8})"
CONSOLE = r"CN\(([A-Z#$@][A-Z0-9#$@]{1,7})\)"
DEVICE = "([0-9A-F]{4})"
AUTH = r"(?:(MASTER|ALL|INFO|SYS|IO|CONS)|\(((?:SYS|IO|CONS)(?:,(?:SYS|IO|CONS)){0,2})\))"

# Forms of operands by verb, as regular expressions of the folded text; the first that fits is meant.
FORMS = {
    "DISPLAY": {"D A,L": "A,L", "D A,name": f"A,{NAME}", "D U": "U", "D C": "C", "D R": "R"},
    "CANCEL": {"C name": NAME, "C U=user": f"U={NAME}"},
    "FORCE": {"FORCE": NAME},
    "STOP": {"P": NAME},
    "START": {"S": rf"{NAME}(?:\.{NAME})?"},
    "VARY": {
        "V dev": f"{DEVICE},(ONLINE|OFFLINE)",
        "V CN": f"{CONSOLE},(ONLINE|OFFLINE)",
        "V CN AUTH": f"{CONSOLE},AUTH={AUTH}",
    },
    "MOUNT": {"M": f"{DEVICE},VOL=([A-Z0-9#$@]{{1,6}})"},
    "UNLOAD": {"U": DEVICE},
    "SWAP": {"G": f"{DEVICE},{DEVICE}"},
    "RESET": {"E": CONSOLE},
    "MONITOR": {"MN": "JOBNAMES"},
    "STOPMN": {"PM": "JOBNAMES"},
    "HALT": {"Z": "EOD"},
    "LOGON": {"LOGON": f"{NAME},{NAME}"},
    "LOGOFF": {"LOGOFF": ""},
}


class Command(NamedTuple):
    form: str
    operands: tuple = ()


def read(text: str) -> Command:
    """The command that a line is; else its first fault, with places in bytes."""
    wants(text.strip(" "), "E01")
    wants(len(text) <= LONGEST, "E02")
    for at, character in enumerate(text):
        wants(" " <= character <= "~", "E03", len(text[:at].encode()))
    # from here on a character is a byte
    line = text.rstrip(" ")
    start = len(line) - len(line.lstrip(" "))
    end = (line + " ").index(" ", start)
    verb = SPELLED.get(line[start:end].upper())
    wants(verb, "E04", start, end)
    operand = line[end:].lstrip(" ")
    place = len(line) - len(operand)
    quote = open_quote(verb, operand)
    wants(quote is None, "E06", quote is not None and place + quote)
    found = read_operand(verb, operand)
    wants(found, "E05", place, len(line))
    return found


def open_quote(verb: str, operand: str) -> int | None:
    """Where a quoted text begins that is not closed, whatever stands before it."""
    if verb in ("MODIFY", "REPLY"):
        at = operand.find(",") + 1
        if at == 0:
            return None
    elif verb in ("SEND", "LOG"):
        at = 0
    else:
        return None
    return at if operand[at:].startswith("'") and quoted(operand[at:]) is None else None


def quoted(text: str) -> tuple[str, str] | None:
    """What the quoted text at the start of this one says, with what follows it; none if it is not closed."""
    value, at = "", 1
    while at < len(text):
        if text[at] != "'":
            value, at = value + text[at], at + 1
        elif text[at:at + 2] == "''":
            value, at = value + "'", at + 2
        else:
            return value, text[at + 1:]
    return None


def text_to_the_end(text: str) -> str | None:
    """The value of a text that ends its line, or none: quoted, or plain and folded."""
    if text.startswith("'"):
        value, rest = quoted(text)
        return None if rest else value
    return text.upper() or None


def read_operand(verb: str, operand: str) -> Command | None:
    if verb in ("MODIFY", "REPLY"):
        first, comma, text = operand.partition(",")
        value = text_to_the_end(text) if comma else None
        if value is None:
            return None
        if verb == "MODIFY":
            return Command("F", (first.upper(), value)) if re.fullmatch(NAME, first.upper()) else None
        return Command("R", (int(first), value)) if re.fullmatch("[0-9]{1,2}", first) else None
    if verb in ("SEND", "LOG"):
        if not operand.startswith("'"):
            return None
        value, rest = quoted(operand)
        if verb == "LOG":
            return None if rest else Command("L", (value,))
        target = re.fullmatch(rf",USER=\({NAME}\)", rest.upper())
        return Command("SE", (value, target[1])) if target else None
    for form, expression in FORMS[verb].items():
        if found := re.fullmatch(expression, operand.upper()):
            return of_form(form, found.groups())
    return None


def of_form(form: str, parts: tuple[str, ...]) -> Command | None:
    if form == "S":
        member, name = parts
        return Command(form, (member, name or member))
    if form == "V CN AUTH":
        auth = read_auth(parts[1] or parts[2])  # a part twice is none
        return auth and Command(form, (parts[0], auth))
    if form in ("V dev", "V CN"):
        return Command(f"{form} {parts[1]}", parts[:1])
    return Command(form, parts)
