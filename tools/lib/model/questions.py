"""Questions of `who` and `explain`: their options, and what a command needs."""
from typing import NamedTuple

from . import counting, names, needs, reading
from .board import Unit
from .faults import Fault


class Need(NamedTuple):
    group: str
    level: str
    resource: str


def asks_to_log_on(words: dict[str, str]) -> bool:
    """Whether the command is a LOGON; its operands do not count, and may be missing."""
    text = words.get("command", "")
    try:
        return reading.read(text).form == "LOGON"
    except Fault as fault:
        return fault.code == "E05" and text.split()[0].upper() == "LOGON"


def wants_command(words: dict[str, str]) -> None:
    """Refuses a text that is no command."""
    if "command" in words and not asks_to_log_on(words):
        reading.read(words["command"])


def is_about_nothing(words: dict[str, str]) -> bool:
    """Whether the command is a LOGOFF, which needs nothing."""
    return "command" in words and not asks_to_log_on(words) and reading.read(words["command"]).form == "LOGOFF"


def unit(text: str | None) -> Unit | None:
    """The unit that a command names, by what is said of it."""
    if text is None:
        return None
    kind, _, member = text.partition(":")
    return Unit(kind, member or None, True)


def taken_for(words: dict[str, str]) -> str | None:
    """What the unit is taken for that the command names, if the need depends on it: a job, unless it is said."""
    form = reading.read(words["command"]).form
    taken = words.get("as", "JOB") if form in needs.OF_UNITS else None
    counting.met["taken for", taken[:3] if taken else "nothing"] += 1
    return taken


def needs_of(words: dict[str, str]) -> list[Need]:
    """What the command needs; then what the line needs that it asks for, if it asks for one."""
    command, named = reading.read(words["command"]), unit(words.get("as"))
    found = [Need(*needs.need(command, {command.operands[0]: named} if named and command.operands else {}))]
    if command.form == "D A,name":
        found.append(Need("INFO", "READ", f"MVS.DISPLAY.JOB.{command.operands[0]}"))
    return found


def first_lines(found: list[Need], words: dict[str, str]) -> list[str]:
    """The first line about each need."""
    taken = taken_for(words)
    lines = [
        f"{what} {need.level} {need.resource} GROUP {need.group}" for what, need in zip(("NEEDS", "SHOWS"), found)
    ]
    return [lines[0] + (f" AS {taken}" if taken else ""), *lines[1:]]


def has_one_source(words: dict[str, str]) -> bool:
    """Whether the policy comes from one place: a policy file, on the input or named, or a database."""
    return "policy" not in words or "db" not in words


def reads(words: dict[str, str]) -> bool:
    """Whether the values of the options read, and belong together."""
    console = words.get("console")
    if not has_one_source(words) or not (console is None or names.is_console(console)):
        return False
    if "command" in words:
        kind = words.get("as")
        member = (kind or "").removeprefix("STC:")
        named = kind in (None, "JOB", "TSU") or (member != kind and names.is_name(member, 8))
        is_placed = console is not None or not asks_to_log_on(words)
        return named and is_placed and "resource" not in words and "level" not in words
    of = words.get("class", "OPERCMDS")
    known = of in names.CLASSES and words.get("level") in names.LEVELS
    return known and "as" not in words and names.is_resource(words.get("resource", ""))
