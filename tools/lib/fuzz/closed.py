"""What rows that break a fact may not let pass. Where a user is on who is not stored, the console's authority allows
nothing; and no search passes over a profile whose class is neither of the two, or whose key or head is not its
pattern's."""
import re

from lib.model import names
from .runs import Wrong
from .states import Rows

ANSWER = re.compile(r"^(\d+) (DONE|REFUSED) .*$", re.MULTILINE)


def wants_closed(script: bytes, printed: bytes, rows: Rows) -> None:
    """Wrong where a command is done that such rows have to stop. LOGON and LOGOFF need nothing, and go on."""
    is_searched = passes_over(rows)
    shut = with_ghosts(rows) | (with_users(rows) if is_searched else set())
    answers = {match[1]: match for match in ANSWER.finditer(printed.decode(errors="replace"))}
    for line in script.decode().splitlines():
        moment, console, text = line.split(" ", 2)
        if console == "*":
            continue  # an event of the room, even where a row gives a console this name
        is_done = moment in answers and answers[moment][2] == "DONE"
        verb = text.partition(" ")[0]
        if verb == "LOGOFF" and is_done:
            shut.discard(console)
        elif verb == "LOGON" and is_done and is_searched:
            shut.add(console)
        elif verb != "LOGON" and is_done and console in shut:
            raise Wrong("done over rows that break a fact", f"{line}: {answers[moment][0]}")


def ids_of(rows: Rows) -> set:
    return {row[0] for row in rows["usr"]}


def with_ghosts(rows: Rows) -> set[str]:
    """The consoles where a user is on who is not stored."""
    return {name for name, _, _, _, user, _ in rows["consoles"] if user is not None and user not in ids_of(rows)}


def with_users(rows: Rows) -> set[str]:
    """The consoles where a stored user is on, so that profiles decide."""
    return {name for name, _, _, _, user, _ in rows["consoles"] if user in ids_of(rows)}


def passes_over(rows: Rows) -> bool:
    """Whether profiles decide, and a profile's row is of no class, or has not the key and the head of its pattern."""
    return ("OPERCMDS", 1) in rows["classes"] and any(
        of not in names.CLASSES or (key, head) != keys_of(pattern)
        for of, pattern, _, _, _, key, head in rows["profiles"]
    )


def keys_of(pattern: object) -> tuple[bytes, str] | None:
    """The key and the head of a pattern; of what is none, none, so that no row has them."""
    if not isinstance(pattern, str) or not names.is_pattern(pattern):
        return None
    return names.sort_key(pattern), names.head(pattern)
