"""Policy files: rows read from a text and written to one.

A row is ten texts, those of the columns; the authority of a console stands in it as it is written."""
from typing import Callable, Iterable, Iterator

from . import names
from .board import Board
from .faults import Fault
from .policy import Policy

COLUMNS = ("kind", "class", "name", "id", "value", "owner", "flags", "digest", "when", "restricted")
WIDTHS = (8, 10)
MOST_ROWS = 10_000
MOST_BYTES = 16_777_216
Row = tuple[str, ...]  # ten texts
USER_FLAGS = ("", "S", "A", "R", "SA", "SR", "AR", "SAR")


def one_of(*texts: str) -> Callable[[str], bool]:
    return lambda text: text in texts


def or_empty(reads: Callable[[str], object]) -> Callable[[str], bool]:
    return lambda text: text == "" or bool(reads(text))


def is_id(text: str) -> bool:
    return text == "*" or names.is_user(text)


IS_CLASS, IS_LEVEL = one_of(*names.CLASSES), one_of(*names.LEVELS)
# What each kind takes in a column that it uses; the other columns are empty.
KINDS = {
    "class": {"class": IS_CLASS, "value": one_of("ACTIVE", "INACTIVE")},
    "group": {"name": names.is_group},
    "user": {
        "name": names.is_user, "flags": one_of(*USER_FLAGS), "digest": or_empty(names.is_digest),
        "restricted": one_of("", "Y"),
    },
    "connect": {"name": names.is_user, "id": names.is_group},
    "console": {"name": names.is_console, "value": names.read_auth, "flags": one_of(*names.MODES)},
    "profile": {
        "class": IS_CLASS, "name": names.is_pattern, "value": IS_LEVEL, "owner": names.is_user,
        "flags": one_of("", "W"),
    },
    "permit": {
        "class": IS_CLASS, "name": names.is_pattern, "id": is_id, "value": IS_LEVEL, "when": or_empty(names.is_console),
    },
}


def records_on_lines(text: str) -> Iterator[tuple[int, list[str]]]:
    """The records of a text, each a list of fields, with the line on which it begins. A line feed, a carriage return,
    or both end one; blank lines are none; a quote opens a quoted field only if the field begins with it, and what
    follows its end is taken as it is."""
    text, at, line, counted = text.removeprefix("\ufeff"), 0, 1, 0
    while at < len(text):
        if text[at] in "\r\n":
            at += 1
            continue
        line, counted, fields = line + text.count("\n", counted, at), at, []
        while True:
            field, at = one_field(text, at)
            fields.append(field)
            if text[at:at + 1] != ",":
                break
            at += 1
        yield line, fields


def records(text: str) -> list[list[str]]:
    return [fields for _, fields in records_on_lines(text)]


def lines_of(text: str) -> list[int]:
    """The lines on which the header and the rows of a text begin."""
    return [line for line, _ in records_on_lines(text)]


def one_field(text: str, at: int) -> tuple[str, int]:
    """The field that begins there, with the place of what ends it."""
    field = ""
    if text[at:at + 1] == '"':
        at += 1
        while at < len(text):
            if text[at] != '"':
                field, at = field + text[at], at + 1
            elif text[at:at + 2] == '""':
                field, at = field + '"', at + 2
            else:
                at += 1
                break
    while at < len(text) and text[at] not in ",\r\n":
        field, at = field + text[at], at + 1
    return field, at


def read(data: bytes) -> list[Row]:
    """The rows of a file; else the fault of its first bad row."""
    try:
        found = records(data.decode()) if len(data) <= MOST_BYTES else []
    except UnicodeDecodeError:
        found = []
    header = tuple(found[0]) if found else ()
    if header not in [COLUMNS[:width] for width in WIDTHS]:
        raise Fault("E60", 0, "Header")
    return [read_row(number, fields, len(header)) for number, fields in enumerate(found[1:], 1)]


def read_row(number: int, fields: list[str], width: int) -> Row:
    if len(fields) != width:
        raise Fault("E60", number, "Columns")
    if number > MOST_ROWS:
        raise Fault("E60", number, "Many")
    row = dict(zip(COLUMNS, [*fields, "", ""]))
    if row["kind"] not in KINDS:
        raise Fault("E60", number, "Kind")
    used = KINDS[row["kind"]]
    for column in COLUMNS[1:]:
        reads = used.get(column, one_of(""))
        if not reads(row[column]):
            raise Fault("E60", number, column.capitalize())
    if row["kind"] == "console":
        row["value"] = names.read_auth(row["value"])
    return tuple(row.values())


def written(row: Row) -> str:
    """A line, without its end."""
    return ",".join(f'"{field}"' if "," in field else field for field in row)


def write(rows: Iterable[Row]) -> str:
    return "".join(f"{written(row)}\n" for row in (COLUMNS, *rows))


def shown(row: Row) -> str:
    """A row of tables, without the digest of a password."""
    return written(tuple("" if column == "digest" else field for column, field in zip(COLUMNS, row)))


def exported(policy: Policy, board: Board) -> Iterator[Row]:
    """The rows of policy and consoles, in the order in which they are exported."""
    for of in names.CLASSES:
        yield row("class", of=of, value="ACTIVE" if of in policy.active else "INACTIVE")
    for name in sorted(policy.groups):
        yield row("group", name=name)
    for name, user in sorted(policy.users.items()):
        flags = "S" * user.special + "A" * user.auditor + "R" * user.revoked
        yield row("user", name=name, flags=flags, digest=user.digest or "", restricted="Y" * user.restricted)
    for user, group in sorted(policy.connects):
        yield row("connect", name=user, id=group)
    for name, console in sorted(board.consoles.items()):
        yield row("console", name=name, value=console.auth, flags=console.mode)
    in_order = [
        (of, name) for of in names.CLASSES for name in names.in_order(
            [pattern for own, pattern in policy.profiles if own == of]
        )
    ]
    for of, name in in_order:
        profile = policy.profiles[of, name]
        yield row("profile", of=of, name=name, value=profile.uacc, owner=profile.owner, flags="W" * profile.warning)
    for of, name in in_order:
        for (id, when), level in sorted(
            policy.profiles[of, name].entries.items(), key=lambda entry: (entry[0][0], entry[0][1] or "")
        ):
            yield row("permit", of=of, name=name, id=id, value=level, when=when or "")


def row(
    kind: str, of: str = "", name: str = "", id: str = "", value: str = "", owner: str = "", flags: str = "",
    digest: str = "", when: str = "", restricted: str = "",
) -> Row:
    return kind, of, name, id, value, owner, flags, digest, when, restricted
