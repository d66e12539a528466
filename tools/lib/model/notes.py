"""The notes of `check` on a policy file whose rows can be loaded, as docs/rules/notes.md defines them."""
import json
from typing import Any, Iterator

from . import counting, files, forms, names

Fields = dict[str, Any]  # a row by its columns, with its number
WITHOUT_PROFILE = {
    "CONSOLE": "every user may log on everywhere", "OPERCMDS": "the authority of the console decides",
}
OPENED = {"MASTER": "everything", "ALL": "everything but MASTER"}


def key(row: Fields) -> tuple[str, ...]:
    """What a later row replaces a row by."""
    names_id = row["kind"] in ("connect", "permit")
    return row["kind"], row["class"], row["name"], row["when"], row["id"] if names_id else ""


def in_effect(rows: list[files.Row]) -> list[Fields]:
    last = {}
    for number, row in enumerate(rows, 1):
        fields = {**dict(zip(files.COLUMNS, row)), "number": number}
        last.pop(key(fields), None)
        last[key(fields)] = fields
    return list(last.values())


class Known:
    """The rows in effect, and what is asked about them."""
    def __init__(self, rows: list[files.Row]) -> None:
        self.rows = in_effect(rows)

    def of(self, kind: str) -> Iterator[Fields]:
        return (row for row in self.rows if row["kind"] == kind)

    def acting(self, flag: str) -> list[str]:
        """Those who have SPECIAL or AUDITOR and are not revoked."""
        return [row["name"] for row in self.of("user") if flag in row["flags"] and "R" not in row["flags"]]

    def groups_of(self, user: str) -> list[str]:
        return [row["id"] for row in self.of("connect") if row["name"] == user]

    def users_of(self, group: str) -> list[str]:
        return [row["name"] for row in self.of("connect") if row["id"] == group]

    def level(self, permit: Fields, id: str) -> str | None:
        """The level of another entry of the same profile, at the same console or at every one."""
        for row in self.of("permit"):
            if all(row[column] == permit[column] for column in ("class", "name", "when")) and row["id"] == id:
                return row["value"]
        return None

    def before(self, pattern: str) -> list[str]:
        """The patterns of OPERCMDS that come before one."""
        others = (row["name"] for row in self.of("profile") if row["class"] == "OPERCMDS")
        return [other for other in others if names.before(other, pattern)]

    def has_auto_console(self, user: str) -> bool:
        return any(row["name"] == user and row["flags"] == "AUTO" for row in self.of("console"))

    def is_user(self, name: str) -> bool:
        return any(row["name"] == name for row in self.of("user"))


def of_profile(known: Known, row: Fields) -> Iterator[tuple[str, str]]:
    profile = f"profile {row['class']} {row['name']}"
    if row["flags"] == "W":
        yield "N01", f"{profile} has WARNING"
    if names.is_at_least(row["value"], "UPDATE"):
        yield "N02", f"{profile} gives everyone {row['value']}"
    if row["class"] == "OPERCMDS" and not forms.is_asked(row["name"]):
        yield "N17", f"{profile} covers no resource of any command"
    elif row["class"] == "OPERCMDS" and not forms.decides(row["name"], known.before(row["name"])):
        yield "N20", f"{profile} never decides: others come before it"


def of_user(known: Known, row: Fields) -> Iterator[tuple[str, str]]:
    name = row["name"]
    if not row["digest"] and "R" not in row["flags"] and not known.has_auto_console(name):
        yield "N03", f"{name} has no digest and no AUTO console, so cannot log on"
    same = [other["name"] for other in known.of("user") if row["digest"] and other["digest"] == row["digest"]]
    if same and same[0] != name:
        yield "N04", f"{name} has the password of {same[0]}"
    if known.acting("S") == [name]:
        yield "N08", f"{name} alone has SPECIAL"
    if not known.groups_of(name) and all(permit["id"] != name for permit in known.of("permit")):
        yield "N19", f"{name} is in no group and no access list"


def of_group(known: Known, row: Fields) -> Iterator[tuple[str, str]]:
    if not known.users_of(row["name"]):
        yield "N05", f"nobody is in group {row['name']}"


def of_permit(known: Known, row: Fields) -> Iterator[tuple[str, str]]:
    id, level, pattern = row["id"], row["value"], row["name"]
    if any(user["name"] == id and "R" in user["flags"] for user in known.of("user")):
        yield "N06", f"{id} is revoked and has an entry in profile {row['class']} {pattern}"
    for group in known.groups_of(id):
        higher = known.level(row, group)
        if higher is not None and not names.is_at_least(level, higher):
            yield "N15", f"{id}'s {level} in {pattern} is below {higher} of {group}"
            break
    is_group = any(group["name"] == id for group in known.of("group"))
    if is_group and all(known.level(row, user) is not None for user in known.users_of(id)):
        yield "N16", f"{id}'s {level} in {pattern} serves nobody"


def of_console(known: Known, row: Fields) -> Iterator[tuple[str, str]]:
    name = row["name"]
    if row["flags"] == "OPTIONAL":
        opened = OPENED.get(row["value"], row["value"])
        yield "N11", f"console {name} is OPTIONAL: without a logon it allows {opened}"
    if row["flags"] == "AUTO" and not known.is_user(name):
        yield "N12", f"console {name} is AUTO, and there is no user {name}"
    if row["flags"] == "AUTO" and name in known.acting("S"):
        yield "N18", f"console {name} is AUTO, and {name} has SPECIAL: no password is asked"


def of_class(known: Known, row: Fields) -> Iterator[tuple[str, str]]:
    if row["value"] == "INACTIVE":
        yield "N13", f"class {row['class']} is inactive"
    elif all(profile["class"] != row["class"] for profile in known.of("profile")):
        yield "N14", f"class {row['class']} is active and has no profile: {WITHOUT_PROFILE[row['class']]}"


def of_none(known: Known) -> Iterator[tuple[str, str]]:
    if not known.acting("S"):
        yield "N08", "nobody has SPECIAL"
    if not known.acting("A"):
        yield "N09", "nobody has AUDITOR"
    if all(console["value"] != "MASTER" for console in known.of("console")):
        yield "N10", "no console has AUTH MASTER"
    for of in names.CLASSES:
        if all(row["class"] != of for row in known.of("class")):
            yield "N13", f"class {of} is inactive"


OF_ROW = {
    "profile": of_profile, "user": of_user, "group": of_group, "permit": of_permit, "console": of_console,
    "class": of_class,
}


def notes(rows: list[files.Row], begins: list[int]) -> list[Fields]:
    """The notes, by their codes, then by their rows; a note of no row is the last of its code. Rows that begin on no
    line are those of tables, and are shown themselves."""
    known = Known(rows)
    found = [
        {"code": code, "row": row["number"], "text": text}
        for row in known.rows if row["kind"] in OF_ROW
        for code, text in OF_ROW[row["kind"]](known, row)
    ]
    found += [{"code": code, "row": None, "text": text} for code, text in of_none(known)]
    for note in found:
        counting.met["check", note["code"]] += 1
    for note in found:
        note["line"] = begins[note["row"]] if begins and note["row"] is not None else None
        if not begins and note["row"] is not None:
            note["fields"] = files.shown(rows[note["row"] - 1])
    return sorted(found, key=lambda note: (note["code"], note["row"] is None, note["row"] or 0))


def place(values: Fields) -> str:
    """A row, with the line on which it begins, or with its fields, if that is known."""
    fields = f" ({values['fields']})" if "fields" in values else ""
    return f"row {values['row']}{fields}" + ("" if values["line"] is None else f", line {values['line']}")


def line(note: Fields, as_json: bool) -> str:
    if as_json:
        return json.dumps(note, separators=(",", ":"), sort_keys=True)
    row = "" if note["row"] is None else f"{place(note)}: "
    return f"{note['code']} {row}{note['text']}"
