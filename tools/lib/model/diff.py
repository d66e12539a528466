"""What changes between two policies, as `diff` prints it: rows, who may enter what, who may log on where, and what
consoles let in without a logon."""
import dataclasses
from typing import Iterable, Iterator, NamedTuple

from . import counting, files, forms, lines, names, policy, who
from .board import Board
from .files import Row
from .forms import KINDS, Decided, Form
from .lines import UserLine
from .machine import State
from .policy import Policy, Profile
from .questions import Need

MAY = ("ALLOWED", "WARNED", "UNDECIDED")
LETS_IN = {"MASTER": "everything", "ALL": "everything but MASTER", "SYS,IO,CONS": "everything but MASTER"}
MARKS = ("-", "+")
KEYS = ("before", "after")

Sides = tuple[State, State]
Lines = tuple[UserLine | None, UserLine | None]
Found = dict[Form, Decided]  # what decides each form on both sides, with a resource


@dataclasses.dataclass
class Section:
    """A question that is decided by these on either side, and the users of whom something else is said afterwards."""
    title: str
    sides: Sides
    of: str
    patterns: tuple[str | None, str | None]
    commands: dict[str, str]  # by their names, each with a resource
    level: str
    users: list[tuple[str, Lines]]

    def profiles(self) -> Iterator[tuple[str | None, Profile | None]]:
        for side, pattern in zip(self.sides, self.patterns):
            yield pattern, None if pattern is None else side.policy.profiles[self.of, pattern]

    @property
    def decides(self) -> list[str]:
        """What decides: once, if it is the same on both sides."""
        said = []
        for side, (pattern, profile) in zip(self.sides, self.profiles()):
            if profile:
                said.append(f"PROFILE {self.of} {pattern} UACC {profile.uacc}" + " WARNING" * profile.warning)
            else:
                said.append("NOPROFILE" + f", CLASS {self.of} INACTIVE" * (self.of not in side.policy.active))
        return marked([f"DECIDES {it}" for it in said])

    @property
    def text(self) -> list[str]:
        users = [f"{mark} {line.text}" for _, both in self.users for mark, line in zip(MARKS, both) if line]
        return [f"  NEEDS {self.level} {self.title}", *self.decides, *users]

    @property
    def data(self) -> list[dict]:
        by = [
            profile and {"class": self.of, "pattern": pattern, "uacc": profile.uacc, "warning": profile.warning}
            for pattern, profile in self.profiles()
        ]
        question = {"class": self.of, "commands": [*self.commands], "examples": self.commands, "kind": "question"}
        users = [
            {"id": user, "kind": "user"} | dict(zip(KEYS, map(object_of, both))) for user, both in self.users
        ]
        return [question | {"level": self.level} | dict(zip(KEYS, by)), *users]


def marked(said: list[str]) -> list[str]:
    """What is said on each side; once, if it is the same."""
    before, after = said
    return [f"  {before}"] if before == after else [f"- {before}", f"+ {after}"]


def object_of(line: UserLine | None) -> dict | None:
    return line and {key: line.data[key] for key in ("at", "held", "rule", "source", "verdict")}


# Rows

def row_key(row: Row) -> tuple[str, ...]:
    """What a row defines, or replaces."""
    fields = dict(zip(files.COLUMNS, row))
    return tuple(fields[it] for it in ("kind", "class", "name", "when")) + (fields["id"],)


def place_of(key: tuple[str, ...]) -> tuple:
    """Where a row comes in an export."""
    kind, of, name, when, id = key
    kinds = ("class", "group", "user", "connect", "console", "profile", "permit")
    return kinds.index(kind), of, names.sort_key(name) if kind in ("profile", "permit") else name.encode(), id, when


def shown(row: Row, other: Row | None = None) -> str:
    """A row without the digest of a password; whether it is another one than that of the row before it."""
    fields = dict(zip(files.COLUMNS, row))
    before = dict(zip(files.COLUMNS, other or ()))
    if fields["digest"]:
        is_other = before.get("digest") not in (None, "", fields["digest"])
        fields["digest"] = "(another digest)" if is_other else "(digest)"
    return files.written(tuple(fields.values()))


def rows_of(sides: Sides) -> list[list[tuple[str, str]]]:
    """By what they define, the rows that are gone and that are new, each with its mark."""
    before, after = ({row_key(row): row for row in files.exported(side.policy, side.board)} for side in sides)
    found = []
    for key in sorted({*before, *after}, key=place_of):
        gone, new = before.get(key), after.get(key)
        if gone != new:
            counting.met["diff", f"a row, {'changed' if gone and new else 'gone' if gone else 'new'}"] += 1
            found.append([(mark, text) for mark, text in (
                ("-", gone and shown(gone)), ("+", new and shown(new, gone)),
            ) if text])
    return found


# Users

def of_form(side: State, it: Form, resource: str, user: str, console: str | None) -> tuple[UserLine | None, bool]:
    """What is said of a user, if there is one, and whether an entry for the console alone gives the level. A line of an
    answer that is denied is hidden."""
    if user not in side.policy.users:
        return None, False
    line, is_raised = who.of_need(side, Need(it.group, it.level, resource), user, console)
    is_hidden = it.is_line and line.verdict == "DENIED"
    return (dataclasses.replace(line, verdict="HIDDEN") if is_hidden else line), is_raised


def may(line: UserLine | None) -> bool:
    return line is not None and line.verdict in MAY


def differ(both: Lines) -> bool:
    """Whether something else is said. A user whom a side does not have may nothing there."""
    before, after = both
    if before is None or after is None:
        return may(before) or may(after)
    return before.verdict != after.verdict


def consoles_named(sides: Sides, patterns: tuple[str | None, str | None]) -> list[str]:
    """The consoles for which alone either profile has an entry."""
    entries = [side.policy.profiles["OPERCMDS", it].entries for side, it in zip(sides, patterns) if it is not None]
    return sorted({when for those in entries for _, when in those if when is not None})


def users_of(sides: Sides) -> list[str]:
    return sorted({*sides[0].policy.users, *sides[1].policy.users})


def changed(sides: Sides, it: Form, resource: str, patterns: tuple) -> list[tuple[str, Lines]]:
    """The users of whom something else is said of a resource: at no console, and where an entry for one console gives
    the level on a side."""
    found = []
    for console in (None, *consoles_named(sides, patterns)):
        for user in users_of(sides):
            (before, is_raised), (after, is_raised_after) = (
                of_form(side, it, resource, user, console) for side in sides
            )
            if (console is None or is_raised or is_raised_after) and differ((before, after)):
                found.append((user, (before, after)))
    return found


# Sections

def found_in(sides: Sides) -> Found:
    """What decides a resource of each form, on both sides."""
    return {it: forms.decided(it, *(forms.patterns_of(side.policy) for side in sides)) for it in forms.FORMS}


def deciding(sides: Sides, resource: str) -> forms.Deciders:
    """What decides a resource, on both sides."""
    found = [policy.deciding(side.policy, "OPERCMDS", resource) for side in sides]
    return tuple(by if "OPERCMDS" in side.policy.active else None for by, side in zip(found, sides))


def in_order(patterns: forms.Patterns) -> list[str | None]:
    return [*patterns, None]


def sections(sides: Sides, found: Found) -> Iterator[Section]:
    """For each two profiles that decide one resource, and each kind of forms, those that have such resources."""
    before, after = (in_order(forms.patterns_of(side.policy)) for side in sides)
    for pair in ((one, other) for one in before for other in after):
        for level, is_line in KINDS:
            chosen = [it for it in forms.FORMS if forms.is_of_kind(it, (level, is_line)) and pair in found[it]]
            commands = {it.name: found[it][pair] for it in chosen}
            assert all(by == pair for by in map(lambda it: deciding(sides, it), commands.values())), (pair, commands)
            users = changed(sides, chosen[-1], found[chosen[-1]][pair], pair) if chosen else []
            if users:
                yield Section(",".join(commands), sides, "OPERCMDS", pair, commands, level, users)


def logon_line(side: State, user: str, console: str) -> UserLine | None:
    """What is said of a LOGON there, whether the policy has the console or not."""
    if user not in side.policy.users:
        return None
    with_console = State(side.policy, side.board.copied())
    if console not in side.board.consoles:
        with_console.board.define_console(console, "INFO", "OPTIONAL")
    return who.of_logon(with_console, console, user)


def deciding_console(held: Policy, console: str) -> str | None:
    return policy.deciding(held, "CONSOLE", console) if "CONSOLE" in held.active else None


def logon_sections(sides: Sides) -> Iterator[Section]:
    for console in sorted({*sides[0].board.consoles, *sides[1].board.consoles}):
        users = [(user, tuple(logon_line(side, user, console) for side in sides)) for user in users_of(sides)]
        users = [(user, both) for user, both in users if differ(both)]
        patterns = tuple(deciding_console(side.policy, console) for side in sides)
        if users:
            counting.met["diff", "a logon"] += 1
            title = f"{console} CLASS CONSOLE"
            yield Section(title, sides, "CONSOLE", patterns, {"LOGON": console}, "READ", users)


# Consoles

def let_in(board: Board, name: str) -> str:
    """What a console lets in without a logon; one that is not there nothing."""
    console = board.consoles.get(name)
    if console is None or console.mode == "REQUIRED":
        return "enters nothing"
    return f"acts for {name}" if console.mode == "AUTO" else f"enters {LETS_IN.get(console.auth, console.auth)}"


def consoles_of(sides: Sides) -> Iterator[tuple[list[str], dict]]:
    for name in sorted({*sides[0].board.consoles, *sides[1].board.consoles}):
        said = [let_in(side.board, name) for side in sides]
        if said[0] != said[1]:
            counting.met["diff", "a console"] += 1
            there = [side.board.consoles.get(name) for side in sides]
            shown_as = [
                f"{mark} *{name:7} {'AUTO' if console.mode == 'AUTO' else 'NOBODY':7} {text}"
                for mark, console, text in zip(MARKS, there, said) if console
            ]
            values = [text if console else None for text, console in zip(said, there)]
            yield shown_as, {"id": name, "kind": "console"} | dict(zip(KEYS, values))


# All of it

class Counts(NamedTuple):
    rows: int
    more: int
    less: int

    @property
    def text(self) -> str:
        def counted(number: int, word: str) -> str:
            return f"{number} {word}" + "s" * (number != 1)

        return f"{counted(self.rows, 'row')}, {counted(self.more, 'user')} may more, {self.less} may less"


def counts_of(rows: int, all_sections: Iterable[Section]) -> Counts:
    pairs = [(user, may(before), may(after)) for it in all_sections for user, (before, after) in it.users]
    more = {user for user, before, after in pairs if after and not before}
    return Counts(rows, len(more), len({user for user, before, after in pairs if before and not after}))


def answer(before: State, after: State, words: dict[str, str], found: Found | None = None) -> tuple[int, str]:
    """Whether a row differs, and what is printed; by what decides, if that is known."""
    sides = before, after
    rows = rows_of(sides)
    all_sections = [*sections(sides, found or found_in(sides)), *logon_sections(sides)]
    consoles = [*consoles_of(sides)]
    if "json" in words:
        counting.met["diff", "as JSON"] += 1
        of_rows = [{"change": mark, "kind": "row", "row": text} for those in rows for mark, text in those]
        of_sections = [data for it in all_sections for data in it.data]
        return int(bool(rows)), "".join(map(lines.json_line, (*of_rows, *of_sections, *(it for _, it in consoles))))
    told = [f"{mark} {text}" for those in rows for mark, text in those]
    told += [line for it in all_sections for line in it.text] + [line for those, _ in consoles for line in those]
    last = counts_of(len(rows), all_sections).text
    return int(bool(rows)), "".join(f"{it}\n" for it in (*told, last))
