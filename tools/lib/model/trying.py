"""Random cases of `may`, `diff` and `import --dry-run`. The model misses no resource, since a character that no pattern
has at a place stands for all others there. So heads and sections have to be the same on both sides. Of equally short
examples the program may give any: each has to be of its form, decided by what stands at it, and as long as the model's.
"""
import json
import re
from dataclasses import dataclass
from random import Random

from . import administration, counting, diff, files, forms, may, names, policy, questions, random_policies, world
from .board import Board
from .faults import Fault
from .files import Row
from .machine import State
from .policy import Policy
from .random_policies import row, state_of
from .requests import Import
from .steps import CLOCK, Answers, Run, Step, Take, asked, options_of, refused, run
from .world import one_in

EXAMPLES = re.compile(r'"examples":\{[^}]*\}')
STARTS = (
    "MVS.CANCEL.JOB.", "MVS.CANCEL.STC.", "MVS.CANCEL.*.", "MVS.FORCE.JOB.", "MVS.START.STC.", "MVS.STOP.**.",
    "MVS.MODIFY.%%%.", "MVS.*.JOB.", "MVS.DISPLAY.JOB.", "MVS.DISPLAY.CN.", "MVS.**.",
)
FORMS = {it.name: it for it in forms.FORMS}


# Examples

def patterns_at(data: dict) -> list[str | None]:
    """The patterns that decide by an object, on one side or on two."""
    if data["kind"] == "commands":
        return [data["pattern"]]
    return [data[side] and data[side]["pattern"] for side in diff.KEYS]


def is_right(name: str, resource: str, data: dict, sides: list[State]) -> bool:
    """Whether an example is of its form, and decided by what the object has."""
    decided = [policy.deciding(it.policy, "OPERCMDS", resource) for it in sides]
    found = [by if "OPERCMDS" in it.policy.active else None for by, it in zip(decided, sides)]
    return forms.is_of(FORMS[name], resource) and found == patterns_at(data)


def measured(output: str, sides: list[State]) -> str:
    """The lines of objects, with the length of each example that is right in the place of it."""
    def of_line(line: str) -> str:
        data = json.loads(line)
        examples = data.get("examples", {})
        if "LOGON" in examples:
            return line
        shown = {
            name: len(text) if is_right(name, text, data, sides) else text for name, text in sorted(examples.items())
        }
        return EXAMPLES.sub(lambda _: '"examples":' + json.dumps(shown, separators=(",", ":")), line)

    return "".join(f"{of_line(line)}\n" for line in output.splitlines())


def with_lengths(answers: Answers, words: dict[str, str], sides: list[State]) -> Answers:
    """The answers, measured if they are objects. What is no object stays, and differs."""
    if "json" not in words:
        return answers
    found = []
    for what, (status, output, errors) in answers:
        try:
            output = measured(output, sides)
        except (ValueError, KeyError, TypeError) as error:
            output = f"{output}{error!r}"
        found.append((what, (status, output, errors)))
    return found


# Steps

def stored(state: State) -> bytes:
    """The policy of a database, as a file: nobody is on in it."""
    return state.exported().encode()


@dataclass
class May:
    """`may` over a policy file, or over the file of the case."""
    words: dict
    rows: bytes | None

    def program(self, file: str) -> Answers:
        if self.rows is None:
            status, output, errors = run(["may", "--db", file, *options_of(self.words)])
            answers = [("may", (status, output, None if status == 2 else errors))]
            rows = run(["export", "--db", file])[1].encode()
        else:
            answers, rows = asked("may", self.words, self.rows, file), self.rows
        return with_lengths(answers, self.words, [state_of(rows)])

    def model(self, state: State) -> Answers:
        words, rows = self.words, stored(state) if self.rows is None else self.rows
        console = words.get("console")
        good = names.is_user(words["user"]) and (console is None or names.is_console(console))
        if not good or not questions.has_one_source(words):
            counting.met["may", "words"] += 1
            return [("may", (2, "", None))]
        found = State()
        try:
            found.bootstrap(files.read(rows))
            output = may.answer(found, words)
        except Fault as fault:
            return [("may", refused("may", fault))]
        return with_lengths([("may", (0, output, ""))], words, [found])


@dataclass
class Diff:
    """`diff` of two policy files, of which either may be the file of the case."""
    words: dict
    old: bytes | None
    new: bytes | None

    def program(self, file: str) -> Answers:
        paths, sides = [], []
        for name, rows in (("old", self.old), ("new", self.new)):
            paths.append(f"db:{file}" if rows is None else f"{file}-{name}.csv")
            if rows is not None:
                with open(paths[-1], "wb") as policy_file:
                    policy_file.write(rows)
            sides.append(state_of(run(["export", "--db", file])[1].encode() if rows is None else rows))
        found = run(["diff", *paths, *options_of(self.words)])
        return with_lengths([("diff", found)], self.words, sides)

    def model(self, state: State) -> Answers:
        sides = []
        try:
            for rows in (self.old, self.new):
                sides.append(State())
                sides[-1].bootstrap(files.read(stored(state) if rows is None else rows))
        except Fault as fault:
            # (1 says that rows differ)
            _, output, errors = refused("diff", fault)
            return [("diff", (2, output, errors))]
        return with_lengths([("diff", (*diff.answer(*sides, self.words), ""))], self.words, sides)


@dataclass
class DryRun:
    """`import --dry-run`: the changes that an import would make, which it does not make."""
    console: str | None
    batch: int
    rows: bytes

    def program(self, file: str) -> Answers:
        console = ["--console", self.console] if self.console else []
        words = ["import", "--db", file, "--batch", str(self.batch), "--dry-run", *console]
        return [("import --dry-run", run(words, self.rows))]

    def model(self, state: State) -> Answers:
        try:
            output = dry_run(state, self.console, self.batch, files.read(self.rows))
        except Fault as fault:
            return [("import --dry-run", refused("dry run", fault))]
        return [("import --dry-run", (0, output, ""))]


def dry_run(state: State, console: str | None, number: int, rows: list[Row]) -> str:
    """What an import would print and change; else its fault."""
    after, last = state.copied(), ""
    if console is None:
        after.bootstrap(rows)
    else:
        with counting.aside():
            answer = after.handle(CLOCK, Import(console, number, rows))
        if answer.code:
            raise Fault(answer.code, *answer.text.split()[1:])
        if answer.lines == [f"BATCH {number} AGAIN"]:
            counting.met["dry run", "again"] += 1
            return f"BATCH {number} AGAIN\n"
        last = f"BATCH {number} WOULD BE KEPT\n"
    counting.met["dry run", "first policy" if console is None else "would be kept"] += 1
    return diff.answer(state_of(stored(state)), state_of(stored(after)), {})[1] + last


# Cases

def command_pattern(chance: Random) -> str:
    """A pattern that may cover what commands need, and that others are near to."""
    while True:
        pattern = chance.choice(STARTS) + world.short_pattern(chance)
        if names.is_pattern(pattern):
            return pattern


def any_rows(chance: Random) -> list[Row]:
    """A policy with profiles that overlap, with and without entries for one console."""
    rows = random_policies.with_doors(chance)
    users = [it[2] for it in rows if it[0] == "user"]
    profiles = [
        row(
            "profile", of="OPERCMDS", name=command_pattern(chance), value=chance.choice(("NONE", "NONE", "READ")),
            owner=chance.choice(users), flags="W" * one_in(chance, 5),
        )
        for _ in range(chance.choice((0, 2, 5, 9)))
    ]
    ids = [it[2] for it in rows if it[0] in ("user", "group")]
    return rows + profiles + [random_policies.permit_row(chance, profiles, ids) for _ in range(8) if profiles]


def taken(rows: list[Row]) -> list[Row]:
    """The rows without those that would be refused."""
    found, made, board = [], Policy(), Board()
    for it in rows:
        try:
            administration.take(made, board, *it)
            found.append(it)
        except Fault:
            pass
    return found


def other_rows(chance: Random, rows: list[Row]) -> list[Row]:
    """These rows with some gone, some new and some changed."""
    kept = [it for it in rows if not one_in(chance, chance.choice((8, 20, 100)))]
    state = state_of(files.write(kept).encode())
    more = [random_policies.any_row(chance, state) for _ in range(chance.choice((0, 1, 2, 4, 8)))]
    others = any_rows(chance) if one_in(chance, 6) else []
    return taken([*kept, *more, *others])


def written(chance: Random, rows: list[Row]) -> bytes:
    """A file of these rows, now and then with a bad one, or with one that is refused."""
    lines = random_policies.written(chance, rows)
    if one_in(chance, 20):
        lines = random_policies.spoiled(chance, lines)
    elif one_in(chance, 20):
        lines.append("connect,,ANNA,OTHERS" + "," * (lines[0].count(",") - 3))
    return random_policies.joined(chance, lines)


def as_json(chance: Random) -> dict[str, str]:
    return {"json": ""} if one_in(chance, 3) else {}


def may_asked(chance: Random) -> dict[str, str]:
    """Options of `may`."""
    words = {"user": chance.choice((*world.USERS, *world.USERS, *world.USERS, "NOBODY9", "-", "anna"))}
    if one_in(chance, 2):
        words["console"] = chance.choice((*world.CONSOLES, *world.CONSOLES, "C9", "c1"))
    return words | ({"allowed": ""} if one_in(chance, 4) else {}) | as_json(chance)


def mays(chance: Random) -> list[Step]:
    """A policy file with questions of what users may; sometimes they are asked of its database."""
    rows = written(chance, any_rows(chance))
    if one_in(chance, 6):
        return [Run(rows, []), *(May(may_asked(chance), None) for _ in range(2))]
    source = {"policy": ""} if one_in(chance, 3) else {}
    return [May(may_asked(chance) | source, rows) for _ in range(3)]


def diffs(chance: Random) -> list[Step]:
    """Two policy files, of which one was made of the other; sometimes one of them is a database."""
    rows = any_rows(chance)
    old, new = written(chance, rows), written(chance, other_rows(chance, rows))
    if one_in(chance, 2):
        old, new = new, old
    if one_in(chance, 6):
        return [Run(old, []), Diff(as_json(chance), None, new), Diff(as_json(chance), new, None)]
    return [Diff(as_json(chance), old, new)]


def dry_runs(chance: Random) -> list[Step]:
    """A database with imports that are not made, and with one that is."""
    rows = taken(any_rows(chance))
    first = random_policies.joined(chance, random_policies.written(chance, rows), plain=True)
    if one_in(chance, 6):
        return [Run(None, []), DryRun(None, 1, first), Run(first, []), DryRun(None, 1, first)]
    state = state_of(first)
    log_on = f"1 {chance.choice(sorted(state.board.consoles) or world.CONSOLES)} LOGON SECADM,{world.PASSWORD}\n"
    found: list[Step] = [Run(first, [log_on])]
    found[0].model(later := State())
    consoles = [name for name in world.CONSOLES if later.acting(name) == "SECADM"]
    for number in (1, 2):
        more = written(chance, [random_policies.any_row(chance, state) for _ in range(chance.choice((1, 3, 6)))])
        console = chance.choice([*consoles * 4, *world.CONSOLES])
        found += [DryRun(console, number, more), *[Take(console, number, more)] * one_in(chance, 2)]
        found.append(DryRun(console, number, more))
    return found

