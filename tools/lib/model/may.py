"""What one user may, as `may` prints it: where to log on, which commands by which profile, and what to change."""
import dataclasses
from typing import Iterator

from . import counting, forms, lines, logons, names, who
from .faults import wants
from .forms import KINDS, Decided, Form
from .lines import UserLine
from .machine import State
from .questions import Need

MOST_IN_A_LINE = 7  # consoles
# what a user may change or see, by what gives it
CHANGES = {
    "SPECIAL": ("change the policy", "import", "see the account"), "AUDITOR": ("see the policy", "see the account"),
}
Found = dict[Form, Decided]  # what decides each form, with a resource


@dataclasses.dataclass
class Entry:
    """What stands under a head: a verdict, and of what it is said; as an object, too."""
    head: str
    verdict: str
    said: list[str]
    data: dict
    begins: str = ""

    @property
    def text(self) -> Iterator[str]:
        """A line, or of consoles as many as it takes."""
        most = MOST_IN_A_LINE if self.begins else len(self.said)
        for at in range(0, len(self.said), most):
            yield f"{self.verdict:7} {self.begins}{','.join(self.said[at:at + most])}"


@dataclasses.dataclass
class Asked:
    """A user of a policy, at a console or at none, with what decides, and why the user cannot log on where."""
    state: State
    user: str
    console: str | None
    found: Found
    whys: dict[str | None, str | None] = dataclasses.field(default_factory=dict)

    def why_not(self, console: str | None) -> str | None:
        if console not in self.whys:
            self.whys[console] = logons.why_not(self.state, console, self.user)
        return self.whys[console]


def of_profile(of: str, pattern: str, line: UserLine) -> str:
    """A head: the profile, with the level that the user holds in it and where it comes from."""
    level, by, at = line.held
    counting.met["may", by.split()[0] + " AT" * (at is not None)] += 1
    return f"PROFILE {of} {pattern} HELD {level} BY {by}" + (f" AT {at}" if at else "")


def with_line(line: UserLine, pattern: str | None) -> dict:
    """What an object has of a line."""
    data = {key: value for key, value in line.data.items() if key in ("at", "held", "rule", "source", "verdict")}
    return data | {"pattern": pattern}


# Logons

def logon(state: State, user: str, console: str) -> tuple[int, str, UserLine, str | None]:
    """What decides on a logon there: in which order it comes, its head, what is said, and the pattern."""
    patterns = names.in_order(pattern for of, pattern in state.policy.profiles if of == "CONSOLE")
    if state.acting(console) == user:
        counting.met["may", "AUTO"] += 1
        return len(patterns) + 2, "AUTO", UserLine("ALLOWED", user, "AUTO"), None
    line = who.of_logon(state, console, user)
    if line.held is None:
        counting.met["may", line.rule] += 1
        is_none = line.rule == "NOPROFILE"
        return len(patterns) + (not is_none), "NOPROFILE CONSOLE" if is_none else line.rule, line, None
    pattern = line.rule.split()[2]
    return patterns.index(pattern), of_profile("CONSOLE", pattern, line), line, pattern


def of_logons(asked: Asked) -> list[Entry]:
    """The consoles by what decides there; one with an entry for it alone stands for itself, after the others."""
    there = sorted(asked.state.board.consoles) if asked.console is None else [asked.console]
    found: dict[tuple, list[str]] = {}
    said = {}
    for console in there:
        order, head, line, pattern = logon(asked.state, asked.user, console)
        at = line.held[2] if line.held else None
        place = order, at or "", head
        found.setdefault(place, []).append(console)
        assert place not in said or said[place][0].verdict == line.verdict
        said[place] = line, pattern
    entries = []
    for place, consoles in sorted(found.items()):
        line, pattern = said[place]
        data = {"kind": "logon", "consoles": consoles} | with_line(line, pattern)
        entries.append(Entry(place[2], line.verdict, consoles, data, "LOGON "))
    return entries


# Commands

def of_form(asked: Asked, it: Form, resource: str, console: str | None) -> UserLine:
    """What is said of the commands of a form, or of a line of an answer, by a resource of it."""
    line, _ = who.of_need(asked.state, Need(it.group, it.level, resource), asked.user, console)
    if line.verdict != "DENIED":
        return lines.kept_off(line, asked.why_not(console))
    return dataclasses.replace(line, verdict="HIDDEN") if it.is_line else line


def examples_of(asked: Asked, pattern: str | None) -> dict[Form, str]:
    """The forms of which something is decided by this, each with a resource."""
    return {it: asked.found[it][(pattern,)] for it in forms.FORMS if (pattern,) in asked.found[it]}


def entry_of(head: str, chosen: dict[Form, str], line: UserLine, level: str | None, pattern: str | None) -> Entry:
    said = [it.name for it in chosen]
    examples = {it.name: resource for it, resource in chosen.items()}
    data = {"kind": "commands", "commands": said, "examples": examples, "level": level} | with_line(line, pattern)
    counting.met["may", line.verdict] += 1
    return Entry(head, line.verdict, said, data)


def of_decider(asked: Asked, pattern: str | None, console: str | None) -> Iterator[Entry]:
    """Under one head the forms of each kind, at a console or at none."""
    examples = examples_of(asked, pattern)
    for kind in KINDS:
        chosen = {it: resource for it, resource in examples.items() if forms.is_of_kind(it, kind)}
        said = {of_form(asked, it, resource, console) for it, resource in chosen.items()}
        assert len(said) == bool(chosen), said
        for line in said:
            head = of_profile("OPERCMDS", pattern, line) if pattern else "NOPROFILE OPERCMDS"
            yield entry_of(head, chosen, line, kind[0], pattern)


def by_authority(asked: Asked) -> Iterator[Entry]:
    """Where no profile decides, the authority of the console does: the forms that it enters, and the others."""
    auth, why = asked.state.board.consoles[asked.console].auth, asked.why_not(asked.console)
    examples = examples_of(asked, None)
    for enters in (True, False):
        chosen = {it: resource for it, resource in examples.items() if names.enters(auth, it.group) == enters}
        line = UserLine("ALLOWED" if enters else "DENIED", asked.user, f"AUTH {auth}")
        line = lines.kept_off(line, why) if enters else line
        if chosen:
            counting.met["may", "AUTH"] += 1
            yield entry_of(f"NOPROFILE OPERCMDS AUTH {auth}", chosen, line, None, None)


def raised_at(asked: Asked, pattern: str) -> list[str]:
    """The consoles for which alone an entry of the profile gives the level."""
    profile, policy = asked.state.policy.profiles["OPERCMDS", pattern], asked.state.policy
    there = sorted(asked.state.board.consoles) if asked.console is None else []
    return [name for name in there if who.source(policy, profile, asked.user, name)[2]]


def of_commands(asked: Asked) -> Iterator[Entry]:
    for pattern in forms.patterns_of(asked.state.policy):
        yield from of_decider(asked, pattern, asked.console)
        for console in raised_at(asked, pattern):
            yield from of_decider(asked, pattern, console)
    yield from of_decider(asked, None, None) if asked.console is None else by_authority(asked)


# Changes

def of_changes(asked: Asked) -> Iterator[Entry]:
    """What the user may change of the policy, and see of it and of the account. SPECIAL changes all profiles."""
    stored, profiles = asked.state.policy.users[asked.user], asked.state.policy.profiles
    verdict = "NOLOGON" if asked.why_not(asked.console) else "ALLOWED"
    given = [(by, list(what)) for by, what in CHANGES.items() if getattr(stored, by.lower())]
    for of in names.CLASSES:
        in_order = names.in_order(pattern for own, pattern in profiles if own == of)
        owned = [it for it in in_order if profiles[of, it].owner == asked.user and not stored.special]
        given += [("OWNER", [f"{of} {it}"]) for it in owned]
    for by, what in given:
        counting.met["may", by] += 1
        yield Entry(by, verdict, what, {"by": by, "kind": "admin", "verdict": verdict, "what": what})


# All of it

def about(state: State, user: str) -> tuple[str, dict]:
    """The first line, and its object."""
    stored = state.policy.users[user]
    flags = [flag for flag in ("special", "auditor", "restricted", "revoked") if getattr(stored, flag)]
    groups = sorted(group for name, group in state.policy.connects if name == user)
    data = {flag: flag in flags for flag in ("special", "auditor", "restricted", "revoked")}
    return " ".join(("USER", user, *map(str.upper, flags))), data | {"groups": groups, "id": user, "kind": "user"}


def found_in(state: State) -> Found:
    """What decides a resource of each form."""
    return {it: forms.decided(it, forms.patterns_of(state.policy)) for it in forms.FORMS}


def answer(state: State, words: dict[str, str], found: Found | None = None) -> str:
    """What is printed, by what decides, if that is known."""
    user, console = words["user"], words.get("console")
    wants(user in state.policy.users, "E53", user)
    wants(console is None or console in state.board.consoles, "E10")
    asked = Asked(state, user, console, found or found_in(state))
    first, data = about(state, user)
    entries: list[Entry] = []
    if not state.policy.users[user].revoked:
        entries = [*of_logons(asked), *of_commands(asked), *of_changes(asked)]
    if "allowed" in words:
        entries = [it for it in entries if it.verdict in ("ALLOWED", "WARNED")]
    if "json" in words:
        counting.met["may", "as JSON"] += 1
        return "".join(map(lines.json_line, (data, *(it.data for it in entries))))
    told, head = [first], ""
    for entry in entries:
        told += [*[entry.head] * (entry.head != head), *entry.text]
        head = entry.head
    return "".join(f"{it}\n" for it in told)
