"""The forms of resources about which the gate asks, and which profile decides a resource of each, by trying a name of
every kind that some pattern tells apart."""
import functools
import itertools
from typing import Iterable, Iterator, NamedTuple

from . import names
from .policy import Policy

MOST = 8  # characters of a name
KEPT = 1_000_000  # what is remembered of coverings, at most


class Form(NamedTuple):
    """A form: its name, what a command of it needs, or whether the line of an answer needs it; the words that its
    resources begin with, and the names after them, of units or of consoles."""
    name: str
    group: str
    level: str
    is_line: bool
    start: str
    parts: tuple[str, ...]


def form(name: str, group: str, level: str, start: str, *parts: str) -> Form:
    return Form(name, group, level, name.endswith(" line"), start, parts)


# in the order of the command table
FORMS = (
    form("D A", "INFO", "READ", "MVS.DISPLAY.JOB"),
    form("D U", "INFO", "READ", "MVS.DISPLAY.U"),
    form("D C", "INFO", "READ", "MVS.DISPLAY.CN"),
    form("D R", "INFO", "READ", "MVS.DISPLAY.R"),
    form("unit line", "INFO", "READ", "MVS.DISPLAY.JOB", "unit"),
    form("console line", "INFO", "READ", "MVS.DISPLAY.CN", "console"),
    form("C JOB", "SYS", "UPDATE", "MVS.CANCEL.JOB", "unit"),
    form("C STC", "SYS", "UPDATE", "MVS.CANCEL.STC", "unit", "unit"),
    form("C TSU", "SYS", "UPDATE", "MVS.CANCEL.TSU", "unit"),
    form("FORCE JOB", "MASTER", "CONTROL", "MVS.FORCE.JOB", "unit"),
    form("FORCE STC", "MASTER", "CONTROL", "MVS.FORCE.STC", "unit", "unit"),
    form("FORCE TSU", "MASTER", "CONTROL", "MVS.FORCE.TSU", "unit"),
    form("S", "SYS", "UPDATE", "MVS.START.STC", "unit", "unit"),
    form("P JOB", "SYS", "UPDATE", "MVS.STOP.JOB", "unit"),
    form("P STC", "SYS", "UPDATE", "MVS.STOP.STC", "unit", "unit"),
    form("F JOB", "SYS", "UPDATE", "MVS.MODIFY.JOB", "unit"),
    form("F STC", "SYS", "UPDATE", "MVS.MODIFY.STC", "unit", "unit"),
    form("R", "INFO", "READ", "MVS.REPLY"),
    form("V dev", "IO", "UPDATE", "MVS.VARY.DEV"),
    form("M", "IO", "UPDATE", "MVS.MOUNT"),
    form("U", "IO", "UPDATE", "MVS.UNLOAD"),
    form("G", "IO", "UPDATE", "MVS.SWAP"),
    form("V CN", "CONS", "UPDATE", "MVS.VARY.CN"),
    form("V CN AUTH", "MASTER", "CONTROL", "MVS.VARYAUTH.CN"),
    form("E", "MASTER", "CONTROL", "MVS.RESET.CN"),
    form("SE", "INFO", "READ", "MVS.SEND"),
    form("L", "INFO", "READ", "MVS.LOG"),
    form("MN", "INFO", "READ", "MVS.MONITOR"),
    form("PM", "INFO", "READ", "MVS.STOPMN"),
    form("Z", "SYS", "UPDATE", "MVS.HALT.EOD"),
)
# forms on which one profile says the same
KINDS = (("READ", False), ("READ", True), ("UPDATE", False), ("CONTROL", False))
NAMED = {"unit": names.is_unit, "console": names.is_console}

Patterns = tuple[str, ...]  # of profiles, the more specific first, or qualifiers of such
Deciders = tuple[str | None, ...]  # by each policy, the pattern of the profile that decides, if one does
# by what decides, the shortest resource of a form that was tried
Decided = dict[Deciders, str]


def is_of_kind(it: Form, kind: tuple[str, bool]) -> bool:
    return (it.level, it.is_line) == kind


def is_of(it: Form, resource: str) -> bool:
    """Whether a resource is of a form."""
    words = resource.split(".")
    start = it.start.split(".")
    rest = words[len(start):]
    return (
        words[:len(start)] == start and len(rest) == len(it.parts)
        and all(NAMED[part](word) for part, word in zip(it.parts, rest))
    )


def patterns_of(policy: Policy) -> Patterns:
    """Those of class OPERCMDS, if it is active."""
    is_active = "OPERCMDS" in policy.active
    return tuple(names.in_order(pattern for of, pattern in policy.profiles if of == "OPERCMDS" and is_active))


def is_begun(qualifier: str, text: str) -> bool:
    """Whether a name that begins with this text may match a qualifier."""
    body = qualifier.removesuffix("*")
    is_long = not qualifier.endswith("*") and len(text) > len(body)
    return not is_long and all(character in ("%", other) for character, other in zip(body, text))


def characters_at(place: int, qualifiers: Patterns) -> list[str]:
    """Those that a qualifier has there, and one that none has there."""
    typed = {it[place] for it in qualifiers if place < len(it)} & names.NAME_CHARACTERS
    others = sorted(names.NAME_CHARACTERS - typed, key=lambda it: (not it.isalpha(), it != "X", it))
    return [*others[:1], *sorted(typed)]


@functools.lru_cache(maxsize=100)
def names_apart(qualifiers: Patterns, part: str) -> list[str]:
    """A name for each way in which names match these qualifiers or do not, the shortest first. A character that no
    qualifier has at a place stands for all others, and of names that begin in the same way one goes on."""
    found: dict[tuple[bool, ...], str] = {}
    begun = [""]
    for place in range(MOST):
        longer: dict[tuple[bool, ...], str] = {}
        for text, character in itertools.product(begun, characters_at(place, qualifiers)):
            if part == "unit" or place > 0 or character not in names.DIGITS:
                longer.setdefault(tuple(is_begun(it, text + character) for it in qualifiers), text + character)
        begun = list(longer.values())
        for text in filter(NAMED[part], begun):
            found.setdefault(tuple(names.matches(it, text) for it in qualifiers), text)
    return list(found.values())


def resources_apart(it: Form, patterns: Iterable[str]) -> Iterator[str]:
    """Resources of a form, among them one for each way in which these patterns cover resources of it."""
    qualifiers = tuple(sorted({word for pattern in patterns for word in pattern.split(".") if word != "**"}))
    tried = [names_apart(qualifiers, part) for part in it.parts]
    return (".".join((it.start, *chosen)) for chosen in itertools.product(*tried))


def may_cover(it: Form, pattern: str) -> bool:
    """Whether the words of a pattern before a `**` match those of a form; it may cover none of it all the same."""
    words = itertools.takewhile(lambda word: word != "**", pattern.split("."))
    return all(names.matches(word, other) for word, other in zip(words, it.start.split(".")))


def first_that_covers(patterns: Patterns, resource: str) -> str | None:
    return next((pattern for pattern in patterns if names.covers(pattern, resource)), None)


def decided(it: Form, *sides: Patterns) -> Decided:
    """What decides the resources of a form, by the patterns of one policy or of several at once."""
    if names.covers_qualifiers.cache_info().currsize > KEPT:
        names.covers_qualifiers.cache_clear()
    near = [tuple(pattern for pattern in patterns if may_cover(it, pattern)) for patterns in sides]
    found: Decided = {}
    for resource in resources_apart(it, set().union(*near)):
        by = tuple(first_that_covers(patterns, resource) for patterns in near)
        if by not in found or len(resource) < len(found[by]):
            found[by] = resource
    return found


def decides(pattern: str, before: Iterable[str]) -> bool:
    """Whether a pattern covers a resource about which the gate asks, and that none of those before it covers."""
    patterns = (*before, pattern)
    return any((pattern,) in decided(it, patterns) for it in FORMS if may_cover(it, pattern))


def is_asked(pattern: str) -> bool:
    return decides(pattern, ())
