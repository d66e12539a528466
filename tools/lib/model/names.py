"""Names, levels, authorities, and the patterns of profiles."""
import functools
from typing import Iterable

DIGITS = frozenset("0123456789")
NAME_CHARACTERS = frozenset("ABCDEFGHIJKLMNOPQRSTUVWXYZ0123456789#$@")
CLASSES = ("CONSOLE", "OPERCMDS")
LEVELS = ("NONE", "READ", "UPDATE", "CONTROL", "ALTER")
MODES = ("OPTIONAL", "REQUIRED", "AUTO")
PARTS_OF_AUTH = ("SYS", "IO", "CONS")
LONGEST_RESOURCE = 39


def is_name(text: str, most: int, least: int = 1) -> bool:
    return least <= len(text) <= most and NAME_CHARACTERS.issuperset(text)


def is_user(text: str) -> bool:
    return is_name(text, 8)


is_unit = is_user


def is_group(text: str) -> bool:
    return is_name(text, 8) and text[0] not in DIGITS


def is_console(text: str) -> bool:
    return is_name(text, 8, 2) and text[0] not in DIGITS


def is_device(text: str) -> bool:
    return len(text) == 4 and frozenset("0123456789ABCDEF").issuperset(text)


def is_number(text: str, most: int) -> bool:
    """Whether it is decimal digits, at most this many: no sign, no space."""
    return 1 <= len(text) <= most and DIGITS.issuperset(text)


def is_digest(text: str) -> bool:
    return len(text) == 64 and frozenset("0123456789abcdef").issuperset(text)


def is_resource(text: str) -> bool:
    return (
        1 <= len(text) <= LONGEST_RESOURCE
        and all(qualifier and NAME_CHARACTERS.issuperset(qualifier) for qualifier in text.split("."))
    )


def is_pattern(text: str) -> bool:
    return 1 <= len(text) <= LONGEST_RESOURCE and all(map(is_qualifier, text.split(".")))


def is_qualifier(text: str) -> bool:
    """One qualifier of a pattern: `**` alone, or characters and `%` that one `*` may end."""
    before = text[:-1] if text.endswith("*") else text
    return (
        text == "**" or (text != "" and all(character == "%" or character in NAME_CHARACTERS for character in before))
    )


def is_at_least(level: str, needed: str) -> bool:
    return LEVELS.index(level) >= LEVELS.index(needed)


def highest(levels: Iterable[str]) -> str:
    return max(levels, key=LEVELS.index)


def read_auth(text: str) -> str | None:
    """The authority as it is written, or none: one of three words, or some of three parts in any order, none twice."""
    if text in ("MASTER", "ALL", "INFO"):
        return text
    parts = text.split(",")
    if all(parts.count(part) == 1 and part in PARTS_OF_AUTH for part in parts):
        return ",".join(part for part in PARTS_OF_AUTH if part in parts)
    return None


def enters(auth: str, group: str) -> bool:
    """Whether the authority of a console lets it give commands of the group."""
    if auth == "MASTER":
        return True
    if auth == "ALL":
        return group != "MASTER"
    return group == "INFO" or group in auth.split(",")


def covers(pattern: str, resource: str) -> bool:
    return covers_qualifiers(tuple(pattern.split(".")), tuple(resource.split(".")))


@functools.cache
def covers_qualifiers(pattern: tuple[str, ...], name: tuple[str, ...]) -> bool:
    if not pattern:
        return not name
    first, rest = pattern[0], pattern[1:]
    if first == "**":
        return any(covers_qualifiers(rest, name[at:]) for at in range(len(name) + 1))
    if not name or not matches(first, name[0]):
        return False
    # a `*` that ends the whole pattern takes all further qualifiers along
    return True if not rest and first.endswith("*") else covers_qualifiers(rest, name[1:])


def matches(qualifier: str, text: str) -> bool:
    """Whether a qualifier other than `**` is that of a name: `%` is one character, a `*` at its end is any rest."""
    if qualifier.endswith("*"):
        return len(text) >= len(qualifier) - 1 and matches(qualifier[:-1], text[: len(qualifier) - 1])
    return len(text) == len(qualifier) and all(character in ("%", other) for character, other in zip(qualifier, text))


@functools.cache
def tokens(pattern: str) -> tuple[str, ...]:
    """The characters, periods among them, `**` being one token."""
    found = []
    for character in pattern:
        if character == "*" and found and found[-1] == "*":
            found[-1] = "**"
        else:
            found.append(character)
    return tuple(found)


def rank(token: str) -> int:
    """By which tokens are compared: characters by their code come before the generic ones."""
    return ("%", "*", "**").index(token) + 256 if token in ("%", "*", "**") else ord(token)


def before(one: str, other: str) -> bool:
    """Whether a pattern is more specific than another."""
    mine, theirs = tokens(one), tokens(other)
    for my, their in zip(mine, theirs):
        if my != their:
            return rank(my) < rank(their)
    common = mine if len(mine) < len(theirs) else theirs
    if common[-1] in ("*", "**"):
        return len(mine) > len(theirs)
    return len(mine) < len(theirs)


def in_order(patterns: Iterable[str]) -> list[str]:
    return sorted(patterns, key=functools.cmp_to_key(lambda one, other: before(other, one) - before(one, other)))


def sort_key(pattern: str) -> bytes:
    """The bytes that a table keeps, by which patterns are in order."""
    of_generic = {"%": 0x80, "*": 0x81, "**": 0x82}
    key = bytes(of_generic[token] if token in of_generic else ord(token) for token in tokens(pattern))
    return key + b"\xff" if pattern.endswith("*") else key


def head(pattern: str) -> str:
    """The text before the first generic token, without the period before a `**`."""
    parts = tokens(pattern)
    at = next((at for at, token in enumerate(parts) if token in ("%", "*", "**")), len(parts))
    plain = "".join(parts[:at])
    return plain[:-1] if parts[at:at + 1] == ("**",) and plain.endswith(".") else plain
