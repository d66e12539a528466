"""The small world of random requests: few names, so that they collide, and patterns that overlap."""
import hashlib
from random import Random
from typing import Any, Iterable, Sequence

from . import names

USERS = ("ANNA", "BERT", "CARL", "SECADM", "C4", "C#5", "9$")  # two have the names of consoles
GROUPS = ("NIGHT", "OPS", "DAY")
CONSOLES = ("C1", "C2", "C3", "C4", "C#5")
UNITS = ("PAY", "PAYROLL", "SECRET", "CICS", "ANNA", "L")  # one has the name of a user, one is what lists all
MEMBERS = ("PAY", "CICSPROD")
DEVICES = ("0A80", "0A81", "FFFF")
VOLUMES = ("PAY001", "V$")
REPLIES = (0, 7, 10, 99)
TEXTS = ("GO", "it's \"me\"", "a, b", "  ", "x=(y)", "~{}`", "")
ASKED = ("MOUNT it", " x ", "é~", "\ta\x1f\x7f", 'q"\\/', "\x00z", "\u2028\u00a0", "𝄞", "a\rb", "\ufeff")
AUTHS = ("MASTER", "ALL", "INFO", "SYS", "IO", "CONS", "SYS,IO", "IO,CONS", "SYS,CONS", "SYS,IO,CONS")
DIGESTS = {word: hashlib.sha256(word.encode()).hexdigest() for word in ("ABC", "A1#$@", "ZZZZZZZZ")}
PASSWORD = "ABC"

PATTERNS = {
    "CONSOLE": ("C1", "C2", "C%", "C*", "*", "**", "C4", "%1", "C4.*", "C*.**", "C%%", "C#*"),
    "OPERCMDS": (
        "**", "*", "M*", "MVS.**", "MVS.*", "MVS.%", "MVS.%%%%.**", "MVS.**.CN", "MVS.**.PAY", "MVS.**.PAY*",
        "MVS.*.JOB.*", "MVS.*.*.PAY", "MVS.DISPLAY.**", "MVS.DISPLAY.*", "MVS.DISPLAY.%%", "MVS.DISPLAY.U",
        "MVS.DISPLAY.JOB", "MVS.DISPLAY.JOB.**", "MVS.DISPLAY.JOB.*", "MVS.DISPLAY.JOB.PAY*", "MVS.DISPLAY.JOB.SECRET",
        "MVS.DISPLAY.CN", "MVS.DISPLAY.CN.C%", "MVS.DISPLAY.CN.C1", "MVS.DISPLAY.CN.*", "MVS.CANCEL.**",
        "MVS.CANCEL.JOB.*", "MVS.CANCEL.JOB.PAY*", "MVS.CANCEL.*.PAY*", "MVS.CANCEL.TSU.*", "MVS.CANCEL.STC.CICS*.**",
        "MVS.FORCE.**", "MVS.FORCE.TSU.*", "MVS.FORCE.JOB.**", "MVS.FORCE.STC.*.CICS", "MVS.START.STC.**",
        "MVS.START.STC.PAY.*", "MVS.STOP*", "MVS.STOP.JOB.%%%", "MVS.MODIFY.*.CICS*", "MVS.VARY.DEV", "MVS.VARY.*",
        "MVS.VARY*.CN", "MVS.VARY*", "MVS.REPLY", "MVS.HALT.EOD", "MVS.M*", "MVS.S*", "MVS.L%%",
        "MVS.%%%%%%.JOB.%%%%%%%%.ABCDEFGHIJKLMN*",
    ),
}
RESOURCES = (
    "MVS.DISPLAY.JOB", "MVS.DISPLAY.JOB.PAY", "MVS.DISPLAY.JOB.SECRET", "MVS.DISPLAY.CN.C1", "MVS.DISPLAY.U",
    "MVS.CANCEL.JOB.PAY", "MVS.CANCEL.JOB.PAYROLL", "MVS.CANCEL.STC.CICSPROD.CICS", "MVS.CANCEL.TSU.ANNA",
    "MVS.FORCE.TSU.ANNA", "MVS.START.STC.PAY.X1", "MVS.VARY.DEV", "MVS.VARYAUTH.CN", "MVS.REPLY", "MVS", "C1", "C4",
    "MVS.STOPMN",
)


def one_in(chance: Random, number: int) -> bool:
    return chance.randrange(number) == 0


def mostly(chance: Random, stored: Iterable[Any], pool: Sequence[Any], is_careless: bool = False) -> Any:
    """One of those that are stored, or any of the pool: now and then, and if several may be wrong at once."""
    return (
        chance.choice(sorted(stored)) if stored and not is_careless and not one_in(chance, 8) else chance.choice(pool)
    )


def any_pattern(chance: Random, of: str) -> str:
    """A pattern of the world, or now and then one of few characters, which covers many of the others' names."""
    return chance.choice(PATTERNS[of]) if not one_in(chance, 8) else short_pattern(chance)


def short_pattern(chance: Random) -> str:
    while True:
        qualifiers = [
            chance.choice(("A", "B", "AB", "*", "**", "%", "A*", "%*", "A%", "%B*", "BA*", "A%%"))
            for _ in range(chance.randint(1, 4))
        ]
        if names.is_pattern(".".join(qualifiers)):
            return ".".join(qualifiers)


def display_pattern(chance: Random) -> str:
    """A pattern that may cover what a line of a display needs."""
    same = ("MVS.DISPLAY.JOB.", "MVS.DISPLAY.CN.") * 4
    others = ("MVS.DISPLAY.", "MVS.DISPLAY.*.", "MVS.DISPLAY.%%.", "MVS.**.", "**.")
    while True:
        pattern = chance.choice(same + others) + short_pattern(chance)
        if names.is_pattern(pattern):
            return pattern


def short_resource(chance: Random) -> str:
    return ".".join(
        "".join(chance.choice("AB") for _ in range(chance.randint(1, 3))) for _ in range(chance.randint(1, 4))
    )


def any_resource(chance: Random) -> str:
    return chance.choice(RESOURCES)


def any_auth(chance: Random) -> str:
    """An authority: MASTER so often that there mostly are one or two."""
    return "MASTER" if one_in(chance, 4) else chance.choice(AUTHS)


def any_digest(chance: Random) -> str | None:
    """The digest of the password that most users have, of another, or none."""
    return chance.choices([DIGESTS[PASSWORD], chance.choice(list(DIGESTS.values())), None], [12, 1, 1])[0]
