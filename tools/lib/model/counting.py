"""How often each answer and each branch of the rules was met, and which can be met."""
import contextlib
from collections import Counter
from typing import Iterator

met = Counter()  # by what was asked, or which choice a rule had, and what came of it


@contextlib.contextmanager
def aside() -> Iterator[Counter[tuple[str, str]]]:
    """Counts apart from all else, and gives these counts."""
    global met
    kept, met = met, Counter()
    try:
        yield met
    finally:
        met = kept


AT_CONSOLES = ("E12", "E13", "done")
COMMANDS = {
    "C name": "E21 E30 E31 E42", "C U=user": "E21 E30 E31 E42", "FORCE": "E21 E30 E32", "S": "E21 E33 E40",
    "P": "E21 E30 E42", "F": "E21 E30 E42", "R": "E38", "V dev ONLINE": "E21 E34 E35",
    "V dev OFFLINE": "E21 E34 E35 E36", "M": "E21 E34 E35", "U": "E21 E34 E36 E37", "G": "E21 E34 E35 E37",
    "V CN ONLINE": "E21 E39", "V CN OFFLINE": "E21 E39 E41", "V CN AUTH": "E21 E39 E41", "E": "E21 E39", "SE": "E39",
    "L": "", "MN": "", "PM": "", "Z": "E21 E40", "D A,L": "", "D A,name": "", "D U": "", "D C": "", "D R": "",
}
EVENTS = {
    "JOBIN": "E33 E40", "JOBEND": "E30", "ASK": "E45", "ATTACH": "E35", "ALLOCATE": "E30 E34 E35 E36",
    "FREE": "E34 E35", "RESUME": "",
}
OPERATIONS = {
    "AddUser": "E50 E52", "AltUser": "E50 E53", "DelUser": "E50 E53 E55", "AddGroup": "E50 E52",
    "Connect": "E50 E52 E53", "Remove": "E50 E53", "RDefine": "E50 E52 E53", "RAlter": "E51 E53", "RDelete": "E51 E53",
    "Permit": "E51 E53", "PermitDelete": "E51 E53", "ClassActive": "E50", "DefineConsole": "E50 E41",
    "ListProfiles": "", "ListAccount": "E50", "Import": "E50 E56 again E52 E53 E41",
}
WHYS = [
    f"E60 {column}" for column in "Header Columns Kind Class Name Id Value Owner Flags Digest When Restricted".split()
]
OTHERS = {
    "command": "E01 E02 E03 E04 E05 E06 E10 E11", "LOGON": "E13 E14 E15 E17 WARN done", "LOGOFF": "E16 done",
    "first policy": "E41 E52 E53 E57 done", "script": "bad",
    "explain": "ALLOWED DENIED HIDDEN NOLOGON UNDECIDED E01 E02 E03 E04 E05 E06 E10 E53 words",
    "who": "E01 E02 E03 E04 E05 E06 E10 answered words", "account": "rows words", "digest": "done",
    "check": "good Header Columns Kind Class Name Id Value Owner Flags Digest When Restricted E52 E53 N01 N02 N03 N04"
    " N05 N06 N08 N09 N10 N11 N12 N13 N14 N15 N16 N17 N18 N19 N20",
    "HTTP": "H400 H403 H404 H405 H413", "may": "E10 E53 words", "diff": "E52 E53",
    "dry run": "E10 E12 E13 E50 E52 E53 E56 E57 again",
}
BRANCHES = {
    "level by": (
        "own entry", "group entry", "* entry", "* skipped by a RESTRICTED user", "universal access",
        "universal access skipped", "entries at the console", "raised at the console",
    ),
    "verdict": ("allowed", "warned", "denied", "no profile", "inactive class"),
    "line": ("shown", "hidden"),
    "who": (
        "a user, OWN", "a user, GROUP", "a user, EVERYONE", "a user, UACC", "a user, RESTRICTED", "a user, OWN AT",
        "a user, GROUP AT", "a user, EVERYONE AT", "a console, AUTO", "a console, NOBODY", "as JSON",
        "NOLOGON NODIGEST", "NOLOGON NOCONSOLE", "NOLOGON PROFILE", "HIDDEN",
    ),
    "why": (
        "OWN", "GROUP", "EVERYONE", "UACC", "RESTRICTED", "OWN AT", "GROUP AT", "EVERYONE AT", "NOLOGON NODIGEST",
        "NOLOGON NOCONSOLE", "NOLOGON PROFILE",
    ),
    "entering": ("may", "may not", "no logon", "shown", "hidden"), "taken for": ("JOB", "STC", "TSU", "nothing"),
    "over a file": ("a STC on the board", "a TSU on the board"), "account": ("no row",),
    "digest": ("no password",),
    "acting": ("the user who is on", "the console's own user", "nobody at AUTO"),
    "may": (
        "ALLOWED", "WARNED", "DENIED", "UNDECIDED", "NOLOGON", "HIDDEN", "AUTH", "AUTO", "NODIGEST", "NOPROFILE", "OWN",
        "GROUP", "EVERYONE", "UACC", "RESTRICTED", "OWN AT", "GROUP AT", "EVERYONE AT", "SPECIAL", "AUDITOR", "OWNER",
        "as JSON",
    ),
    "diff": ("a row, gone", "a row, new", "a row, changed", "a logon", "a console", "as JSON"),
    "dry run": ("first policy", "would be kept"),
}


def possible() -> Iterator[tuple[str, str]]:
    for form, codes in COMMANDS.items():
        yield from ((form, code) for code in (*AT_CONSOLES, "E20", "WARN", *codes.split()))
    for op, codes in OPERATIONS.items():
        yield from ((op, code) for code in ("E10", "E11", *AT_CONSOLES, *codes.split()))
    yield from ((event, code) for event, codes in EVENTS.items() for code in ("done", *codes.split()))
    yield from ((what, code) for what, codes in OTHERS.items() for code in codes.split())
    yield from ((what, why) for what in ("HTTP", "first policy", "explain") for why in WHYS)
    yield from ((what, branch) for what, branches in BRANCHES.items() for branch in branches)


def report() -> str:
    """The table of what was met, and what can be met and was not."""
    lines = [f"{first:14} {second:32} {count:8}" for (first, second), count in sorted(met.items())]
    left = [f"never met: {first}, {second}" for first, second in possible() if not met[first, second]]
    return "\n".join(lines + left)
