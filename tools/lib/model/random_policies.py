"""Random rows of policy files: first policies, rows of imports, and what is wrong with a row."""
from random import Random
from typing import Sequence

from . import files, names, world
from .faults import Fault
from .files import Row, row
from .machine import State
from .world import one_in


def first_policy(chance: Random) -> list[Row]:
    """Rows that mostly make a policy in which something can be done."""
    rows = [
        row("class", of=of, value="INACTIVE" if one_in(chance, 9) else "ACTIVE")
        for of in names.CLASSES if not one_in(chance, 12)
    ]
    groups = [name for name in world.GROUPS if not one_in(chance, 5)]
    users = ["SECADM", *(name for name in world.USERS if name != "SECADM" and not one_in(chance, 5))]
    rows += [row("group", name=name) for name in groups] + [user_row(chance, name) for name in users]
    rows += [row("connect", name=user, id=group) for user in users for group in groups if one_in(chance, 2)]
    rows += [console_row(chance, name) for name in world.CONSOLES if not one_in(chance, 6)]
    profiles = [profile_row(chance, users) for _ in range(chance.choice((0, 3, 6, 9, 14)))]
    if one_in(chance, 4):
        # little but one profile, which denies or warns nearly everybody
        profiles = (
            profiles[:2]
            + [
                row(
                    "profile", of="OPERCMDS", name="**", value="NONE", owner="SECADM",
                    flags=chance.choice(("W", "W", "")),
                )
            ]
        )
    rows += profiles
    rows += [permit_row(chance, profiles, users + groups * 3) for _ in range(chance.choice((0, 4, 9, 16))) if profiles]
    return rows


def user_row(chance: Random, name: str) -> Row:
    if name == "SECADM" and not one_in(chance, 10):
        return row("user", name=name, flags="S", digest=world.DIGESTS[world.PASSWORD])
    flags = "S" * one_in(chance, 6) + "A" * one_in(chance, 5) + "R" * one_in(chance, 3 if name in world.CONSOLES else 7)
    return row(
        "user", name=name, flags=flags, digest=world.any_digest(chance) or "", restricted="Y" * one_in(chance, 4)
    )


def console_row(chance: Random, name: str) -> Row:
    mode = chance.choices(names.MODES, [4, 2, 3])[0]
    return row("console", name=name, value=world.any_auth(chance), flags=mode)


def any_class(chance: Random) -> str:
    return chance.choices(names.CLASSES, [1, 4])[0]


def profile_row(chance: Random, users: Sequence[str]) -> Row:
    of = any_class(chance)
    level = chance.choices(names.LEVELS, [6, 4, 2, 1, 1])[0]
    return row(
        "profile", of=of, name=world.any_pattern(chance, of), value=level, owner=chance.choice(users),
        flags="W" * one_in(chance, 3),
    )


def permit_row(chance: Random, profiles: Sequence[Row], ids: Sequence[str]) -> Row:
    chosen = chance.choice(profiles)
    when = chance.choice(world.CONSOLES) if one_in(chance, 3) else ""
    return row(
        "permit", of=chosen[1], name=chosen[2], id=chance.choice([*ids, "*"]), value=chance.choice(names.LEVELS),
        when=when,
    )


def any_row(chance: Random, state: State) -> Row:
    """A row of an import into this state: mostly good, now and then one that names what is not stored."""
    users, groups = state.policy.users, state.policy.groups
    user, group = world.mostly(chance, users, world.USERS), world.mostly(chance, groups, world.GROUPS)
    profiles = [row("profile", of=of, name=name) for of, name in sorted(state.policy.profiles)]
    unknown = [row("profile", of="OPERCMDS", name=chance.choice(world.PATTERNS["OPERCMDS"]))]
    kinds = [
        lambda: row("class", of=any_class(chance), value=chance.choice(("ACTIVE", "ACTIVE", "INACTIVE"))),
        lambda: row("group", name=chance.choice(world.USERS if one_in(chance, 4) else world.GROUPS)),
        lambda: user_row(chance, chance.choice(world.GROUPS if one_in(chance, 4) else world.USERS)),
        lambda: row("connect", name=user, id=group),
        lambda: console_row(chance, chance.choice(world.CONSOLES)),
        lambda: profile_row(chance, [user]),
        lambda: permit_row(chance, unknown if one_in(chance, 6) or not profiles else profiles, [user, group]),
    ]
    return chance.choices(kinds, [2, 2, 2, 3, 2, 4, 4])[0]()


def written(chance: Random, rows: Sequence[Row], plain: bool = False) -> list[str]:
    """The lines of a file of these rows: of eight columns if the rows need no more, fields sometimes in quotes,
    authorities in any order of their parts."""
    narrow = all(not row[8] and not row[9] for row in rows) and one_in(chance, 2)
    width = 8 if narrow else 10
    lines = [",".join(files.COLUMNS[:width])]
    return lines + [written_row(chance, row[:width], plain) for row in rows]


def written_row(chance: Random, fields: Row, plain: bool = False) -> str:
    if not plain and fields[0] == "console" and "," in fields[4]:
        parts = fields[4].split(",")
        chance.shuffle(parts)
        fields = (*fields[:4], ",".join(parts), *fields[5:])
    return ",".join(f'"{field}"' if "," in field or (not plain and one_in(chance, 40)) else field for field in fields)


# Values that some column takes and others do not, or none.
STRANGE = (
    "", "X", "9X", "anna", "C", "*", "**", "A..B", "A.B**", "ABCDEFGHI", "A" * 40, "ANNA", "OPERCMDS", "FACILITY",
    "ACTIVE", "READ", "MASTER", "SYS,SYS", "SYS,", "OPTIONAL", "optional", "AUTO", "W", "Y", "SS", "AS", "é", " ",
    "A" * 64, "a" * 64, "A\nB", 'A"B', "-", "MVS.**",
)

# Values that a column almost takes, or takes in rows of some kinds alone.
NEAR = {
    "kind": ("Class", "users", "", "permit "),
    "class": ("", "CONSOLE", "OPERCMDS", "console"),
    "name": ("", "9X", "C", "C1", "A.*", "ANNA "),
    "id": ("", "*", "9X", "**", "A.B", "OPS"),
    "value": ("", "READ", "MASTER", "SYS,SYS", "IO,ALL", "ACTIVE", "EXECUTE", "SYS,IO"),
    "owner": ("", "ANNA", "9X", "*"), "flags": ("", "AS", "SS", "RAS", "s", "W", "AUTO", "OPTIONAL", "SA"),
    "digest": ("", "A" * 64, "a" * 63, "a" * 65, "g" * 64, "0" * 64),
    "when": ("", "C", "C1", "*", "9X"),
    "restricted": ("", "Y", "N", "y", "YY"),
}


def spoiled(chance: Random, lines: list[str]) -> list[str]:
    """These lines with something in one of them that is likely to be bad."""
    at = chance.randrange(len(lines))
    width = lines[0].count(",") + 1
    way = chance.randrange(12)
    lines = list(lines)
    if way == 0:
        lines[at] += ","
    elif way == 1:
        lines[at] = lines[at].rpartition(",")[0]
    elif way == 2:
        lines[at] = chance.choice(
            ("", " ", '""', ",", "\u00e9", '"', "#", "\ufeff" + lines[at], lines[at] + "\r", '"' + lines[at])
        )
    elif way == 3:
        header = lines[0]
        headers = (
            header.upper(), header + ",x", header.replace("kind", '"kind"'), header.replace(",", ", "), "",
            "\ufeff" + header, "\ufeff\ufeff" + header, header.replace(",id", ""), ",".join(files.COLUMNS),
        )
        lines[0] = chance.choice(headers)
    elif at > 0 and lines[at].count(",") + 1 == width:
        fields = lines[at].split(",")
        column = chance.randrange(min(width, len(files.COLUMNS)))
        fields[column] = quoted(chance.choice(STRANGE if one_in(chance, 3) else NEAR[files.COLUMNS[column]]))
        lines[at] = ",".join(fields)
    return lines


def quoted(text: str) -> str:
    return '"' + text.replace('"', '""') + '"' if any(character in text for character in ',"\n') else text


def joined(chance: Random, lines: list[str], plain: bool = False) -> bytes:
    """The bytes of a file of these lines, with the line ends that files have."""
    ends = ["\n"] if plain else chance.choice((["\n"], ["\n"], ["\n"], ["\r\n"], ["\r"], ["\n", "\r\n", "\r", "\n\n"]))
    text = "".join(line + chance.choice(ends) for line in lines)
    if not plain and one_in(chance, 6):
        text = "\ufeff" * chance.choice((1, 1, 1, 2)) + text
    return (text[:-1] if one_in(chance, 4) else text).encode()


def state_of(data: bytes) -> State:
    """The state that a first policy makes, or the empty one where it is refused."""
    state = State()
    try:
        state.bootstrap(files.read(data))
    except Fault:
        pass
    return state


def with_doors(chance: Random) -> list[Row]:
    """A first policy in which some users have no digest, and some consoles and units are kept from some users."""
    rows = [
        (*made[:7], "", *made[8:]) if made[0] == "user" and one_in(chance, 6) else made
        for made in first_policy(chance)
    ]
    doors = [
        row(
            "profile", of="CONSOLE", name=world.any_pattern(chance, "CONSOLE"), owner="SECADM",
            value=chance.choice(("NONE", "NONE", "READ")), flags="W" * one_in(chance, 6),
        )
        for _ in range(chance.choice((0, 1, 3)))
    ]
    ids = [made[2] for made in rows if made[0] in ("user", "group")]
    lines = [
        row("profile", of="OPERCMDS", name=f"MVS.DISPLAY.JOB.{name}", value="NONE", owner="SECADM")
        for name in (*world.UNITS, "*") if one_in(chance, 6)
    ]
    kept = doors + lines
    return rows + kept + [permit_row(chance, kept, ids) for _ in range(6) if kept]
