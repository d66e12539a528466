"""Random cases: each is a list of steps over one new file. They are made along the model, so that most requests meet
something."""
from collections import Counter
from random import Random
from typing import Any, Callable, Iterable

from . import account, counting, entering, exchange, files, machine, names, questions, random_lines, random_policies
from . import random_requests, random_unread, scripts, trying, world
from .files import Row
from .machine import State
from .random_policies import state_of
from .steps import CLOCK, SOME_PORT, Account, Check, Digest, Explain, ExplainCommand, OverFile, Run, Serve, Step, Take
from .steps import Who
from .world import one_in


def first_file(chance: Random, rows: list[Row]) -> bytes:
    return random_policies.joined(chance, random_policies.written(chance, rows), plain=not one_in(chance, 4))


def rarest(chance: Random, makes: Callable[[], Any], keys_of: Callable[[Any], object], seen: Counter[object]) -> Any:
    """One of these, made at random; mostly the one of several that meets what this case met least so far."""
    found = [makes() for _ in range(1 if one_in(chance, 3) else 4)]
    keys = []
    for made in found:
        with counting.aside() as met:
            keys_of(made)
        keys.append(met)
    chosen = min(range(len(found)), key=lambda at: min((seen[key] for key in keys[at]), default=10 ** 6))
    seen.update(keys[chosen])
    return found[chosen]


def any_source(chance: Random) -> dict[str, str]:
    """The policy file is on the input, or named; now and then a database is named beside it, which is a mistake. The
    step has the paths."""
    if not one_in(chance, 4):
        return {}
    return {"policy": "", "db": ""} if one_in(chance, 8) else {"policy": ""}


def explain(chance: Random) -> list[Step]:
    """A policy file, good or bad, with a question."""
    if one_in(chance, 2):
        return explain_command(chance)
    if one_in(chance, 2):
        rows, of = random_policies.first_policy(chance), random_policies.any_class(chance)
        makes = world.any_resource
    else:
        rows, of = overlapping(chance)
        makes = world.short_resource
    patterns = [row[2] for row in rows if row[:2] == ("profile", of)]
    resource = max(
        [makes(chance) for _ in range(chance.choice((1, 4)))],
        key=lambda name: sum(names.covers(pattern, name) for pattern in patterns),
    )
    if one_in(chance, 8):
        chance.shuffle(rows)
    lines = random_policies.written(chance, rows)
    if one_in(chance, 80):
        # about as many rows as a file may have
        more = files.MOST_ROWS + chance.randint(-1, 1) - len(rows)
        lines += [
            random_policies.written_row(
                chance, random_policies.row("group", name="DAY")[:lines[0].count(",") + 1], True
            )
        ] * more
    if one_in(chance, 4):
        lines = random_policies.spoiled(chance, lines)
    words = {"user": chance.choice((*world.USERS, "OPS")), "resource": resource, "level": chance.choice(names.LEVELS)}
    if of == "CONSOLE" or one_in(chance, 6):
        words["class"] = of
    if one_in(chance, 2):
        words["console"] = chance.choice(world.CONSOLES)
    if one_in(chance, 25):
        words[chance.choice(list(words))] = chance.choice(
            ("X1", "anna", "A.B.", "", "é", "C", "A" * 40, "MVS.*", "read", "9X9", "CONSOLE", "A..B")
        )
    if one_in(chance, 3):
        words["why"] = ""
    if one_in(chance, 4):
        words["json"] = ""
    return [Explain(words | any_source(chance), random_policies.joined(chance, lines))]


def with_consoles(chance: Random) -> bytes:
    """A policy file with consoles of all modes; now and then one of its rows is refused, or it has no consoles."""
    rows = random_policies.with_doors(chance) if one_in(chance, 2) else overlapping(chance)[0]
    rows += [random_policies.row("connect", name="ANNA", id="OTHERS")] * one_in(chance, 12)
    rows += [
        random_policies.row(
            "console", name=name, value=world.any_auth(chance), flags=chance.choice(("OPTIONAL", "REQUIRED", "AUTO"))
        )
        for name in (*world.CONSOLES, *world.USERS) if names.is_console(name) and one_in(chance, 2)
    ]
    if one_in(chance, 12):
        rows = [row for row in rows if row[0] != "console"]
    return random_policies.joined(chance, random_policies.written(chance, rows))


def command_asked(chance: Random, first: bytes) -> dict[str, str]:
    """A command, with what its unit is. No word of a command line has a NUL in it, and a hyphen begins an option."""
    words = {"command": random_lines.any_line(chance, state_of(first)).replace("\0", "\1").lstrip("-")}
    if one_in(chance, 6):
        words["command"] = random_lines.typed(chance, chance.choice(("LOGON", "LOGON ANNA", "LOGON X,Y,Z", "LOGOFF")))
    elif one_in(chance, 4):
        words["command"] = random_lines.typed(chance, f"D A,{chance.choice(world.UNITS)}")
    if one_in(chance, 3):
        words["as"] = chance.choice(("TSU", "STC:PAY", "JOB", "STC:", "STC:A.B", "JOB:PAY"))
    return words


def explain_command(chance: Random) -> list[Step]:
    """A policy file with a question of a user, or of nobody, and a command."""
    first = with_consoles(chance)
    return [ExplainCommand(explain_asked(chance, first) | any_source(chance), first)]


def explain_asked(chance: Random, first: bytes) -> dict[str, str]:
    """The question of a user, or of nobody, and a command."""
    user = "-" if one_in(chance, 3) else chance.choice((*world.USERS, "NOBODY9"))
    words = {"user": user, **command_asked(chance, first)}
    if not one_in(chance, 4):
        words["console"] = chance.choice((*world.CONSOLES, *filter(names.is_console, world.USERS)))
    if one_in(chance, 40):
        words["level"] = "READ"
    if one_in(chance, 2):
        words["why"] = ""
    if one_in(chance, 4):
        words["json"] = ""
    return words


def who(chance: Random) -> list[Step]:
    """A policy file with a question of who may."""
    first = with_consoles(chance)
    return [Who(who_asked(chance, first) | any_source(chance), first)]


def who_asked(chance: Random, first: bytes) -> dict[str, str]:
    """The question of who may enter a command, or has a level of access."""
    words = {}
    if one_in(chance, 3):
        words |= {"resource": world.any_resource(chance), "level": chance.choice(names.LEVELS)}
        if one_in(chance, 2):
            words["class"] = chance.choice(names.CLASSES)
    else:
        words |= command_asked(chance, first)
    if one_in(chance, 3) or (questions.asks_to_log_on(words) and not one_in(chance, 4)):
        words["console"] = chance.choice((*world.CONSOLES, *filter(names.is_console, world.USERS)))
    if one_in(chance, 4):
        words["allowed"] = ""
    if one_in(chance, 3):
        words["json"] = ""
    if one_in(chance, 40):
        words["as" if "resource" in words else "level"] = "READ"
    return words


def check(chance: Random) -> list[Step]:
    """A policy file, mostly with several bad rows, or with some that would be refused, or with notes."""
    lines = first_lines(chance)
    for _ in range(chance.choice((0, 0, 1, 3, 8))):
        lines = random_policies.spoiled(chance, lines)
    while one_in(chance, 2) and len(lines) > 2:
        del lines[chance.randrange(1, len(lines))]
    # (there is no note N07)
    noted = [number for number in range(1, 21) if number != 7]
    allowed = [f"N{number:02}" for number in noted if one_in(chance, 3)] if one_in(chance, 4) else []
    return [Check(one_in(chance, 3), allowed, random_policies.joined(chance, lines), any_source(chance))]


def overlapping(chance: Random) -> tuple[list[Row], str]:
    """Many profiles of short patterns in one class, with entries of each kind."""
    users, of = world.USERS, random_policies.any_class(chance)
    rows = [random_policies.row("class", of=of, value="ACTIVE")]
    rows += (
        [random_policies.row("group", name=name) for name in world.GROUPS]
        + [random_policies.user_row(chance, name) for name in users]
    )
    rows += [
        random_policies.row("connect", name=user, id=group)
        for user in users
        for group in world.GROUPS if one_in(chance, 2)
    ]
    patterns = [world.short_pattern(chance) for _ in range(chance.randint(1, 14))]
    profiles = []
    for pattern in patterns:
        level, flags = chance.choice(names.LEVELS), "W" * one_in(chance, 4)
        profiles.append(random_policies.row("profile", of=of, name=pattern, value=level, owner="ANNA", flags=flags))
    return (
        rows + profiles + [random_policies.permit_row(chance, profiles, users + world.GROUPS * 3) for _ in range(20)],
        of,
    )


def lines(chance: Random) -> list[Step]:
    """Command lines of which most almost read, where nothing but AUTH decides."""
    rows = [random_policies.user_row(chance, name) for name in ("ANNA", "C2")]
    rows += [random_policies.row("console", name=name, value="MASTER", flags="OPTIONAL") for name in ("C1", "C2")]
    first = random_policies.joined(chance, random_policies.written(chance, rows), plain=True)
    state = state_of(first)
    events = ("JOBIN PAY JOB", "JOBIN CICS STC CICSPROD NONCANCEL", "JOBIN ANNA TSU", "ATTACH 0A80", "ASK 07 MOUNT IT")
    return [Run(first, script(chance, state, 60, True, [f"{at} * {event}\n" for at, event in enumerate(events, 1)]))]


def script(chance: Random, state: State, count: int, near_misses: bool = False, first: Iterable[str] = ()) -> list[str]:
    """A script that begins with these lines, over this state, which goes on with it."""
    found, moment, seen = list(first), len(first), Counter()
    scripts.run(state, "".join(found).encode())

    def one() -> str:
        return random_lines.script_line(chance, moment, state, near_misses)

    for _ in range(count):
        moment += chance.randint(0, 3)
        line = rarest(chance, one, lambda line: scripts.run(state.copied(), line.encode()), seen)
        line += chance.choice(("\n", "\n", "\n", "\r\n"))
        found.append(line)
        scripts.run(state, line.encode())
    if one_in(chance, 30):
        at = chance.randrange(len(found))
        found[at] = random_lines.bad_script_line(chance, found[at].rstrip("\r\n")) + "\n"
    if found and one_in(chance, 4):
        found[-1] = found[-1].removesuffix("\n").removesuffix("\r")
    return found


def begun(chance: Random, state: State) -> list[str]:
    """Lines that put a console offline, and log some users on."""
    lines = []
    free = [
        name
        for name, console in sorted(state.board.consoles.items())
        if console.mode == "OPTIONAL" and names.enters(console.auth, "CONS")
    ]
    if free and one_in(chance, 2):
        lines.append(f"{chance.choice(free)} V CN({chance.choice(world.CONSOLES)}),OFFLINE")
    lines += [
        f"{name} {random_lines.log_on(chance, state)}" for name in chance.sample(world.CONSOLES, chance.randint(0, 4))
    ]
    return [f"{at} {line}\n" for at, line in enumerate(lines, 1)]


def scripts_of(chance: Random) -> list[Step]:
    """Scripts over a random policy, sometimes two, the second of which finds what the first left."""
    first = first_file(chance, random_policies.first_policy(chance))
    state = state_of(first)
    found = [Run(first, script(chance, state, chance.choice((20, 40, 60)), first=begun(chance, state)))]
    if one_in(chance, 3):
        found.append(Run(first if one_in(chance, 6) else None, script(chance, state, 20)))
    return found


def account_asked(chance: Random, rows: list) -> dict:
    """Options of `account` over these rows, of which most choose some."""
    number = str(chance.choice((1, 2, 3, 7, len(rows), len(rows) + 1, (1 << 63) - 1, 0)))
    moment = chance.choice([row[0] for row in rows] or [5])
    time = chance.choice((f"@{moment}", account.time_of(moment), f"{moment}", "1970-02-29T00:00:00Z"))
    row = chance.choice(rows) if rows else (5, "C1", "-", "E12", "-")
    values = {
        "from": number, "last": number, "count": number, "since": time, "until": time,
        "user": chance.choice((row[2], row[2], "-", "anna")), "console": chance.choice((row[1], row[1], "*", "c1")),
        "code": chance.choice((row[3], row[3][:2] + "*", "E*", "WARN", "*")), "json": "",
    }
    return {name: values[name] for name in chance.sample(sorted(values), chance.choice((0, 1, 1, 2, 2, 3)))}


def accounts(chance: Random) -> list[Step]:
    """Questions about the account of a script."""
    first = first_file(chance, random_policies.first_policy(chance))
    state = state_of(first)
    found: list[Step] = [Run(first, script(chance, state, 40, first=begun(chance, state)))]
    return found + [Account(account_asked(chance, state.account)) for _ in range(8)]


def over_file(chance: Random, first: bytes) -> OverFile:
    """A question of `explain`, `who` or `check`, as over a policy file, to the file in the place of it."""
    command = chance.choice(("explain", "explain", "who", "who", "check"))
    if command == "check":
        words = {"allow": "N08,N14"} if one_in(chance, 3) else {}
        return OverFile(command, words | ({"json": ""} if one_in(chance, 3) else {}))
    words = (explain_asked if command == "explain" else who_asked)(chance, first)
    return OverFile(command, words)


def stored(chance: Random) -> list[Step]:
    """Questions to the file that a script leaves, with units of all kinds on its board."""
    first = first_file(chance, random_policies.first_policy(chance))
    state = state_of(first)
    events = ("JOBIN PAY JOB", "JOBIN CICS STC CICSPROD", "JOBIN ANNA TSU")
    begin = [f"{at} * {event}\n" for at, event in enumerate(chance.sample(events, 2), 1)]
    found: list[Step] = [Run(first, script(chance, state, 12, first=begin))]
    return found + [over_file(chance, first) for _ in range(8)]


def digests(chance: Random) -> list[Step]:
    """Passwords, and what almost is one."""
    letters = "AZaz09#$@" if one_in(chance, 2) else "Ab0@ .\r\xe4"
    typed = "".join(chance.choice(letters) for _ in range(chance.randint(0, 10)))
    end = chance.choice(("", "\n", "\r\n", "\nX", "\r"))
    return [Digest((typed + end).encode())]


def displays(chance: Random) -> list[Step]:
    """Displays of many units and consoles, for users on whom overlapping profiles decide."""
    def some_names(most: int, least: int) -> list[str]:
        return sorted({"".join(chance.choices("AB1", k=chance.randint(least, 3))) for _ in range(most)})

    consoles = ["C1", "C2", *(name for name in some_names(14, 2) if names.is_console(name))]
    rows = [random_policies.row("class", of="OPERCMDS", value="ACTIVE")]
    rows += [random_policies.row("group", name=name) for name in world.GROUPS]
    rows += [random_policies.user_row(chance, name) for name in world.USERS]
    rows += [
        random_policies.row("connect", name=user, id=group)
        for user in world.USERS
        for group in world.GROUPS if one_in(chance, 2)
    ]
    rows += [random_policies.row("console", name=name, value="MASTER", flags="OPTIONAL") for name in consoles]
    patterns = ["MVS.DISPLAY.**", *(world.display_pattern(chance) for _ in range(chance.choice((0, 2, 8, 30))))]
    profiles = [
        random_policies.row(
            "profile", of="OPERCMDS", name=pattern, value=chance.choice(("NONE", "READ")), owner="SECADM",
            flags="W" * one_in(chance, 6),
        )
        for pattern in patterns
    ]
    rows += profiles
    rows += [random_policies.permit_row(chance, profiles, world.USERS + world.GROUPS) for _ in range(12)]
    first = random_policies.joined(chance, random_policies.written(chance, rows), plain=True)
    lines = [f"* JOBIN {name} JOB" for name in some_names(chance.choice((6, 12, 24)), 1)]
    for user in chance.sample(world.USERS, 4):
        lines += [f"C1 LOGON {user},{world.PASSWORD}", "C1 D A,L", "C1 D C", "C1 LOGOFF"]
    return [Run(first, [f"{at} {line}\n" for at, line in enumerate(lines)])]


def requests(chance: Random) -> list[Step]:
    """A policy, a board, and requests of all kinds to one service."""
    first = first_file(chance, random_policies.first_policy(chance))
    state = state_of(first)
    board = script(chance, state, 8, first=begun(chance, state))
    asked, kept, seen = [], {}, Counter()
    is_strict = one_in(chance, 4)
    strict = SOME_PORT if is_strict else None

    def one() -> exchange.Sent:
        sent = random_requests.any_sent(chance, state, kept)
        return random_unread.addressed(chance, sent) if is_strict else sent

    def answer(of: State, sent: exchange.Sent) -> bytes:
        return exchange.exchange(of, CLOCK, sent.at(SOME_PORT), strict)

    for _ in range(chance.choice((20, 40, 60))):
        sent = rarest(chance, one, lambda sent: answer(state.copied(), sent), seen)
        answer(state, sent)
        asked.append(sent)
    return [Run(first, board), Serve(asked, is_strict)]


def imports(chance: Random) -> list[Step]:
    """Policy files by `import`, as the first policy and as batches at consoles, with scripts between them that log
    users on."""
    state, found, kept = machine.State(), [], {}
    for at in range(chance.randint(2, 9)):
        if at > 0 and one_in(chance, 3):
            who = random_lines.log_on(chance, state) if one_in(chance, 4) else f"LOGON SECADM,{world.PASSWORD}"
            step = Run(None, [f"{at} {random_lines.any_console(chance, state)} {who}\n" for _ in range(2)])
        else:
            step = one_import(chance, state, kept, at == 0)
        step.model(state)
        found.append(step)
    return found


def one_import(chance: Random, state: State, kept: random_requests.Kept, is_first: bool) -> Take:
    if is_first or not state.policy.users or one_in(chance, 12):
        return Take(None, chance.choice((1, 999_999_999)), random_policies.joined(chance, first_lines(chance)))
    number, lines = random_requests.any_batch(chance, state, kept)
    console = random_requests.who_may(chance, state, random_lines.any_console(chance, state))
    return Take(console, number, random_policies.joined(chance, lines))


def first_lines(chance: Random) -> list[str]:
    """A first policy, sometimes of consoles alone, in another order, with a user of a group's name, or with a bad
    row."""
    rows = random_policies.first_policy(chance)
    way = chance.randrange(12)
    if way <= 2:
        rows = [row for row in rows if row[0] == "console"]
    elif way == 3:
        rows.append(random_policies.row("user", name=chance.choice(world.GROUPS)))
    elif way == 4:
        chance.shuffle(rows)
    lines = random_policies.written(chance, rows)
    return random_policies.spoiled(chance, lines) if way in (5, 6) else lines


PARTS = {
    "explain": explain, "who": who, "enter": entering.cases, "check": check, "lines": lines, "scripts": scripts_of,
    "account": accounts, "stored": stored, "digest": digests, "displays": displays, "requests": requests,
    "imports": imports, "may": trying.mays, "diff": trying.diffs, "dry-run": trying.dry_runs,
}
