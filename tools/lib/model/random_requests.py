"""Random requests over HTTP: operations, imports, listings, commands, and now and then what is no valid
request."""
import json
from random import Random
from typing import Any

from . import names, random_lines, random_policies, world
from .exchange import Sent
from .files import Row
from .machine import State
from .policy import User
from .random_unread import post, spoiled, unread
from .world import mostly, one_in

Kept = dict[int, list[Row]]  # the rows of the batches so far, by number


def path_of(chance: Random, console: str) -> str:
    """The path of a console, some characters of its name as they are or as they are escaped."""
    return "/consoles/" + console.replace("#", chance.choice(("#", "%23"))).replace("$", chance.choice(("$", "%24")))


def any_profile(chance: Random, state: State) -> tuple[str, str]:
    """Class and pattern, mostly of a profile that is there."""
    if state.policy.profiles and not one_in(chance, 6):
        return chance.choice(sorted(state.policy.profiles))
    of = random_policies.any_class(chance)
    return of, world.any_pattern(chance, of)


def any_operation(chance: Random, state: State) -> tuple[str, dict[str, Any]]:
    """An operation with its keys."""
    policy, board, is_careless = state.policy, state.board, one_in(chance, 4)
    user = mostly(chance, policy.users, (*world.USERS, "OPS", "EVE"), is_careless)
    group = mostly(chance, policy.groups, (*world.GROUPS, "ANNA", "NOSUCH"), is_careless)
    of, pattern = any_profile(chance, state)
    profile = {"class": of, "pattern": pattern}
    entries = (
        sorted((id, when or "") for id, when in policy.profiles[of, pattern].entries)
        if (of, pattern) in policy.profiles
        else []
    )
    listed, at = (
        chance.choice(entries) if entries and not one_in(chance, 3) else (chance.choice((user, group, "*")), "")
    )
    whole = {**profile, "owner": user, "uacc": chance.choice(names.LEVELS), "warning": one_in(chance, 4)}
    flags = {
        "special": one_in(chance, 4) or user == "SECADM", "auditor": one_in(chance, 5), "restricted": one_in(chance, 4),
        "digest": world.any_digest(chance),
    }
    when = chance.choice(sorted(board.consoles) or ["C1"]) if one_in(chance, 3) else None
    fresh = profile if is_careless and one_in(chance, 2) else any_fresh_profile(chance, state)
    operations = [
        (3, "AddUser", {"id": chance.choice((*world.USERS, *world.GROUPS)), **flags}),
        (4, "AltUser", {"id": user, **flags, "revoked": one_in(chance, 4) and user != "SECADM"}),
        (4, "DelUser", {"id": user if is_careless else hardly_used(chance, state) or user}),
        (2, "AddGroup", {"name": chance.choice((*world.GROUPS, "ANNA", "CARL"))}),
        (2, "Connect", {"user": user, "group": group}), (2, "Remove", {"user": user, "group": group}),
        (4, "RDefine", {**whole, **fresh}), (3, "RAlter", whole), (2, "RDelete", profile),
        (
            5,
            "Permit",
            {
                **profile, "id": mostly(chance, [user, group, "*"], ("NOSUCH", "EVE")),
                "level": chance.choice(names.LEVELS), "when": when,
            },
        ),
        (3, "PermitDelete", {**profile, "id": listed, "when": at or (when if one_in(chance, 4) else None)}),
        (2, "ClassActive", {"class": of, "active": not one_in(chance, 3)}),
        (
            3,
            "DefineConsole",
            {"name": chance.choice(world.CONSOLES), "auth": world.any_auth(chance), "mode": chance.choice(names.MODES)},
        ),
    ]
    _, op, keys = chance.choices(operations, [weight for weight, _, _ in operations])[0]
    return op, keys


def hardly_used(chance: Random, state: State) -> str | None:
    """A user whom nothing or one thing holds, if there is one: a connect, an entry, an owner, a console."""
    policy = state.policy
    holds = [user for user, _ in policy.connects] + [console.user for console in state.board.consoles.values()]
    holds += (
        [profile.owner for profile in policy.profiles.values()] + [
            id for profile in policy.profiles.values() for id, _ in profile.entries
        ]
    )
    found = [user for user in sorted(policy.users) if holds.count(user) <= 1]
    seldom = (
        {console.user for console in state.board.consoles.values()} | {
            id for profile in policy.profiles.values() for id, when in profile.entries if when
        }
    )
    found = [user for user in found if user in seldom] if one_in(chance, 2) else found
    return chance.choice(found) if found else None


def any_fresh_profile(chance: Random, state: State) -> dict[str, str]:
    of = random_policies.any_class(chance)
    free = [pattern for pattern in world.PATTERNS[of] if (of, pattern) not in state.policy.profiles]
    return {
        "class": of, "pattern": chance.choice(free) if free and not one_in(chance, 4) else world.any_pattern(chance, of)
    }


def written(chance: Random, found: dict[str, Any]) -> bytes:
    """JSON, now and then as nobody writes it."""
    if not one_in(chance, 6):
        return json.dumps(found).encode()
    pairs = list(found.items())
    chance.shuffle(pairs)
    if one_in(chance, 2):
        pairs.insert(0, (pairs[-1][0], chance.choice((None, "X", 7, [1], {"a": 1}))))  # a key twice: the last counts
    inner = ",".join(
        f" {json.dumps(key)}\t:\r\n{json.dumps(value, ensure_ascii=one_in(chance, 2))}" for key, value in pairs
    )
    inner = inner.replace("A", "\\u0041").replace("/", "\\/") if one_in(chance, 3) else inner
    return f" {{{inner}\n}} ".encode()


def any_sent(chance: Random, state: State, kept: Kept) -> Sent:
    """A request over HTTP; `kept` has the rows of the imports so far, by number."""
    console = random_lines.any_console(chance, state)
    at = path_of(chance, console)
    firsts = (0, 1, 1, 2, 5, 10 ** 18 - 1)
    ways = [
        (40, lambda: command(chance, state, at)),
        (45, lambda: admin(chance, state, console)),
        (14, lambda: imported(chance, state, console, kept)),
        (11, lambda: Sent("GET", f"{at}/profiles/{random_policies.any_class(chance)}")),
        (
            5,
            lambda: Sent(
                "GET",
                f"{at}/account/{chance.choice((*firsts, len(state.account)))}/{chance.choice((1, 2, 7, '0030', 1000))}",
            ),
        ),
    ]
    found = chance.choices([way for _, way in ways], [weight for weight, _ in ways])[0]()
    found = found._replace(version="1.0") if one_in(chance, 9) else found
    return unread(chance, found) if one_in(chance, 14) else found


def is_special(user: User) -> bool:
    return user.special and not user.revoked


def who_may(chance: Random, state: State, console: str) -> str:
    """This console, or mostly one where somebody SPECIAL acts, if there is one."""
    users = {name: state.acting(name) for name, row in state.board.consoles.items() if row.online}
    special = [name for name, user in users.items() if user and is_special(state.policy.users[user])]
    if one_in(chance, 8):
        return chance.choice(random_lines.awkward(state))
    return chance.choice(sorted(special)) if special and not one_in(chance, 6) else console


def command(chance: Random, state: State, at: str) -> Sent:
    text = random_lines.any_command(chance, state)
    if (
        "SECADM" in state.policy.users
        and not any(console.user == "SECADM" for console in state.board.consoles.values())
        and one_in(chance, 4)
    ):
        text = f"LOGON SECADM,{world.PASSWORD}"
    text = random_lines.almost(chance, text) if one_in(chance, 20) else random_lines.typed(chance, text)
    return post(f"{at}/command", (spoiled if one_in(chance, 25) else written)(chance, {"text": text}))


def admin(chance: Random, state: State, console: str) -> Sent:
    op, keys = any_operation(chance, state)
    found = {"op": op, **keys}
    body = spoiled(chance, found) if one_in(chance, 16) else written(chance, found)
    return post(f"{path_of(chance, who_may(chance, state, console))}/admin", body)


def any_batch(chance: Random, state: State, kept: Kept) -> tuple[int, list[str]]:
    """Number and lines of a batch that is new, one that was sent before, in the same bytes or in others, one of its
    number with other rows, or one that is bad. `kept` has the rows that were sent so far, by number."""
    number = chance.choice((*kept, chance.randint(1, 9), 999_999_999))
    rows = [random_policies.any_row(chance, state) for _ in range(chance.choice((0, 1, 1, 2, 3, 6)))]
    if number in kept and not one_in(chance, 4):
        rows = kept[number]
    kept.setdefault(number, rows)
    lines = random_policies.written(chance, rows)
    return number, random_policies.spoiled(chance, lines) if one_in(chance, 6) else lines


def imported(chance: Random, state: State, console: str, kept: Kept) -> Sent:
    number, lines = any_batch(chance, state, kept)
    body = random_policies.joined(chance, lines)
    body = body + b"\xff" if one_in(chance, 60) else body
    return post(
        f"{path_of(chance, who_may(chance, state, console))}/import/{chance.choice((number, f'{number:04}'))}", body
    )
