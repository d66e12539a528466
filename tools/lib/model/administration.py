"""Operations of administration and rows of policy files: what they do to policy and consoles, and what stands in the
way.

A fault names the first thing that stands in the way, in the order in which the operation or the row lists its
fields."""
from typing import Any

from .board import Board
from .faults import wants
from .files import Row
from .policy import Policy, Profile, User

# The right to these is also that of the profile's owner.
OF_OWNERS = ("RAlter", "RDelete", "Permit", "PermitDelete")


def has_right(policy: Policy, user: str | None, op: str, keys: dict[str, Any]) -> None:
    """Refuses an operation unless who acts may do it."""
    is_special = user is not None and policy.users[user].special
    if op in OF_OWNERS:
        profile = policy.profiles.get((keys["class"], keys["pattern"]))
        wants(is_special or (user is not None and profile is not None and profile.owner == user), "E51")
    else:
        wants(is_special, "E50")


def wants_id(policy: Policy, id: str) -> None:
    wants(id == "*" or id in policy.users or id in policy.groups, "E53", id)


def is_in_use(policy: Policy, board: Board, user: str) -> bool:
    return (
        any(name == user for name, _ in policy.connects)
        or any(
            profile.owner == user or any(id == user for id, _ in profile.entries)
            for profile in policy.profiles.values()
        )
        or any(console.user == user for console in board.consoles.values())
    )


def operate(policy: Policy, board: Board, op: str, keys: dict[str, Any]) -> None:
    """Does an operation, or refuses it."""
    had_master = board.has_master()
    OPERATIONS[op](policy, board, **{name if name != "class" else "of": value for name, value in keys.items()})
    wants(board.has_master() or not had_master, "E41")


def add_user(
    policy: Policy, _: Board, id: str, special: bool, auditor: bool, digest: str | None, restricted: bool
) -> None:
    wants(id not in policy.users and id not in policy.groups, "E52", id)
    policy.users[id] = User(special, auditor, False, digest, restricted)


def alter_user(
    policy: Policy, _: Board, id: str, special: bool, auditor: bool, revoked: bool, digest: str | None, restricted: bool
) -> None:
    wants(id in policy.users, "E53", id)
    policy.users[id] = User(special, auditor, revoked, digest, restricted)


def delete_user(policy: Policy, board: Board, id: str) -> None:
    wants(id in policy.users, "E53", id)
    wants(not is_in_use(policy, board, id), "E55", id)
    del policy.users[id]


def add_group(policy: Policy, _: Board, name: str) -> None:
    wants(name not in policy.users and name not in policy.groups, "E52", name)
    policy.groups.add(name)


def wants_pair(policy: Policy, user: str, group: str) -> None:
    wants(user in policy.users, "E53", user)
    wants(group in policy.groups, "E53", group)


def connect(policy: Policy, _: Board, user: str, group: str) -> None:
    wants_pair(policy, user, group)
    wants((user, group) not in policy.connects, "E52", group)
    policy.connects.add((user, group))


def remove(policy: Policy, _: Board, user: str, group: str) -> None:
    wants_pair(policy, user, group)
    wants((user, group) in policy.connects, "E53", group)
    policy.connects.remove((user, group))


def define(policy: Policy, _: Board, of: str, pattern: str, owner: str, uacc: str, warning: bool) -> None:
    wants((of, pattern) not in policy.profiles, "E52", pattern)
    wants(owner in policy.users, "E53", owner)
    policy.profiles[of, pattern] = Profile(owner, uacc, warning)


def alter(policy: Policy, _: Board, of: str, pattern: str, owner: str, uacc: str, warning: bool) -> None:
    wants((of, pattern) in policy.profiles, "E53", pattern)
    wants(owner in policy.users, "E53", owner)
    profile = policy.profiles[of, pattern]
    profile.owner, profile.uacc, profile.warning = owner, uacc, warning


def delete(policy: Policy, _: Board, of: str, pattern: str) -> None:
    wants((of, pattern) in policy.profiles, "E53", pattern)
    del policy.profiles[of, pattern]


def permit(policy: Policy, _: Board, of: str, pattern: str, id: str, level: str, when: str | None) -> None:
    wants((of, pattern) in policy.profiles, "E53", pattern)
    wants_id(policy, id)
    policy.profiles[of, pattern].entries[id, when] = level


def permit_delete(policy: Policy, _: Board, of: str, pattern: str, id: str, when: str | None) -> None:
    wants((of, pattern) in policy.profiles, "E53", pattern)
    # whether the id is stored is not asked
    wants((id, when) in policy.profiles[of, pattern].entries, "E53", id)
    del policy.profiles[of, pattern].entries[id, when]


def activate(policy: Policy, _: Board, of: str, active: bool) -> None:
    (policy.active.add if active else policy.active.discard)(of)


def define_console(_: Policy, board: Board, name: str, auth: str, mode: str) -> None:
    board.define_console(name, auth, mode)


OPERATIONS = {
    "AddUser": add_user, "AltUser": alter_user, "DelUser": delete_user, "AddGroup": add_group, "Connect": connect,
    "Remove": remove, "RDefine": define, "RAlter": alter, "RDelete": delete, "Permit": permit,
    "PermitDelete": permit_delete, "ClassActive": activate, "DefineConsole": define_console,
}


def take_rows(policy: Policy, board: Board, rows: list[Row]) -> None:
    """Takes the rows of a policy file one after another, or refuses them all. They define and replace, and never
    delete."""
    had_master = board.has_master()
    for row in rows:
        take(policy, board, *row)
    # the last master is looked at once, at the end
    wants(board.has_master() or not had_master, "E41")


def take(
    policy: Policy, board: Board, kind: str, of: str, name: str, id: str, value: str, owner: str, flags: str,
    digest: str, when: str, restricted: str,
) -> None:
    if kind == "class":
        activate(policy, board, of, value == "ACTIVE")
    elif kind == "group":
        wants(name not in policy.users, "E52", name)
        policy.groups.add(name)
    elif kind == "user":
        wants(name not in policy.groups, "E52", name)
        policy.users[name] = User("S" in flags, "A" in flags, "R" in flags, digest or None, restricted == "Y")
    elif kind == "connect":
        wants_pair(policy, name, id)
        policy.connects.add((name, id))
    elif kind == "console":
        board.define_console(name, value, flags)
    elif kind == "profile":
        wants(owner in policy.users, "E53", owner)
        profile = policy.profiles.setdefault((of, name), Profile(owner, value, False))
        profile.owner, profile.uacc, profile.warning = owner, value, flags == "W"
    else:
        assert kind == "permit"
        permit(policy, board, of, name, id, value, when or None)
