"""The model's state of the rows of a file, if they represent one: the way back from lib/model/tables.py. What no
request can have left has no state."""
import re
from typing import Any

from lib.model import files, names, tables
from lib.model.board import Board, Console, Device, Unit
from lib.model.faults import NAMES, Fault
from lib.model.machine import State
from lib.model.policy import Policy, Profile, User
from . import rules

KINDS, MODES = {"J": "JOB", "S": "STC", "T": "TSU"}, {mode[0]: mode for mode in names.MODES}
AUTHS = {tables.auth_number(auth): auth for auth in (
    "MASTER", "ALL", "INFO", "SYS", "IO", "CONS", "SYS,IO", "SYS,CONS", "IO,CONS", "SYS,IO,CONS"
)}
TYPED = re.compile("[ -~]*")  # what a command line has
SURROGATE = re.compile("[\ud800-\udfff]")
LATEST = 9_999_999_999_999
Rows = dict[str, list[tuple]]


def state_of(rows: Rows) -> State | None:
    try:
        account = [row[1:] for row in by_number(rows["account"])]
        state = State(policy_of(rows), board_of(rows), account, batches_of(rows))
    except (Fault, KeyError, IndexError, TypeError, ValueError):
        return None
    # (a flag of 2, a gap between numbers, a second row of the board and the like do not come back)
    is_whole = tables.printed(tables.of_state(state)) == tables.printed(rows)
    return state if is_whole and is_valid(state.policy, state.board) and is_account(state.account) else None


def by_number(rows: list[tuple]) -> list[tuple]:
    return sorted(rows, key=lambda row: row[0])


def policy_of(rows: Rows) -> Policy:
    users = {
        id: User(bool(special), bool(auditor), bool(revoked), digest and digest.hex(), bool(restricted))
        for id, special, auditor, revoked, digest, restricted in rows["usr"]
    }
    profiles = {
        (of, name): Profile(owner, names.LEVELS[uacc], bool(warning))
        for of, name, owner, uacc, warning, *_ in rows["profiles"]
    }
    for of, name, id, console, level in rows["entries"]:
        profiles[of, name].entries[id, console or None] = names.LEVELS[level]
    groups, active = {name for (name,) in rows["grp"]}, {of for of, is_active in rows["classes"] if is_active}
    return Policy(users, groups, set(rows["connects"]), profiles, active)


def board_of(rows: Rows) -> Board:
    units = {
        name: Unit(KINDS[kind], member, bool(cancelable), bool(stopping), last)
        for name, kind, member, cancelable, stopping, last in rows["units"]
    }
    devices = {number: Device(bool(online), volume, unit) for number, online, volume, unit in rows["devices"]}
    consoles = {
        name: Console(AUTHS[auth], MODES[mode], bool(online), user, bool(monitor))
        for name, auth, mode, online, user, monitor in rows["consoles"]
    }
    answered = [tuple(row[1:]) for row in by_number(rows["answered"])]
    log, messages = [text for _, text in by_number(rows["log"])], [row[1:] for row in by_number(rows["messages"])]
    halted = bool(rows["board"][0][0])
    return Board(units, devices, consoles, dict(rows["replies"]), answered, log, messages, halted)


def batches_of(rows: Rows) -> dict[int, list[files.Row]]:
    return {number: files.read(text.encode()) for number, text in rows["batches"]}


def is_valid(policy: Policy, board: Board) -> bool:
    """The invariants of the state, and that each name and text is one."""
    ids = {*policy.users, *policy.groups, "*"}
    return all((
        all(names.is_user(name) and is_digest(user.digest) for name, user in policy.users.items()),
        all(map(names.is_group, policy.groups)) and not policy.groups & set(policy.users),
        all(user in policy.users and group in policy.groups for user, group in policy.connects),
        all(is_profile(*key, profile, policy, ids) for key, profile in policy.profiles.items()),
        all(map(names.is_console, board.consoles)),
        all(console.user is None or console.user in policy.users for console in board.consoles.values()),
        all(is_unit(name, unit) for name, unit in board.units.items()),
        all(is_device(number, device, board) for number, device in board.devices.items()),
        all(0 <= id <= 99 and is_text(text) for id, text in board.replies.items()),
        all(0 <= id <= 99 and is_typed(text) for id, text in board.answered), all(map(is_typed, board.log)),
        all(names.is_user(user) and is_typed(text) for user, text in board.messages),
    ))


def is_digest(digest: str | None) -> bool:
    return digest is None or names.is_digest(digest)


def is_profile(of: str, name: str, profile: Profile, policy: Policy, ids: set[str]) -> bool:
    return (
        of in names.CLASSES and names.is_pattern(name) and profile.owner in policy.users
        and all(id in ids and (when is None or names.is_console(when)) for id, when in profile.entries)
    )


def is_unit(name: str, unit: Unit) -> bool:
    is_member = names.is_unit(unit.member or "") if unit.kind == "STC" else unit.member is None
    return names.is_unit(name) and is_member and (unit.last is None or is_typed(unit.last))


def is_device(number: str, device: Device, board: Board) -> bool:
    is_volume = device.volume is None or names.is_name(device.volume, 6)
    is_used = device.unit is None or device.online and device.unit in board.units
    return names.is_device(number) and is_volume and is_used


def is_typed(text: Any) -> bool:
    return isinstance(text, str) and TYPED.fullmatch(text) is not None


def is_text(text: Any) -> bool:
    """Whether something may have asked so, in UTF-8."""
    return isinstance(text, str) and text != "" and "\n" not in text and not SURROGATE.search(text)


def is_account(rows: list[tuple]) -> bool:
    return all(
        0 <= moment <= LATEST and (console == "*" or names.is_console(console)) and (user == "-" or names.is_user(user))
        and code in {*NAMES, "WARN"} and re.fullmatch(rules.RULE, rule)
        for moment, console, user, code, rule in rows
    )
