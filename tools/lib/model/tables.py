"""The rows that tables of a file have to have for a state, and those that a file has."""
import os
import shutil
import sqlite3
from typing import Iterable

from . import files, names
from .machine import State
from .policy import Profile, User

VERSION = 3
AUTHS = {"INFO": 0, "ALL": 1, "MASTER": 2}
# the columns of each table, in the order in which its rows are compared
COLUMNS = {
    "meta": "version", "classes": "class, active", "usr": "id, special, auditor, revoked, digest, restricted",
    "grp": "name", "connects": "usr, grp",
    "profiles": "class, pattern, owner, uacc, warning, skey, head",
    "entries": "class, pattern, id, console, level",
    "consoles": "name, auth, mode, online, usr, monitor", "units": "*", "devices": "number, online, volume, unit",
    "replies": "id, text", "answered": "number, id, text", "log": "number, text", "messages": "*", "board": "halted",
    "account": "number, moment, console, usr, code, rule", "batches": "*",
}


def auth_number(auth: str) -> int:
    parts = {"SYS": 1, "IO": 2, "CONS": 4}
    return AUTHS[auth] if auth in AUTHS else 8 + sum(parts[part] for part in auth.split(","))


def user_row(name: str, user: User) -> tuple:
    digest = user.digest and bytes.fromhex(user.digest)
    return name, int(user.special), int(user.auditor), int(user.revoked), digest, int(user.restricted)


def profile_row(of: str, name: str, profile: Profile) -> tuple:
    level, warning = names.LEVELS.index(profile.uacc), int(profile.warning)
    return of, name, profile.owner, level, warning, names.sort_key(name), names.head(name)


def of_state(state: State) -> dict[str, Iterable[tuple]]:
    """The rows of each table."""
    policy, board = state.policy, state.board
    return {
        "meta": {(VERSION,)},
        "classes": {(of, int(of in policy.active)) for of in names.CLASSES},
        "usr": {user_row(name, user) for name, user in policy.users.items()},
        "grp": {(name,) for name in policy.groups},
        "connects": policy.connects,
        "profiles": {profile_row(of, name, profile) for (of, name), profile in policy.profiles.items()},
        "entries": {
            (of, name, id, when or "", names.LEVELS.index(level))
            for (of, name), profile in policy.profiles.items()
            for (id, when), level in profile.entries.items()
        },
        "consoles": {
            (name, auth_number(console.auth), console.mode[0], int(console.online), console.user, int(console.monitor))
            for name, console in board.consoles.items()
        },
        "units": {
            (name, unit.kind[0], unit.member, int(unit.cancelable), int(unit.stopping), unit.last)
            for name, unit in board.units.items()
        },
        "devices": {
            (number, int(device.online), device.volume, device.unit) for number, device in board.devices.items()
        },
        "replies": set(board.replies.items()),
        "answered": {(number, *answer) for number, answer in enumerate(board.answered, 1)},
        "log": set(enumerate(board.log, 1)),
        "messages": {(number, *message) for number, message in enumerate(board.messages, 1)},
        "board": {(int(board.halted),)},
        "account": {(number, *row) for number, row in enumerate(state.account, 1)},
        "batches": {(number, files.write(rows)) for number, rows in state.batches.items()},
    }


def of_file(file: str, room: str) -> dict[str, Iterable[tuple]]:
    """The rows of each table, read from a copy of the file and of its log."""
    for part in ("", "-wal"):
        if os.path.exists(f"{file}{part}"):
            shutil.copy(f"{file}{part}", f"{room}/copy{part}")
    base = sqlite3.connect(f"{room}/copy")
    try:
        found = {table: base.execute(f"SELECT {columns} FROM {table}").fetchall() for table, columns in COLUMNS.items()}
    finally:
        base.close()
        for left in ("copy", "copy-wal", "copy-shm"):
            if os.path.exists(f"{room}/{left}"):
                os.remove(f"{room}/{left}")
    return found


def printed(rows: dict[str, Iterable[tuple]]) -> dict[str, str]:
    """Each table as a text in which two equal rows stand twice."""
    return {table: "\n".join(sorted(map(repr, table_rows))) for table, table_rows in rows.items()}
