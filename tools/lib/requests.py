"""Requests by their path and body, each with the response that is wanted."""
import json
from typing import NamedTuple

from lib.places import HEADER
from . import answers

DIGEST = "b5d4045c3f466fa91fe2cc6abe79232a1a57cdf104f7a26e716e0a1e2789df78"  # of ABC


class Step(NamedTuple):
    method: str
    path: str
    body: bytes | None
    wanted: bytes


def command(console: str, text: str, wanted: bytes | None) -> Step:
    return Step("POST", f"/consoles/{console}/command", json.dumps({"text": text}).encode(), wanted)


def logon(console: str, user: str) -> Step:
    """A logon that no profile decides."""
    return command(console, f"LOGON {user},ABC", answers.done(rule="NOPROFILE"))


def operation(console: str, wanted: bytes | None, op: str, **keys: object) -> Step:
    return Step("POST", f"/consoles/{console}/admin", json.dumps({"op": op, **keys}).encode(), wanted)


def imported(console: str, batch: int | str, rows: list[str], wanted: bytes | None, header: str = HEADER) -> Step:
    data = "".join(f"{line}\n" for line in [header, *rows])
    return Step("POST", f"/consoles/{console}/import/{batch}", data.encode(), wanted)


def profiles(console: str, of: str, wanted: bytes | None) -> Step:
    return Step("GET", f"/consoles/{console}/profiles/{of}", None, wanted)


def account(console: str, first: int | str, count: int | str, wanted: bytes | None) -> Step:
    """A listing of the account; in what is wanted each moment is MOMENT."""
    return Step("GET", f"/consoles/{console}/account/{first}/{count}", None, wanted)


# A moment has as many digits as this from 2001 to 2286.
MOMENT = "0000000000"


def add_user(
    console: str, user: str, wanted: bytes | None, special: bool = False, auditor: bool = False,
    digest: str | None = DIGEST, restricted: bool = False,
) -> Step:
    return operation(
        console, wanted, "AddUser", id=user, special=special, auditor=auditor, digest=digest, restricted=restricted
    )


def alt_user(
    console: str, user: str, wanted: bytes | None, special: bool = False, auditor: bool = False, revoked: bool = False,
    digest: str | None = DIGEST, restricted: bool = False,
) -> Step:
    keys = {
        "id": user, "special": special, "auditor": auditor, "revoked": revoked, "digest": digest,
        "restricted": restricted,
    }
    return operation(console, wanted, "AltUser", **keys)


def permit(
    console: str, pattern: str, to: str, level: str, wanted: bytes | None, when: str | None = None, of: str = "OPERCMDS"
) -> Step:
    keys = {"class": of, "pattern": pattern, "id": to, "level": level, "when": when}
    return operation(console, wanted, "Permit", **keys)


def permit_delete(
    console: str, pattern: str, to: str, wanted: bytes | None, when: str | None = None, of: str = "OPERCMDS"
) -> Step:
    return operation(console, wanted, "PermitDelete", **{"class": of, "pattern": pattern, "id": to, "when": when})


def define(
    console: str, pattern: str, wanted: bytes | None, op: str = "RDefine", owner: str = "SECADM", uacc: str = "NONE",
    warning: bool = False, of: str = "OPERCMDS",
) -> Step:
    """RDefine, or RAlter."""
    return operation(
        console, wanted, op, **{"class": of, "pattern": pattern, "owner": owner, "uacc": uacc, "warning": warning}
    )


def delete(console: str, pattern: str, wanted: bytes | None, of: str = "OPERCMDS") -> Step:
    return operation(console, wanted, "RDelete", **{"class": of, "pattern": pattern})


def class_active(console: str, of: str, active: bool, wanted: bytes | None) -> Step:
    return operation(console, wanted, "ClassActive", **{"class": of, "active": active})


def define_console(console: str, name: str, auth: str, mode: str, wanted: bytes | None) -> Step:
    return operation(console, wanted, "DefineConsole", name=name, auth=auth, mode=mode)
