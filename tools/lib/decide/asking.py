"""`opcmds decide` over a policy file, questions to it, and the bytes of its responses."""
import json
import os
from typing import Any

from lib import clients
from lib.model import exchange, point
from lib.places import POLICY, built
from lib.service import Service

DIGITS = "fd88456763169163"  # of the SHA-256 of the base policy


class Point(Service):
    """The program from its start to its end."""

    def words(self, file: str, *words: str) -> list[str]:
        return [built(), "decide", "--policy", file, *words]


def base_policy() -> bytes:
    with open(POLICY, "rb") as file:
        return file.read()


def put(path: str, data: bytes) -> str:
    """Puts a file into the place of what is there, as `serve --policies` does."""
    with open(f"{path}.new", "wb") as file:
        file.write(data)
    os.replace(f"{path}.new", path)
    return path


def user(id: str) -> dict[str, str]:
    return {"type": "user", "id": id}


def console(id: str) -> dict[str, str]:
    return {"type": "console", "id": id}


def entering(by: dict[str, str], command: str, **context: str) -> dict[str, Any]:
    """The question whether a command may be entered."""
    found = {"subject": by, "action": {"name": "enter"}, "resource": {"type": "command", "id": command}}
    return found | ({"context": context} if context else {})


def having(by: dict[str, str], level: str, of: str, resource: str, **context: str) -> dict[str, Any]:
    found = {"subject": by, "action": {"name": level}, "resource": {"type": of, "id": resource}}
    return found | ({"context": context} if context else {})


def answer(verdict: str, rule: str | None, policy: str = DIGITS) -> dict[str, Any]:
    """The answer to a question."""
    said = {"policy": policy, "rule": rule, "verdict": verdict}
    return {"context": said, "decision": verdict in ("ALLOWED", "WARNED")}


def fault(message: str) -> dict[str, Any]:
    """The answer to an element that asks no question."""
    return {"context": {"error": {"message": message, "status": 400}}, "decision": False}


def results(*found: dict[str, str], next: str = "", total: int | None = None) -> dict[str, Any]:
    """The answer to a search."""
    page = {"count": len(found), "next_token": next, "total": len(found) if total is None else total}
    return {"page": page, "results": list(found)}


def response(value: object, status: int = 200, *more: str) -> bytes:
    return exchange.response(status, value, more=more)


NO_POLICY = response("no policy", 500)


def bytes_of(body: object) -> bytes:
    return body if isinstance(body, bytes) else json.dumps(body).encode()


def asked(place: int | str, kind: str, body: object, *fields: str) -> bytes:
    """The response to a body, by a socket."""
    data = bytes_of(body)
    return clients.sent(place, clients.head("POST", point.PATHS[kind], data, fields) + data)


# a question of the base policy, with its answer before and after the day's rows
CARL = entering(user("CARL"), "C BACKUP", console="C1")
CARL_DENIED = response(answer("DENIED", "PROFILE OPERCMDS MVS.CANCEL.JOB.* HELD NONE NEEDED UPDATE"))
