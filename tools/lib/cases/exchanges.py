"""What the lines of a table ask over HTTP."""
import csv
from typing import NamedTuple

from lib import clients, requests
from lib.escapes import unescaped
from lib.places import WIDE_HEADER


class Row(NamedTuple):
    """A row of a policy file."""
    kind: str
    of: str
    name: str
    id: str
    value: str
    owner: str
    flags: str
    digest: str
    when: str
    restricted: str


class Exchange(NamedTuple):
    """A request with its moment."""
    moment: str
    data: bytes
    closes: bool  # whether the client closes its side after it
    is_raw: bool  # whether the line has the request as it is sent, and wants the response as it comes


def user(row: Row) -> dict[str, object]:
    return {
        "id": row.name, "special": "S" in row.flags, "auditor": "A" in row.flags, "digest": row.digest or None,
        "restricted": row.restricted == "Y",
    }


def connect(row: Row) -> dict[str, object]:
    return {"user": row.name, "group": row.id}


def profile(row: Row) -> dict[str, object]:
    return {"class": row.of, "pattern": row.name, "owner": row.owner, "uacc": row.value, "warning": row.flags == "W"}


def entry(row: Row) -> dict[str, object]:
    return {"class": row.of, "pattern": row.name, "id": row.id, "when": row.when or None}


# the keys of an operation, by the row that it makes or takes away
KEYS = {
    "AddUser": user,
    "AltUser": lambda row: {**user(row), "revoked": "R" in row.flags},
    "AddGroup": lambda row: {"name": row.name},
    "Connect": connect,
    "Remove": connect,
    "RDefine": profile,
    "RAlter": profile,
    "Permit": lambda row: {**entry(row), "level": row.value},
    "PermitDelete": entry,
    "ClassActive": lambda row: {"class": row.of, "active": row.value == "ACTIVE"},
    "DefineConsole": lambda row: {"name": row.name, "auth": row.value, "mode": row.flags},
}


def operation(console: str, words: str) -> requests.Step:
    op, _, words = words.partition(" ")
    if op == "DelUser":
        return requests.operation(console, None, op, id=words)
    if op == "RDelete":
        of, pattern = words.split(" ")
        return requests.delete(console, pattern, None, of)
    return requests.operation(console, None, op, **KEYS[op](Row(*next(csv.reader([words])))))


def account(console: str, words: str) -> requests.Step:
    return requests.account(console, *words.split(" "), None)


def batch(console: str, words: str) -> requests.Step:
    number, _, records = words.partition(" ")
    return requests.imported(console, number, records.split(";"), None, WIDE_HEADER)


KINDS = {
    "ADMIN": operation,
    "PROFILES": lambda console, of: requests.profiles(console, of, None),
    "ACCOUNT": account,
    "IMPORT": batch,
}


def posted(text: str) -> bytes:
    path, _, body = text.partition(" ")
    data = unescaped(body)
    return f"POST {path} HTTP/1.1\r\nContent-Length: {len(data)}\r\n\r\n".encode() + data


def gotten(path: str) -> bytes:
    return f"GET {path} HTTP/1.1\r\n\r\n".encode()


RAW = {"POST": posted, "GET": gotten, "BYTES": unescaped}


def exchange_of(line: str) -> Exchange:
    """What a line asks."""
    moment, word, text = line.split(" ", 2)
    if word in RAW:
        return Exchange(moment, RAW[word](text), closes=word == "BYTES", is_raw=True)
    kind, _, words = text.partition(" ")
    step = KINDS[kind](word, words) if kind in KINDS else requests.command(word, text, None)
    return Exchange(
        moment, clients.head(step.method, step.path, step.body) + (step.body or b""), closes=False, is_raw=False
    )
