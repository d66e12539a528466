"""Requests over HTTP: what one comes to, and the exact bytes of its response."""
import json
import re
from typing import Any, Callable, Iterable, NamedTuple

from . import counting, files, json_values, names, requests
from .faults import Fault
from .machine import State

MOST = 65_536  # bytes of a body
PHRASES = {
    200: "OK", 400: "Bad Request", 403: "Forbidden", 404: "Not Found", 405: "Method Not Allowed", 409: "Conflict",
    413: "Payload Too Large", 500: "Internal Server Error",
}
ROUTES = {
    "command": ("POST", "/consoles/([^/]+)/command"),
    "admin": ("POST", "/consoles/([^/]+)/admin"),
    "import": ("POST", "/consoles/([^/]+)/import/([^/]+)"),
    "profiles": ("GET", "/consoles/([^/]+)/profiles/([^/]+)"),
    "account": ("GET", "/consoles/([^/]+)/account/([^/]+)/([^/]+)"),
}


class Sent(NamedTuple):
    """What a client sends: the body may be longer or shorter than its length says, and the head may be cut."""
    method: str
    target: str
    body: bytes = b""
    fields: tuple = ()  # names and values
    version: str = "1.1"
    size: int | None = None  # of what is sent of the head, where it is cut

    def at(self, port: int) -> "Sent":
        """The same to a service at this port, whose number stands where PORT does in a value."""
        return self._replace(fields=tuple((name, value.replace("PORT", str(port))) for name, value in self.fields))

    def data(self) -> bytes:
        lines = [
            f"{self.method} {self.target} HTTP/{self.version}", *(f"{name}: {value}" for name, value in self.fields),
            "", "",
        ]
        head = "\r\n".join(lines).encode()
        return head + self.body if self.size is None else head[:self.size]


class Unread(Exception):
    """What is no valid request: its status, and the method that is allowed there."""

    def __init__(self, status: int, allow: str | None = None) -> None:
        super().__init__(status, allow)
        self.status, self.allow = status, allow


def wants_read(holds: object) -> None:
    if not holds:
        raise Unread(400)


def read(sent: Sent, strict: int | None = None) -> requests.Request:
    """The request that was sent; else Unread, or the fault of a policy file. A strict service is at this port."""
    wants_head(sent, strict)
    route, parts = routed(sent)
    body = body_of(sent)
    console = re.sub("%23|%24|%40", lambda escape: chr(int(escape[0][1:], 16)), parts[0])
    wants_read(names.is_console(console))
    if route == "command":
        found = read_json(body)
        wants_read(set(found) == {"text"} and isinstance(found["text"], str))
        return requests.Command(console, found["text"])
    if route == "admin":
        return read_operation(console, read_json(body))
    if route == "import":
        batch = number(parts[1], 9, 1, 999_999_999)
        return requests.Import(console, batch, files.read(text_of(body).encode()))
    if route == "profiles":
        wants_read(parts[1] in names.CLASSES)
        return requests.ListProfiles(console, parts[1])
    return requests.ListAccount(console, number(parts[1], 18, 0, 10 ** 18), number(parts[2], 4, 1, 1_000))


def wants_head(sent: Sent, strict: int | None) -> None:
    """Refuses an invalid head before all else, then what a strict service at this port does not take."""
    wants_read(
        sent.size is None and sent.version in ("1.0", "1.1") and all(
            character > " " and character != "\x7f" for character in sent.target
        )
    )
    if strict is not None and not is_local(sent.fields, strict):
        raise Unread(403)


def is_local(fields: Iterable[tuple[str, str]], port: int) -> bool:
    """Whether a head comes from no web page, by its fields, and is for a service at this port."""
    found = [(name.lower(), value.strip(" \t").lower()) for name, value in fields]
    hosts = [value for name, value in found if name == "host"]
    names = ("127.0.0.1", "localhost")
    served = {f"{name}:{port}" for name in names} | ({*names} if port == 80 else set())
    return len(hosts) == 1 and hosts[0] in served and not any(name in ("origin", "sec-fetch-site") for name, _ in found)


def routed(sent: Sent, routes: dict[str, tuple[str, str]] = ROUTES) -> tuple[str, tuple[str, ...]]:
    if "?" in sent.target or any(character > "~" for character in sent.target):
        raise Unread(404)
    for route, (method, expression) in routes.items():
        if found := re.fullmatch(expression, sent.target):
            if sent.method != method:
                raise Unread(405, method)
            return route, found.groups()
    raise Unread(404)


def body_of(sent: Sent) -> bytes:
    """As many bytes as the head says. Other fields than these two do not matter."""
    values = [value.strip(" \t") for name, value in sent.fields if name.lower() == "content-length"]
    wants_read(all(name.lower() != "transfer-encoding" for name, _ in sent.fields) and len(values) <= 1)
    wants_read(all(names.is_number(value, 9) for value in values))
    length = int(values[0]) if values else 0
    if length > MOST:
        raise Unread(413)
    wants_read(len(sent.body) >= length)
    return sent.body[:length]


def number(text: str, digits: int, least: int, most: int) -> int:
    wants_read(names.is_number(text, digits) and least <= int(text) <= most)
    return int(text)


def text_of(body: bytes) -> str:
    try:
        return body.decode()
    except UnicodeDecodeError:
        raise Unread(400) from None


def read_json(body: bytes) -> dict[str, Any]:
    try:
        found = json_values.read(body)
    except ValueError:  # (those of JSON and of UTF-8 are among these)
        raise Unread(400) from None
    wants_read(isinstance(found, dict))
    return found


def is_text(reads: Callable[[str], object]) -> Callable[[object], bool]:
    return lambda value: isinstance(value, str) and bool(reads(value))


IS_FLAG = lambda value: isinstance(value, bool)  # noqa: E731
IS_USER, IS_GROUP = is_text(names.is_user), is_text(names.is_group)
IS_CLASS, IS_PATTERN = is_text(lambda text: text in names.CLASSES), is_text(names.is_pattern)
IS_LEVEL, IS_ID = is_text(lambda text: text in names.LEVELS), is_text(lambda text: text == "*" or names.is_user(text))
IS_DIGEST = lambda value: value is None or is_text(names.is_digest)(value)  # noqa: E731
IS_WHEN = lambda value: value is None or is_text(names.is_console)(value)  # noqa: E731

USER = {"id": IS_USER, "special": IS_FLAG, "auditor": IS_FLAG, "digest": IS_DIGEST, "restricted": IS_FLAG}
PAIR = {"user": IS_USER, "group": IS_GROUP}
PROFILE = {"class": IS_CLASS, "pattern": IS_PATTERN}
WHOLE_PROFILE = {**PROFILE, "owner": IS_USER, "uacc": IS_LEVEL, "warning": IS_FLAG}
ENTRY = {**PROFILE, "id": IS_ID, "when": IS_WHEN}
KEYS = {
    "AddUser": USER, "AltUser": {**USER, "revoked": IS_FLAG}, "DelUser": {"id": IS_USER},
    "AddGroup": {"name": IS_GROUP}, "Connect": PAIR, "Remove": PAIR, "RDefine": WHOLE_PROFILE, "RAlter": WHOLE_PROFILE,
    "RDelete": PROFILE, "Permit": {**ENTRY, "level": IS_LEVEL}, "PermitDelete": ENTRY,
    "ClassActive": {"class": IS_CLASS, "active": IS_FLAG},
    "DefineConsole": {
        "name": is_text(names.is_console),
        "auth": is_text(names.read_auth),
        "mode": is_text(lambda text: text in names.MODES),
    },
}


def read_operation(console: str, found: dict[str, Any]) -> requests.Admin:
    op = found.pop("op", None)
    wants_read(isinstance(op, str) and op in KEYS and set(found) == set(KEYS[op]))
    wants_read(all(reads(found[key]) for key, reads in KEYS[op].items()))
    if op == "DefineConsole":
        found["auth"] = names.read_auth(found["auth"])
    return requests.Admin(console, op, found)


def response(status: int, body: object, allow: str | None = None, more: Iterable[str] = ()) -> bytes:
    """The bytes of a response, with its keys in order, and with further fields before the last."""
    text = json.dumps(body, separators=(",", ":"), ensure_ascii=False, sort_keys=True).encode()
    fields = [
        "Content-Type: application/json", f"Content-Length: {len(text)}", *([f"Allow: {allow}"] if allow else []),
        *more, "Connection: close",
    ]
    return "\r\n".join([f"HTTP/1.1 {status} {PHRASES[status]}", *fields, "", ""]).encode() + text


def refused(status: int, code: str, text: str, rule: str = "-", allow: str | None = None) -> bytes:
    return response(status, {"code": code, "rule": rule, "status": "refused", "text": text}, allow)


def status_of(code: str) -> int:
    number = int(code[1:])
    if number == 10:
        return 404
    if 11 <= number <= 21 or number in (50, 51):
        return 403
    return 400 if number <= 6 or number == 60 else 409


def exchange(state: State, moment: str, sent: Sent, strict: int | None = None) -> bytes:
    """The response to what was sent, also by a strict service at this port."""
    try:
        request = read(sent, strict)
    except Unread as unread:
        counting.met["HTTP", f"H{unread.status}"] += 1
        return refused(unread.status, f"H{unread.status}", PHRASES[unread.status], allow=unread.allow)
    except Fault as fault:
        counting.met["HTTP", f"{fault.code} {fault.text.split()[-1]}"] += 1
        return refused(status_of(fault.code), fault.code, fault.text)
    answer = state.handle(moment, request)
    if answer.code:
        return refused(status_of(answer.code), answer.code, answer.text, answer.rule)
    return response(200, {"lines": answer.lines, "rule": answer.rule, "status": "done"})
