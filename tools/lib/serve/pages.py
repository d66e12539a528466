"""What a web page on the same computer can send: a strict service does nothing of it, and another does all of it."""
import contextlib
import json
import shutil
import socket
from typing import Iterator

from lib import clients, requests, stored
from lib.answers import done, unread
from lib.service import Service
from lib.tally import Tally

COMMAND = "/consoles/C2/command"
DISPLAY = b'{"text":"D U"}'
DEVICES = done("0A80 ONLINE  ------ -", rule="GROUP INFO AUTH MASTER")
FORBIDDEN = unread(403)

# Fields of a head, where PORT stands for the port that is served.
TAKEN = {
    "by its address": ("Host: 127.0.0.1:PORT",),
    "by its name": ("Host: localhost:PORT",),
    "in other letters": ("hOST: \t LOCALHOST:PORT ",),
    "with fields of other names": (
        "Host: 127.0.0.1:PORT", "Referer: http://evil.example/", "X-Origin: null", "Sec-Fetch-Mode: cors", "Origins: x",
    ),
}
REFUSED = {
    "of another origin": ("Host: 127.0.0.1:PORT", "Origin: https://evil.example"),
    "of no origin": ("origin: null", "Host: 127.0.0.1:PORT"),
    "of its own origin": ("Host: 127.0.0.1:PORT", "ORIGIN: http://127.0.0.1:PORT"),
    "of an empty origin": ("Origin:", "Host: 127.0.0.1:PORT"),
    "of two origins": ("Origin: null", "Origin: null", "Host: 127.0.0.1:PORT"),
    "from another site": ("Host: localhost:PORT", "Sec-Fetch-Site: cross-site"),
    "from the same site": ("sec-fetch-site: same-origin", "Host: localhost:PORT"),
    "from an address that was typed": ("Host: localhost:PORT", "SEC-Fetch-Site: none"),
    "to a host of its own": ("Host: evil.example:PORT",),
    "to another host of this computer": ("Host: 127.0.0.2:PORT",),
    "to the address of version 6": ("Host: [::1]:PORT",),
    "to no host": (),
    "to an empty host": ("Host:",),
    "to no port": ("Host: 127.0.0.1",),
    "to an empty port": ("Host: localhost:",),
    "to a longer port": ("Host: 127.0.0.1:PORT0",),
    "to a port with a zero before it": ("Host: 127.0.0.1:0PORT",),
    "to port 80": ("Host: 127.0.0.1:80",),
    "to one host twice": ("Host: localhost:PORT", "Host: localhost:PORT"),
    "to its host and another": ("Host: localhost:PORT", "host: evil.example"),
    "to two hosts at once": ("Host: localhost:PORT, evil.example",),
}
# Heads whose target, method or length is wrong, too: with a field Origin they are forbidden all the same.
WRONG = {
    "to no route": ("POST", "/consoles/C2", 404, None),
    "with a query": ("POST", f"{COMMAND}?a=b", 404, None),
    "by another method": ("OPTIONS", COMMAND, 405, "POST"),
    "to an invalid console": ("POST", "/consoles/c2/command", 400, None),
}
# What a plain form of text sends as its body: of a key that stands twice the last one counts.
USER = {"op": "AddUser", "id": "EVIL", "special": True, "auditor": False, "digest": None, "restricted": False}
FORM = b'{"op":"=",' + json.dumps(USER).encode()[1:] + b"\r\n"


def asked(service: Service, fields: tuple[str, ...], method: str = "POST", path: str = COMMAND) -> bytes:
    """The response to a display with these fields."""
    lines = [f"{method} {path} HTTP/1.1", *fields, f"Content-Length: {len(DISPLAY)}", "", ""]
    return clients.sent(service.port, "\r\n".join(lines).replace("PORT", str(service.port)).encode() + DISPLAY)


def form(service: Service) -> bytes:
    """The response to the form of a page at the console where SECADM is on."""
    fields = ["Origin: https://evil.example", "Sec-Fetch-Site: cross-site", "Content-Type: text/plain"]
    return clients.sent(service.port, clients.head("POST", "/consoles/C2/admin", FORM, fields) + FORM)


@contextlib.contextmanager
def served(tally: Tally, title: str, file: str, *words: str, port: int = 0) -> Iterator[Service]:
    """A service, of which nothing is kept but what it answered with status 200."""
    with Service(file, *words, port=port) as service:
        yield service
    tally.equal(f"{title}: the account", stored.account(file), [])


def strict(tally: Tally, file: str) -> None:
    with served(tally, "strict", file, "--strict") as service:
        for title, fields in TAKEN.items():
            tally.equal(f"strict: a request {title}", asked(service, fields), DEVICES)
        for title, ask in clients.CLIENTS.items():
            if ask is not clients.by_socket:  # (which names another host)
                tally.equal(f"strict: a request by {title}", ask(service.port, "POST", COMMAND, DISPLAY), DEVICES)
        for title, fields in REFUSED.items():
            tally.equal(f"strict: a request {title}", asked(service, fields), FORBIDDEN)
        for title, (method, path, _, _) in WRONG.items():
            found = asked(service, ("Host: 127.0.0.1:PORT", "Origin: null"), method, path)
            tally.equal(f"strict: a page's request {title}", found, FORBIDDEN)
        tally.equal("strict: no head", clients.sent(service.port, b"Origin: null\r\n\r\n"), unread(400))
        large = clients.head("POST", COMMAND, None, ["Origin: null", "Content-Length: 65537"])
        tally.equal("strict: a page's request with a long body", clients.sent(service.port, large), FORBIDDEN)
        logon = json.dumps({"text": "LOGON SECADM,ABC"}).encode()
        found = clients.by_curl(service.port, "POST", COMMAND, logon)
        tally.equal("strict: a logon", found, done(rule="NOPROFILE"))
        tally.equal("strict: the form of a page", form(service), FORBIDDEN)
    tally.equal("strict: the user of the form", stored.rows(file, "SELECT id FROM usr WHERE id = 'EVIL'"), [])


def not_strict(tally: Tally, file: str) -> None:
    """The same requests where other fields are ignored; SECADM is still on."""
    with served(tally, "not strict", file) as service:
        for title, fields in (TAKEN | REFUSED).items():
            found = asked(service, fields)
            tally.wants(f"a request {title}", found.startswith(b"HTTP/1.1 200 ") and b"0A80 ONLINE" in found, found)
        for title, (method, path, status, allow) in WRONG.items():
            found = asked(service, ("Host: 127.0.0.1:PORT", "Origin: null"), method, path)
            tally.equal(f"a page's request {title}", found, unread(status, allow))
        tally.equal("the form of a page", form(service), done())
    tally.equal("the user of the form", stored.rows(file, "SELECT id FROM usr WHERE id = 'EVIL'"), ["EVIL"])


def is_free(port: int) -> bool:
    """Whether we may listen at a port, and nobody does."""
    try:
        with socket.create_server((clients.HOST, port)):
            return True
    except OSError:
        return False


def at_port_80(tally: Tally, file: str) -> None:
    """At the port of HTTP a host may stand without it. Only where the system lets us have that port."""
    if not is_free(80):
        return
    with served(tally, "port 80", file, "--strict", port=80) as service:
        for host in ("127.0.0.1", "localhost", "127.0.0.1:80", "LocalHost:80"):
            tally.equal(f"port 80: the host {host}", asked(service, (f"Host: {host}",)), DEVICES)
        for host in ("evil.example", "localhost:", "localhost.", "127.0.0.1:8011"):
            tally.equal(f"port 80: the host {host}", asked(service, (f"Host: {host}",)), FORBIDDEN)


def pages(tally: Tally, room: str, base: str) -> None:
    alone, file = f"{room}/alone", f"{room}/pages"
    shutil.copy(base, alone)
    at_port_80(tally, alone)
    shutil.copy(base, file)
    strict(tally, file)
    not_strict(tally, file)
