"""What is around a body: routes and methods, the id of a request, and what a strict service takes."""
from lib import clients
from lib.answers import unread
from lib.model import point
from lib.model.exchange import Sent
from lib.serve.pages import REFUSED
from lib.tally import Tally
from .asking import Point, answer, asked, base_policy, bytes_of, entering, put, response
from .limits import ALLOWED, GOOD, TEXT
from .worked import ANNA

IDS = ("1", "!", "~", "bfe9eb29-ab87-4ca3-be83-a1d5d8305716", "x" * 128, '"\\{}', "a=b;c=d,e")
NO_IDS = ("", "x" * 129, "a b", "a\tb", "\u00e9", "a\x7f")
OTHER_PATHS = (
    "/", "/access/v1/evaluation/", "/access/v1/evaluation?a=b", "/access/v1/evaluation?", "/Access/v1/evaluation",
    "//access/v1/evaluation", "/access/v1/./evaluation", "/access/v1/%65valuation", "/access/v1", "/access/v1/search",
    "/access/v1/search/subject/", "/access/v1/search/context", "/access/v2/evaluation", "/consoles/C1/command",
    "/consoles/C1/account/1/1", "/.well-known", "/.well-known/authzen-configuration/",
    "/.well-known/openid-configuration", "http://room/access/v1/evaluation", "*",
)
METHODS = ("GET", "HEAD", "PUT", "DELETE", "OPTIONS", "PATCH", "post")


def told(wanted: bytes, id: str) -> bytes:
    """The same response with an id."""
    return wanted.replace(b"Connection: close", f"X-Request-ID: {id}\r\nConnection: close".encode(), 1)


def head(path: str, *fields: str, method: str = "POST", body: bytes | None = TEXT) -> bytes:
    return clients.head(method, path, body, fields) + (body or b"")


def routes(tally: Tally, place: int) -> None:
    for path in OTHER_PATHS:
        tally.equal(f"the target {path}", clients.sent(place, head(path)), unread(404))
        found = clients.sent(place, head(path, "X-Request-ID: 7"))
        tally.equal(f"the target {path}, with an id", found, told(unread(404), "7"))
    for path in point.PATHS.values():
        for method in METHODS:
            tally.equal(f"{method} {path}", clients.sent(place, head(path, method=method)), unread(405, "POST"))
    found = clients.sent(place, head(point.CONFIGURATION, "X-Request-ID: 7"))
    tally.equal("POST of the configuration", found, told(unread(405, "GET"), "7"))
    path = point.PATHS["evaluation"]
    for title, data in {
        "chunks": head(path, "Transfer-Encoding: chunked"), "two lengths": head(path, "Content-Length: 7"),
        "a length that is none": head(path, "Content-Length: +7", body=None), "no head": b"what?\r\n\r\n",
        "a body that is cut": head(path)[:-1], "a head that is cut": head(path)[:40],
    }.items():
        tally.equal(title, clients.sent(place, data, closes=True), unread(400))
    cut = head(path, "X-Request-ID: 7")[:-1]
    tally.equal("a body that is cut, with an id", clients.sent(place, cut, closes=True), told(unread(400), "7"))
    tally.equal("no length", clients.sent(place, head(path, body=None)), response("the body is no JSON", 400))
    tally.equal("more after the body", clients.sent(place, head(path) + b"x" * 100_000), ALLOWED)


def ids(tally: Tally, place: int) -> None:
    for id in IDS:
        for name in ("X-Request-ID", "x-request-id"):
            tally.equal(f"{name} {id}", asked(place, "evaluation", GOOD, f"{name}: {id}"), told(ALLOWED, id))
        found = asked(place, "evaluation", GOOD, f"X-Request-ID: \t{id}  ")
        tally.equal(f"the id {id} between spaces", found, told(ALLOWED, id))
    for id in NO_IDS:
        wanted = unread(400) if "\x7f" in id else ALLOWED
        tally.equal(f"no id {id!r}", asked(place, "evaluation", GOOD, f"X-Request-ID: {id}"), wanted)
    for pair in (("7", "7"), ("7", "8"), ("7", "")):
        fields = [f"X-Request-ID: {id}" for id in pair]
        tally.equal(f"two ids {pair}", asked(place, "evaluation", GOOD, *fields), ALLOWED)
    wanted = told(response("the body is no JSON", 400), "7")
    tally.equal("the id of a bad body", asked(place, "evaluation", b"{", "X-Request-ID: 7"), wanted)
    large = clients.head("POST", point.PATHS["evaluation"], None, ["X-Request-ID: 7", "Content-Length: 65537"])
    tally.equal("the id of a long body", clients.sent(place, large), told(unread(413), "7"))


def strict(tally: Tally, path: str) -> None:
    """What a page can send is refused, with its id; the rest is as ever."""
    with Point(path, "--strict") as service:
        for host in (f"127.0.0.1:{service.port}", f"localhost:{service.port}"):
            data = head(point.PATHS["evaluation"]).replace(b"Host: room", f"Host: {host}".encode())
            tally.equal(f"strict: {host}", clients.sent(service.port, data), ALLOWED)
        for title, fields in REFUSED.items():
            named = [field.replace("PORT", str(service.port)) for field in (*fields, "X-Request-ID: 7")]
            data = head(point.PATHS["evaluation"], *named).replace(b"Host: room\r\n", b"")
            tally.equal(f"strict: a request {title}", clients.sent(service.port, data), told(unread(403), "7"))
        data = head("/nowhere", "Origin: null", method="PUT")
        tally.equal("strict: a page's request to no route", clients.sent(service.port, data), unread(403))
        for name, ask in clients.CLIENTS.items():
            if ask is not clients.by_socket:  # (which names another host)
                found = ask(service.port, "GET", point.CONFIGURATION)
                tally.equal(f"strict: {name}", found, configuration(point.local_base(service.port)))


def configuration(base: str) -> bytes:
    return point.exchanged(None, base, Sent("GET", point.CONFIGURATION))[0]


def bases(tally: Tally, room: str, path: str) -> None:
    """The URLs begin with what is given, or with where the service listens."""
    with Point(path) as service:
        found = clients.by_socket(service.port, "GET", point.CONFIGURATION)
        tally.equal("where questions are asked, at a port", found, configuration(f"http://127.0.0.1:{service.port}"))
        found = clients.sent(service.port, head(point.CONFIGURATION, "X-Request-ID: 7", method="GET"))
        tally.equal("the same, with a body and an id", found, told(configuration(point.local_base(service.port)), "7"))
    with Point(path, socket=f"{room}/base.sock") as service:
        found = clients.by_socket(service.socket, "GET", point.CONFIGURATION)
        tally.equal("where questions are asked, at a socket", found, configuration(point.SOCKET_BASE))
    for base in ("https://gate.example", "https://gate.example:8443/opcmds", "x", "~" * 200):
        with Point(path, "--base", base) as service:
            found = clients.by_socket(service.port, "GET", point.CONFIGURATION)
            tally.equal(f"the base {base[:40]}", found, configuration(base))


def heads(tally: Tally, room: str) -> None:
    path = put(f"{room}/policy.csv", base_policy())
    with Point(path) as service:
        routes(tally, service.port)
        ids(tally, service.port)
        wanted = response(answer("ALLOWED", "GROUP INFO AUTH SYS"))
        found = asked(service.port, "evaluation", bytes_of(entering({"type": "console", "id": "C1"}, "D U")))
        tally.equal("a question after all that", found, wanted)
        found = asked(service.port, "evaluation", entering(ANNA, "C BACKUP"))
        tally.equal("a question of ANNA after that", found, ALLOWED)
    strict(tally, path)
    bases(tally, room, path)
