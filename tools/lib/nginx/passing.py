"""What nginx passes on, and what it refuses before anything is passed on."""
import re
import socket
import ssl
import time

from lib.clients import HOST, taken
from lib.tally import Tally
from .front import NAME, WITHOUT_CONSOLE, Answer, Front, head
from .upstream import Upstream

COMMAND = b'{"text":"D U"}'
LARGEST = 64 << 10
ROUTES = (
    ("POST", "/command", COMMAND),
    ("POST", "/admin", b'{"op":"AddGroup","name":"DAY"}'),
    ("POST", "/import/7", b"kind\n"),
    ("GET", "/profiles/OPERCMDS", None),
    ("GET", "/account/1/10", None),
)
OTHER_PATHS = (
    "/", "/consoles/ANNA/command", "/consoles/C2/command", "//consoles/C2/command", "/./consoles/C2/command",
    "/Command", "/command/", "/command/x", "/commands", "/admin2", "/import/", "/import/7/8", "/import/x",
    "/profiles/opercmds", "/account/1", "/account/1/10/", "/account/-1/10", "/import/7%2f..%2f..%2fC2%2fcommand",
)
ABOVE_THE_TOP = ("/../command", "/..%2fconsoles/C2/command", "/command%2f..%2f..%2fC2%2fcommand")
FROM_PAGES = (
    "Origin: https://elsewhere.example", f"Origin: https://{NAME}", "Origin: null", "Sec-Fetch-Site: cross-site",
    "Sec-Fetch-Site: same-origin", "Sec-Fetch-Site: none",
)


class Passing:
    """The checks, with the program's place taken by a listener that keeps what it is sent."""

    def __init__(self, front: Front, upstream: Upstream, tally: Tally) -> None:
        self.front, self.upstream, self.tally = front, upstream, tally

    def all(self) -> None:
        for checks in (
            self.routes, self.head, self.logins, self.paths, self.pages, self.names, self.sizes, self.chunks,
            self.once, self.slow, self.plain, self.flood,
        ):
            checks()

    def refused(self, title: str, answer: Answer, status: int) -> None:
        """nginx itself gives this status, and passes nothing on."""
        self.tally.equal(title, (answer.status, self.upstream.took()), (status, []))

    def passed(self, title: str, answer: Answer, method: str, path: str, body: bytes) -> None:
        """One request is passed on, with this path and body."""
        took = self.upstream.took()
        line, given = (took[0].split(b"\r\n")[0], took[0].partition(b"\r\n\r\n")[2]) if len(took) == 1 else (b"", b"")
        wanted = (200, 1, f"{method} {path} HTTP/1.0".encode(), body)
        self.tally.equal(title, (answer.status, len(took), line, given), wanted)

    def routes(self) -> None:
        for method, path, body in ROUTES:
            for login, console in (("anna", "ANNA"), ("secadm", "SECADM")):
                answer = self.front.asked(method, path, body, login)
                self.passed(f"{login}: {method} {path}", answer, method, f"/consoles/{console}{path}", body or b"")

    def head(self) -> None:
        """Of the client's fields none is passed on, its password among them, and so their number does not matter."""
        answer = self.front.asked("POST", "/command", COMMAND, fields=tuple(f"X-{at}: {at}" for at in range(60)))
        took = self.upstream.took()
        fields = {line.split(b":")[0].lower() for line in took[0].split(b"\r\n\r\n")[0].split(b"\r\n")[1:]}
        wanted = {b"host", b"connection", b"content-length"}
        self.tally.equal("the fields that are passed on", (answer.status, len(took), fields), (200, 1, wanted))

    def logins(self) -> None:
        answer = self.front.asked("POST", "/command", COMMAND, None)
        self.tally.wants("nobody: a password is asked for", "WWW-Authenticate: Basic" in answer.head, answer.head)
        self.refused("nobody", answer, 401)
        wrong = self.front.asked("POST", "/command", COMMAND, "anna:wrong")
        self.refused("a wrong password", wrong, 401)
        unknown = self.front.asked("POST", "/command", COMMAND, "dora:wrong")
        self.refused("an unknown login", unknown, 401)
        guest = self.front.asked("POST", "/command", COMMAND, "guest:wrong")
        self.refused("a wrong password of a login without a console", guest, 401)
        alike = {without_date(answer) for answer in (wrong, unknown, guest)}
        self.tally.equal("wrong passwords and unknown logins get one answer", len(alike), 1)
        for login in WITHOUT_CONSOLE:
            answer = self.front.asked("POST", "/command", COMMAND, login)
            # (which the program answers 404, as tools/nginx port shows)
            self.passed(f"{login}: a login without a console", answer, "POST", "/consoles//command", COMMAND)

    def paths(self) -> None:
        for path in OTHER_PATHS:
            self.refused(f"POST {path}", self.front.asked("POST", path, COMMAND), 404)
        self.refused("a query", self.front.asked("POST", "/command?console=C2", COMMAND), 404)
        for path in ABOVE_THE_TOP:
            self.refused(f"POST {path}", self.front.asked("POST", path, COMMAND), 400)

    def pages(self) -> None:
        for field in FROM_PAGES:
            for login in ("anna", None):
                answer = self.front.asked("POST", "/command", COMMAND, login, (field,))
                self.refused(f"{field}, {login or 'nobody'}", answer, 403)

    def names(self) -> None:
        for host in ("elsewhere.example", "127.0.0.1", f"{HOST}:{self.front.port}"):
            self.refused(f"the name {host}", self.front.asked("POST", "/command", COMMAND, host=host), 421)

    def sizes(self) -> None:
        body = b"x" * LARGEST
        self.passed("the largest body", self.front.asked("POST", "/admin", body), "POST", "/consoles/ANNA/admin", body)
        self.refused("a body that is larger by one", self.front.asked("POST", "/admin", body + b"x"), 413)

    def chunks(self) -> None:
        """A body in chunks is passed on with its length."""
        data = head("POST", "/command", None, "anna", ("Transfer-Encoding: chunked",))
        answer = self.front.sent(data + b"5\r\n" + COMMAND[:5] + b"\r\n9\r\n" + COMMAND[5:] + b"\r\n0\r\n\r\n")
        self.passed("a body in chunks", answer, "POST", "/consoles/ANNA/command", COMMAND)

    def once(self) -> None:
        """A command that gets no answer may have been done, so it is not sent again."""
        answer, self.upstream.answer = self.upstream.answer, b""
        found = self.front.asked("POST", "/command", COMMAND)
        self.tally.equal("no answer: sent once", (found.status, len(self.upstream.took())), (502, 1))
        self.upstream.answer = answer

    def slow(self) -> None:
        """A client that stops in the middle of its body keeps nobody waiting."""
        with self.front.connected() as link:
            link.sendall(head("POST", "/command", COMMAND, "anna") + COMMAND[:5])
            time.sleep(0.3)
            self.tally.equal("half a body: nothing is passed on", self.upstream.took(), [])
            answer = self.front.asked("POST", "/command", COMMAND, "carl")
            self.passed("another client meanwhile", answer, "POST", "/consoles/CARL/command", COMMAND)

    def plain(self) -> None:
        """Without TLS, or with an old one, nothing is passed on."""
        with socket.create_connection((HOST, self.front.port), 20) as link:
            link.sendall(head("POST", "/command", COMMAND, "anna") + COMMAND)
            first = link.recv(100).split(b"\r\n")[0]
        self.tally.equal("without TLS", (first, self.upstream.took()), (b"HTTP/1.1 400 Bad Request", []))
        context = ssl.create_default_context(cafile=f"{self.front.folder}/certificate.pem")
        context.set_ciphers("DEFAULT:@SECLEVEL=0")
        context.minimum_version = context.maximum_version = ssl.TLSVersion.TLSv1_1
        try:
            self.front.connected(context).close()
            self.tally.wants("TLS 1.1", False, "it is taken")
        except ssl.SSLError:
            self.tally.wants("TLS 1.1", not self.upstream.took())

    def flood(self) -> None:
        """Guesses, as fast as they can be sent. (That of a login that is unknown takes no time to be judged.)"""
        last = head("POST", "/command", b"", "dora:wrong")
        guess = last.replace(b"Connection: close\r\n", b"")
        with self.front.connected() as link:
            link.sendall(guess * 600 + last)
            statuses = set(re.findall(rb"HTTP/1.1 (\d+)", taken(link)))
        self.tally.equal("a flood of guesses", (statuses, self.upstream.took()), ({b"401", b"429"}, []))


def without_date(answer: Answer) -> str:
    return re.sub(r"(?m)^Date: .*$", "", answer.head) + answer.body.decode()
