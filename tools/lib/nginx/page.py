"""A page behind examples/nginx-decide.conf: who sees it is what the policy decides; if anything goes wrong, nobody
does."""
import os
import re

from lib.decide.asking import Point, base_policy, put, response, results
from lib.tally import Tally
from . import front
from .front import PAGE, WITHOUT_CONSOLE, Front
from .upstream import Upstream

TEXT = b"the page"
QUESTION = b'{"subject":{"type":"user","id":"%s"},"resource":{"type":"command","id":"D A,L"}}'
DENIED = b"permit,OPERCMDS,MVS.DISPLAY.**,CARL,NONE,,,\n"
YES, NO = response(results({"name": "enter"})), response(results())
# what may come in the place of an answer, and what the client gets of it
WRONG = {
    "a no": (NO, 403), "nothing": (b"", 500), "the status 500": (YES.replace(b"200 OK", b"500 Error"), 500),
    "the status 400": (YES.replace(b"200 OK", b"400 Bad Request"), 500),
    "the status 401": (YES.replace(b"200 OK", b"401 Unauthorized"), 401),
    "the status 403": (YES.replace(b"200 OK", b"403 Forbidden"), 403),
    "the status 302": (YES.replace(b"200 OK", b"302 Found"), 500),
    "no length": (re.sub(rb"Content-Length: \d+\r\n", b"", YES), 403),
    "another length": (response(results({"name": "enter"}, total=10)), 403),
    "an empty answer": (b"HTTP/1.1 204 No Content\r\nConnection: close\r\n\r\n", 403),
    "no HTTP": (b"hello\r\n\r\n", 500),
}


def prepare(folder: str) -> None:
    os.makedirs(f"{folder}/page", exist_ok=True)
    for name in ("index.html", "more.html"):
        with open(f"{folder}/page/{name}", "wb") as file:
            file.write(TEXT)


class Page:
    """The checks, over one nginx."""

    def __init__(self, nginx: Front, tally: Tally) -> None:
        self.nginx, self.tally = nginx, tally

    def sees(self, title: str, login: str | None, status: int, path: str = "/") -> None:
        answer = self.nginx.asked("GET", path, None, login)
        found = answer.status, TEXT in answer.body
        self.tally.equal(f"the page: {title}", found, (status, status == 200))


def asked(nginx: Front, tally: Tally, upstream: Upstream) -> None:
    """What is asked, and what comes of each answer."""
    page, upstream.answer = Page(nginx, tally), YES
    page.sees("a yes", "anna", 200, "/more.html")
    took = upstream.took()
    head, _, body = (took or [b""])[0].partition(b"\r\n\r\n")
    line, *fields = head.split(b"\r\n")
    names = sorted(field.split(b":")[0].lower() for field in fields)
    wanted = [b"connection", b"content-length", b"host", b"x-request-id"]
    tally.equal("the page: what is asked", (len(took), line, names, body), (
        1, b"POST /access/v1/search/action HTTP/1.0", wanted, QUESTION % b"ANNA",
    ))
    for title, (answer, status) in WRONG.items():
        upstream.answer = answer
        page.sees(title, "anna", status, "/more.html")
    upstream.answer = YES
    for login in WITHOUT_CONSOLE:
        upstream.took()
        nginx.asked("GET", "/more.html", None, login)
        tally.equal(f"the page: who is asked about for {login}", upstream.took()[0].partition(b"\r\n\r\n")[2],
                    QUESTION % b"@@@@@@@@")
    page.sees("a wrong password", "anna:wrong", 401)
    page.sees("nobody", None, 401)
    page.sees("the question itself", "anna", 404, "/opcmds-may")
    page.sees("a file that is missing", "anna", 404, "/none.html")
    page.sees("a name of the configuration", "anna", 404, "/@answered")


def by_the_policy(nginx: Front, tally: Tally, path: str) -> None:
    """Who sees it, by the policy that is there."""
    page = Page(nginx, tally)
    for name in ("/", "/index.html", "/more.html", "/more.html?x=1"):
        page.sees(f"ANNA may, {name}", "anna", 200, name)
        page.sees(f"CARL may not, {name}", "carl", 403, name)
    for login in WITHOUT_CONSOLE:
        page.sees(f"{login}, a login without a user", login, 403)
    put(path, base_policy())
    page.sees("another policy: CARL may", "carl", 200)
    os.rename(path, f"{path}.away")
    page.sees("no policy", "anna", 500)
    put(path, b"kind,\n")
    page.sees("a bad policy", "anna", 500)
    put(path, base_policy() + DENIED)
    page.sees("the first policy again: ANNA may", "anna", 200)
    page.sees("the first policy again: CARL may not", "carl", 403)


def check(folder: str, tally: Tally) -> None:
    prepare(folder)
    with Upstream(f"{folder}/asked.sock") as upstream, front.front(folder, f"unix:{folder}/asked.sock", PAGE) as nginx:
        asked(nginx, tally, upstream)
    with front.front(folder, f"unix:{folder}/none.sock", PAGE) as nginx:
        Page(nginx, tally).sees("nobody listens", "anna", 500)
    path, at = put(f"{folder}/policy.csv", base_policy() + DENIED), f"{folder}/decide.sock"
    with Point(path, "--socket-mode", "660", socket=at), front.front(folder, f"unix:{at}", PAGE) as nginx:
        by_the_policy(nginx, tally, path)
    with Point(path) as service, front.front(folder, f"127.0.0.1:{service.port}", PAGE) as nginx:
        Page(nginx, tally).sees("by a port: ANNA may", "anna", 200)
        Page(nginx, tally).sees("by a port: CARL may not", "carl", 403)
