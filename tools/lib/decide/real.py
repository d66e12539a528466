"""Real clients: examples/ask.py, which fails closed, and curl."""
import json
import os
import socket
import subprocess
import sys
import threading

from lib import clients
from lib.model import point
from lib.places import TOP
from lib.tally import Tally
from .asking import CARL, CARL_DENIED, NO_POLICY, Point, answer, base_policy, bytes_of, put, response
from .worked import BACKUP, PAYROLL

ASK = f"{TOP}/examples/ask.py"
ALLOWED = response(answer("ALLOWED", BACKUP))
# what may come in the place of an answer, or where it ends
WRONG = {
    "nothing": b"", "an answer that is cut in its head": ALLOWED[:40],
    "an answer that is cut in its body": ALLOWED[:-1],
    "an answer that is cut before the decision": ALLOWED[:-15],
    "the status 500": ALLOWED.replace(b"200 OK", b"500 Internal Server Error"),
    "the status 403": ALLOWED.replace(b"200 OK", b"403 Forbidden"),
    "the status 302": ALLOWED.replace(b"200 OK", b"302 Found"),
    "no JSON": response({}).replace(b"{}", b"no"), "an object without a decision": response({}),
    "a decision that is a text": response({"decision": "true"}), "a decision that is 1": response({"decision": 1}),
    "a list": response([True]), "no HTTP": b"hello\r\n\r\n",
}


def ran(place: int | str, *words: str) -> tuple[int, str]:
    """How the program ends that asks at a port, and what it prints."""
    url = place if isinstance(place, str) else f"http://{clients.HOST}:{place}"
    told = {**os.environ, "DECIDE": url, "http_proxy": "", "no_proxy": "*"}
    done = subprocess.run(
        [sys.executable, ASK, *words], env=told, stdin=subprocess.DEVNULL, capture_output=True, text=True, timeout=60
    )
    return done.returncode, done.stdout


class Wrong(threading.Thread):
    """A listener that answers each connection with these bytes, and closes it."""

    def __init__(self, data: bytes) -> None:
        super().__init__(daemon=True)
        self.data, self.listener = data, socket.create_server((clients.HOST, 0))
        self.port = self.listener.getsockname()[1]

    def run(self) -> None:
        link, _ = self.listener.accept()
        with link, self.listener:
            link.recv(1 << 16)
            link.sendall(self.data)


def asking(tally: Tally, path: str) -> None:
    with Point(path) as service:
        tally.equal("ask.py: ANNA may", ran(service.port, "ANNA", "C BACKUP", "C1"), (0, f"may: {BACKUP}\n"))
        tally.equal("ask.py: ANNA may not", ran(service.port, "ANNA", "C PAYROLL", "C1"), (1, f"may not: {PAYROLL}\n"))
        for words in (("anna", "C BACKUP", "C1"), ("ANNA", "LOGOFF", "C1"), ("ZOE", "D U", "C1")):
            status, output = ran(service.port, *words)
            tally.equal(f"ask.py: {words}", (status, output[:8]), (1, "may not:"))
        for name, ask in (("curl", clients.by_curl), ("http.client", clients.by_http_client)):
            found = ask(service.port, "POST", point.PATHS["evaluation"], bytes_of(CARL))
            tally.equal(f"{name}: CARL may not", found, CARL_DENIED)
        os.rename(path, f"{path}.away")
        status, output = ran(service.port, "ANNA", "C BACKUP", "C1")
        tally.equal("ask.py: no policy", (status, output[:8]), (1, "may not:"))
        found = clients.by_curl(service.port, "POST", point.PATHS["evaluation"], bytes_of(CARL))
        tally.equal("curl: no policy", found, NO_POLICY)
        url = f"http://{clients.HOST}:{service.port}{point.PATHS['evaluation']}"
        done = subprocess.run(["curl", "-s", "--fail", "-d", json.dumps(CARL), url], capture_output=True)
        tally.equal("curl --fail: no policy", (done.returncode, done.stdout), (22, b""))
        os.rename(f"{path}.away", path)
        tally.equal("ask.py: the policy is back", ran(service.port, "ANNA", "C BACKUP", "C1")[0], 0)


def fails_closed(tally: Tally) -> None:
    """Whatever comes but a decision that is true, nobody may."""
    right = Wrong(ALLOWED)
    right.start()
    tally.equal("ask.py: a listener that answers as it should", ran(right.port, "ANNA", "C BACKUP", "C1")[0], 0)
    for title, data in WRONG.items():
        wrong = Wrong(data)
        wrong.start()
        status, output = ran(wrong.port, "ANNA", "C BACKUP", "C1")
        tally.equal(f"ask.py: {title}", (status, output[:8]), (1, "may not:"))
    with clients.free_port() as port:
        pass
    status, output = ran(port, "ANNA", "C BACKUP", "C1")
    tally.equal("ask.py: nobody listens", (status, output[:8]), (1, "may not:"))
    status, output = ran("http://[nowhere", "ANNA", "C BACKUP", "C1")
    tally.equal("ask.py: no address", (status, output[:8]), (1, "may not:"))


def real(tally: Tally, room: str) -> None:
    asking(tally, put(f"{room}/policy.csv", base_policy()))
    fails_closed(tally)
