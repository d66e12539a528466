"""Clients that say nothing, stop in the middle, or reset; and many exchanges in a row."""
import json
import shutil
import socket
import subprocess
import time

from lib import clients, stored
from lib.answers import done, refused, unread
from lib.places import built
from lib.service import Service, settled
from lib.tally import Tally

REFUSED = clients.head("POST", "/consoles/C9/command", b'{"text":"D U"}') + b'{"text":"D U"}'
NO_CONSOLE = refused("E10", "NoConsole")
ROW = "{} C9 - E10 -".format


class Guests:
    """Peers that go wrong, one after another; after each, an exchange that is as ever."""

    def __init__(self, tally: Tally, service: Service) -> None:
        self.tally, self.service, self.count = tally, service, 0

    def next_is_served(self, title: str, seconds: float = 5) -> None:
        """The next exchange is answered in time, and the account has its row and no other."""
        began = time.monotonic()
        found = clients.sent(self.service.port, REFUSED)
        self.count += 1
        self.tally.equal(f"the exchange after {title}", found, NO_CONSOLE)
        self.tally.wants(f"the wait after {title}", time.monotonic() - began < seconds, time.monotonic() - began)
        rows = stored.account(self.service.file)
        self.tally.equal(f"the account after {title}", rows, [ROW(at + 1) for at in range(self.count)])

    def silent(self, title: str, data: bytes) -> None:
        """A peer that keeps its link open and says no more than this."""
        with clients.connected(self.service.port) as link:
            link.sendall(data)
            self.next_is_served(title)

    def cut(self, title: str, data: bytes) -> None:
        """A peer that ends in the middle gets an answer that says so."""
        self.tally.equal(title, clients.sent(self.service.port, data, closes=True), unread(400))
        self.next_is_served(title)

    def leaving(self, title: str, data: bytes) -> None:
        """A peer that closes its link and waits for nothing."""
        with clients.connected(self.service.port) as link:
            link.sendall(data)
        self.next_is_served(title)

    def resetting(self, title: str, data: bytes) -> None:
        link = clients.connected(self.service.port)
        if data:
            link.sendall(data)
        clients.reset(link)
        self.next_is_served(title)


# a head and a part of its body
BEGUN = clients.head("POST", "/consoles/C2/command", b"x" * 40) + b'{"text":"L'


def silent_peers(tally: Tally, room: str, base: str) -> None:
    file = f"{room}/silent"
    shutil.copy(base, file)
    with Service(file, "--timeout", "1") as service:
        guests = Guests(tally, service)
        guests.silent("a peer that says nothing", b"")
        guests.silent("a peer that is silent within its head", REFUSED[:30])
        guests.silent("a peer that is silent within its body", BEGUN)
        quiet = [clients.connected(service.port) for _ in range(3)]
        guests.next_is_served("three peers that say nothing", 8)
        for link in quiet:
            link.close()
        tally.equal("no line of them is in the log", stored.rows(file, "SELECT text FROM log"), [])


def broken_peers(tally: Tally, room: str, base: str) -> None:
    file = f"{room}/broken"
    shutil.copy(base, file)
    with Service(file) as service:
        guests, began = Guests(tally, service), service.descriptors()
        for at in (1, 4, 20, len(REFUSED) - 15, len(REFUSED) - 1):
            guests.cut(f"a request that is cut after {at} bytes", REFUSED[:at])
        for title, data in (("says nothing", b""), ("is within its head", REFUSED[:30]), ("is within its body", BEGUN)):
            guests.leaving(f"a peer that leaves and {title}", data)
            guests.resetting(f"a peer that resets and {title}", data)
        whole_request(tally, guests)
        tally.equal(
            "no line of them is in the log", stored.rows(file, "SELECT text FROM log WHERE text <> 'whole'"), []
        )
        tally.equal("links are closed", settled(service.descriptors, began), True)


def whole_request(tally: Tally, guests: Guests) -> None:
    """A peer that resets or leaves after a whole request: it is done or, if its bytes were lost, not."""
    body = json.dumps({"text": "L 'whole'"}).encode()
    data, file = clients.head("POST", "/consoles/C2/command", body) + body, guests.service.file
    for _ in range(10):
        guests.leaving("a peer that leaves before its response", data)
    tally.equal("what they asked for is done", stored.rows(file, "SELECT count(*) FROM log"), ["10"])
    for _ in range(10):
        guests.resetting("a peer that resets before its response", data)
    count = int(stored.rows(file, "SELECT count(*) FROM log")[0])
    tally.wants("what the others asked for is done or not", 10 <= count <= 20, count)
    link = clients.connected(guests.service.port)
    link.sendall(data)
    link.recv(4)
    clients.reset(link)
    guests.next_is_served("a peer that resets within its response")
    tally.equal("what it asked for is done", stored.rows(file, "SELECT count(*) FROM log"), [str(count + 1)])


def exchanges(tally: Tally, room: str, base: str, count: int) -> None:
    """So many refusals in a row, each with its row of the account, after which the service ends."""
    file = f"{room}/exchanges"
    shutil.copy(base, file)
    with Service(file, "--count", str(count)) as service:
        asks = (clients.by_socket, clients.by_http_client)
        good = sum(
            asks[at % 2](service.port, "POST", "/consoles/C9/command", b'{"text":"D U"}') == NO_CONSOLE
            for at in range(count)
        )
        tally.equal(f"{count:,} exchanges in a row", good, count)
        tally.equal("how the service ends after them", service.ended(), (0, "", ""))
    tally.wants("the account after them", stored.account(file) == [ROW(at + 1) for at in range(count)])


def steady(tally: Tally, room: str, base: str, count: int) -> None:
    """So many listings leave memory and open descriptors as they were, and the file byte for byte."""
    file = f"{room}/steady"
    shutil.copy(base, file)
    data = clients.head("POST", "/consoles/C2/command", b'{"text":"D A,L"}') + b'{"text":"D A,L"}'
    wanted = done("BACKUP   JOB ACTIVE", "PAYROLL  JOB ACTIVE", "SECRET   JOB ACTIVE", rule="GROUP INFO AUTH MASTER")
    with Service(file) as service:
        descriptors = service.descriptors()
        tally.wants("the first listings", all(clients.sent(service.port, data) == wanted for _ in range(100)))
        with open(file, "rb") as database:
            memory, stored_bytes = service.memory(), database.read()
        good = sum(clients.sent(service.port, data) == wanted for _ in range(count))
        tally.equal(f"{count:,} listings in a row", good, count)
        tally.wants(
            "open descriptors after them",
            settled(service.descriptors, descriptors),
            (descriptors, service.descriptors()),
        )
        # (a few pages come and go)
        tally.wants("memory after them", service.memory() <= memory + 65_536, (memory, service.memory()))
        with open(file, "rb") as database:
            tally.wants("the file after them", database.read() == stored_bytes)


def ports(tally: Tally, room: str, base: str) -> None:
    """A port that is given is the one that is printed; one that is in use is a fault, after that of the database."""
    file, missing = f"{room}/ports", f"{room}/none/db"
    shutil.copy(base, file)
    with socket.create_server((clients.HOST, 0)) as taken:
        port = taken.getsockname()[1]
        asked = {
            "a port in use": (file, f"port {port}: Address already in use"),
            "a database that is missing comes first": (missing, f"database {missing}: No such file or directory"),
        }
        for title, (path, said) in asked.items():
            words = [built(), "serve", "--db", path, "--port", str(port)]
            ran = subprocess.run(words, stdin=subprocess.DEVNULL, capture_output=True, text=True, timeout=20)
            tally.equal(title, (ran.returncode, ran.stdout, ran.stderr), (3, "", f"E91 Store\nopcmds: {said}\n"))
    with Service(file, "--count", "1", port=port) as service:
        tally.equal("a port that is free again", service.port, port)
        tally.equal("its one exchange", clients.sent(port, REFUSED), NO_CONSOLE)
        tally.equal("its end", service.ended(), (0, "", ""))
