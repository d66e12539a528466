"""Peers that are slow, and signals: no exchange takes longer than its deadline, and no signal ends one."""
import contextlib
import select
import shutil
import signal
import socket
import subprocess
import threading
import time
from typing import Iterator

from lib import clients, stored
from lib.places import built
from lib.serve.peers import BEGUN, NO_CONSOLE, REFUSED, Guests
from lib.service import Service
from lib.tally import Tally

PROFILES = 6_000  # so many that the listing of them does not fit into the buffers of a link
COLUMNS = "kind,class,name,id,value,owner,flags,digest"


class Dripping(threading.Thread):
    """A peer that sends some bytes at once and then one now and then, and reports how long it was heard."""

    def __init__(self, place: int | str, first: bytes, data: bytes, every: float) -> None:
        super().__init__()
        self.link, self.first, self.data, self.every, self.seconds = clients.connected(place), first, data, every, 0.0

    def run(self) -> None:
        began = time.monotonic()
        with self.link, contextlib.suppress(OSError):
            self.link.sendall(self.first)
            for at in range(len(self.data)):
                self.link.send(self.data[at:at + 1])
                if select.select([self.link], [], [], self.every)[0]:
                    break
        self.seconds = time.monotonic() - began


def dripping(tally: Tally, guests: Guests, title: str, first: bytes, data: bytes, every: float) -> None:
    """A peer whose bytes come slowly is cut at the deadline, one second after it came."""
    peer = Dripping(guests.service.port, first, data, every)
    peer.start()
    guests.next_is_served(title, 3)
    peer.join()
    tally.wants(f"{title} is cut", 0.9 <= peer.seconds <= 2, peer.seconds)


def many_profiles(room: str, file: str) -> None:
    """Logs SECADM on at C2, and adds profiles there."""
    words = [built(), "run", "--db", file]
    subprocess.run(words, input=b"1 C2 LOGON SECADM,ABC\n", stdout=subprocess.DEVNULL, check=True)
    rows = "".join(f"profile,OPERCMDS,MVS.START.STC.N{at:05}.*,,READ,SECADM,,\n" for at in range(PROFILES))
    with open(f"{room}/profiles", "w") as written:
        written.write(f"{COLUMNS}\n{rows}")
    with open(f"{room}/profiles") as given:
        words = [built(), "import", "--db", file, "--batch", "1", "--console", "C2"]
        subprocess.run(words, stdin=given, stdout=subprocess.DEVNULL, check=True)


def deadlines(tally: Tally, room: str, base: str) -> None:
    """Peers that send slowly, that never read, and that say more after their request."""
    file = f"{room}/deadlines"
    shutil.copy(base, file)
    many_profiles(room, file)
    with Service(file, "--timeout", "1", socket=f"{room}/socket") as service:
        guests, began = Guests(tally, service), service.descriptors()
        for every in (0.1, 0.5, 0.9):
            dripping(tally, guests, f"a peer that sends a byte each {every} seconds", b"", REFUSED, every)
        dripping(tally, guests, "a peer whose body comes slowly", BEGUN, b"x" * 30, 0.3)
        with clients.connected(service.port) as link:
            link.sendall(clients.head("GET", "/consoles/C2/profiles/OPERCMDS", None))
            guests.next_is_served("a peer that never reads", 3)
        with clients.connected(service.port) as link:
            link.sendall(b"\r\n")
            link.shutdown(socket.SHUT_RD)
            guests.next_is_served("a peer that is silent and takes nothing", 3)
        answered_first(tally, guests)
        tally.equal("links are closed", service.descriptors(), began)


def answered_first(tally: Tally, guests: Guests) -> None:
    """A peer that goes on after its response is heard for a second at most."""
    with clients.connected(guests.service.port) as link:
        link.sendall(REFUSED)
        guests.count += 1
        tally.equal("a peer that goes on: its response", clients.taken(link), NO_CONSOLE)
        link.sendall(b"more")
        guests.next_is_served("a peer that goes on", 2)


def unlimited(tally: Tally, room: str, base: str) -> None:
    """With a limit of 0 seconds an exchange takes as long as its peer does."""
    file = f"{room}/unlimited"
    shutil.copy(base, file)
    with Service(file, "--timeout", "0", "--count", "1") as service, clients.connected(service.port) as link:
        for at in range(0, len(REFUSED), 20):
            link.sendall(REFUSED[at:at + 20])
            time.sleep(0.3)
        tally.equal("a slow peer that is waited for", clients.taken(link), NO_CONSOLE)


@contextlib.contextmanager
def interrupted(service: Service) -> Iterator[None]:
    """Stops the process and lets it go on, again and again."""
    ends = threading.Event()

    def stop_and_go() -> None:
        while not ends.wait(0.02):
            service.process.send_signal(signal.SIGSTOP)
            time.sleep(0.02)
            service.process.send_signal(signal.SIGCONT)

    thread = threading.Thread(target=stop_and_go)
    thread.start()
    try:
        yield
    finally:
        ends.set()
        thread.join()


def signals(tally: Tally, room: str, base: str) -> None:
    """SIGSTOP and SIGCONT, which interrupt a read or a write, lose nothing, whatever the limit is."""
    for limit in ("30", "0"):
        file = f"{room}/signals{limit}"
        shutil.copy(base, file)
        many_profiles(room, file)
        with Service(file, "--timeout", limit, socket=f"{room}/socket{limit}") as service, interrupted(service):
            with clients.connected(service.port) as link:
                for part in (REFUSED[:5], REFUSED[5:-5], REFUSED[-5:]):
                    time.sleep(0.3)
                    link.sendall(part)
                tally.equal(f"a read that is interrupted, limit {limit}", clients.taken(link), NO_CONSOLE)
            with clients.connected(service.port) as link:
                link.sendall(clients.head("GET", "/consoles/C2/profiles/OPERCMDS", None))
                time.sleep(0.5)
                listing = clients.taken(link)
            length = int(listing.split(b"Content-Length: ")[1].split(b"\r\n")[0])
            tally.equal(f"a write that is interrupted, limit {limit}", len(listing.split(b"\r\n\r\n", 1)[1]), length)
        tally.equal(f"the account, limit {limit}", len(stored.account(file)), 1)
