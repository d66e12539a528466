"""Where the service listens: faults of an accept, Unix sockets, and standard streams that are closed."""
import contextlib
import errno
import os
import shutil
import socket
import stat
import subprocess

from typing import Iterator

from lib import clients, stored
from lib.answers import done
from lib.places import built, preload
from lib.serve.peers import NO_CONSOLE, REFUSED, ROW
from lib.service import Service
from lib.tally import Tally

PASSING = (
    errno.ECONNABORTED, errno.EPROTO, errno.EMFILE, errno.ENFILE, errno.ENOBUFS, errno.ENOMEM, errno.ENETDOWN,
)
LASTING = (errno.EBADF, errno.EINVAL, errno.EIO, errno.EPERM, errno.ETIMEDOUT)
BODY = '{"text":"D U"}'


def accepts(tally: Tally, room: str, base: str) -> None:
    """Faults of an accept that pass are tried again and count; the others end the service."""
    shim = preload(room)
    for number in PASSING:
        title, file = errno.errorcode[number], f"{room}/passing{number}"
        shutil.copy(base, file)
        faults = {
            "LD_PRELOAD": shim, "FAULT_CALL": "accept", "FAULT_ERROR": str(number), "FAULT_AT": "2", "FAULT_TIMES": "3",
        }
        # one exchange, three faults, and one more exchange
        with Service(file, "--count", "5", **faults) as service:
            found = [clients.sent(service.port, REFUSED) for _ in range(2)]
            tally.equal(f"{title}: exchanges", found, [NO_CONSOLE] * 2)
            tally.equal(f"{title}: the end", service.ended(), (0, "", ""))
        tally.equal(f"{title}: the account", stored.account(file), [ROW(1), ROW(2)])
        # nothing but faults, each of which counts
        with Service(file, "--count", "3", **{**faults, "FAULT_AT": "1"}) as service:
            tally.equal(f"{title} alone: the end", service.ended(), (0, "", ""))
    for number in LASTING:
        title, file = errno.errorcode[number], f"{room}/lasting{number}"
        shutil.copy(base, file)
        faults = {"LD_PRELOAD": shim, "FAULT_CALL": "accept", "FAULT_ERROR": str(number), "FAULT_AT": "2"}
        with Service(file, **faults) as service:
            tally.equal(f"{title}: the exchange before", clients.sent(service.port, REFUSED), NO_CONSOLE)
            said = f"E91 Store\nopcmds: connection: {os.strerror(number)}\n"
            tally.equal(f"{title}: the end", service.ended(), (3, "", said))


def ran(file: str, path: str, *words: str) -> tuple[int, str, str]:
    """A service that ends by itself."""
    words = (built(), "serve", "--db", file, "--socket", path, *words)
    found = subprocess.run(words, stdin=subprocess.DEVNULL, capture_output=True, text=True, timeout=20)
    return found.returncode, found.stdout, found.stderr


def refused(path: str, number: int) -> tuple[int, str, str]:
    return 3, "", f"E91 Store\nopcmds: socket {path}: {os.strerror(number)}\n"


def sockets(tally: Tally, room: str, base: str) -> None:
    """A Unix socket: its permissions, requests over it, and what may stand at its path."""
    file, path = f"{room}/sockets", f"{room}/gate.sock"
    shutil.copy(base, file)
    permissions(tally, file, path)
    with Service(file, "--count", "3", socket=path) as service:
        shutil.copy(base, f"{room}/other")
        tally.equal("a second service at the path", ran(f"{room}/other", path), refused(path, errno.EADDRINUSE))
        words = ["curl", "-s", "-i", "--unix-socket", path, "-d", BODY, "http://room/consoles/C1/command"]
        found = subprocess.run(words, capture_output=True, timeout=20).stdout
        tally.equal("curl over the socket", found, done("0A80 ONLINE  ------ -", rule="GROUP INFO AUTH SYS"))
        tally.equal("an exchange over the socket", clients.sent(path, REFUSED), NO_CONSOLE)
        tally.equal("the end of its service", service.ended(), (0, "", ""))
    tally.equal("its path afterwards", os.path.lexists(path), False)
    stale(tally, file, path)
    taken(tally, room, file)
    left(tally, room, base)


def permissions(tally: Tally, file: str, path: str) -> None:
    """Whatever the umask is, the file has the permissions that are asked for."""
    for umask in (0o000, 0o022, 0o077):
        for mode in ("", "600", "0600", "660", "0660", "666", "0666"):
            words, wanted = (("--socket-mode", mode), int(mode, 8)) if mode else ((), 0o600)
            was = os.umask(umask)
            try:
                with Service(file, *words, socket=path):
                    found = os.lstat(path).st_mode
            finally:
                os.umask(was)
            title = f"umask {umask:03o}, permissions {mode or 'not given'}"
            tally.equal(title, (stat.S_ISSOCK(found), stat.S_IMODE(found)), (True, wanted))
            # (the service was killed, and its socket is left: the next one replaces it)
            tally.equal(f"{title}: its path afterwards", os.path.lexists(path), True)


def stale(tally: Tally, file: str, path: str) -> None:
    """The socket of a service that was killed is replaced; one at which somebody listens is not."""
    with Service(file, socket=path):
        pass
    tally.equal("the path of a service that was killed", os.path.lexists(path), True)
    with Service(file, "--count", "1", socket=path) as service:
        tally.equal("an exchange over its path", clients.sent(path, REFUSED), NO_CONSOLE)
        tally.equal("the end of its service", service.ended(), (0, "", ""))
    with socket.socket(socket.AF_UNIX) as other:
        other.bind(path)
        other.listen()
        tally.equal("a socket of another program", ran(file, path), refused(path, errno.EADDRINUSE))
        tally.equal("the other program's socket stays", os.path.lexists(path), True)
    os.remove(path)


def taken(tally: Tally, room: str, file: str) -> None:
    """What is no socket is refused and stays, and so is a path that none can have."""
    path, target = f"{room}/taken", f"{room}/target"
    with open(path, "w") as text:
        text.write("precious")
    tally.equal("a file at the path", ran(file, path), refused(path, errno.EADDRINUSE))
    with open(path) as text:
        tally.equal("the file stays", text.read(), "precious")
    os.remove(path)
    os.mkdir(path)
    tally.equal("a folder at the path", ran(file, path), refused(path, errno.EADDRINUSE))
    os.rmdir(path)
    os.symlink(target, path)
    tally.equal("a link at the path", ran(file, path), refused(path, errno.EADDRINUSE))
    tally.equal("the link stays", (os.path.islink(path), os.path.exists(target)), (True, False))
    missing, long = f"{room}/none/gate.sock", f"{room}/{'x' * 108}"
    tally.equal("a folder that is missing", ran(file, missing), refused(missing, errno.ENOENT))
    said = "path must be shorter than SUN_LEN"
    tally.equal("a path that is too long", ran(file, long), (3, "", f"E91 Store\nopcmds: socket {long}: {said}\n"))


@contextlib.contextmanager
def last_exchange(tally: Tally, title: str, file: str, path: str) -> Iterator[None]:
    """A service in its last exchange, within which its socket is removed; it ends after that."""
    with Service(file, "--count", "1", socket=path) as service, clients.connected(path) as link:
        os.remove(path)
        yield
        link.sendall(REFUSED)
        tally.equal(f"{title} at the path: the exchange", clients.taken(link), NO_CONSOLE)
        tally.equal(f"{title} at the path: the end", service.ended(), (0, "", ""))


def left(tally: Tally, room: str, base: str) -> None:
    """At its end a service removes the socket that it made, and nothing else that is at its path by then."""
    file, other, path, target = f"{room}/ends", f"{room}/stays", f"{room}/end.sock", f"{room}/end.target"
    for copy in (file, other):
        shutil.copy(base, copy)
    with last_exchange(tally, "nothing", file, path):
        pass
    tally.equal("nothing at the path afterwards", os.path.lexists(path), False)
    with contextlib.ExitStack() as opened:
        with last_exchange(tally, "another service", file, path):
            service = opened.enter_context(Service(other, "--count", "1", socket=path))
        tally.equal("the other service is reached", os.path.lexists(path) and clients.sent(path, REFUSED), NO_CONSOLE)
        tally.equal("the other service ends", service.ended(), (0, "", ""))
    tally.equal("the other service's path afterwards", os.path.lexists(path), False)
    with last_exchange(tally, "a file", file, path), open(path, "w") as text:
        text.write("precious")
    tally.equal("the file at the path stays", os.path.lexists(path) and open(path).read(), "precious")
    os.remove(path)
    with socket.socket(socket.AF_UNIX) as listener:
        listener.bind(target)
        with last_exchange(tally, "a link to a socket", file, path):
            os.symlink(target, path)
    found = (os.path.islink(path), os.path.lexists(target))
    tally.equal("the link to a socket stays", found, (True, True))
    os.remove(path)
    with Service(file, "--count", "1", socket=path) as service, clients.connected(path) as link:
        os.rename(path, target)
        os.rename(target, path)
        link.sendall(REFUSED)
        tally.equal("its socket, moved and moved back: the exchange", clients.taken(link), NO_CONSOLE)
        tally.equal("its socket, moved and moved back: the end", service.ended(), (0, "", ""))
    tally.equal("its socket is removed", os.path.lexists(path), False)


class Closed(Service):
    """A service that is started with standard streams closed, as a shell closes them."""

    def __init__(self, closed: str, file: str, *words: str, socket: str) -> None:
        self.closed = closed
        super().__init__(file, *words, socket=socket)

    def words(self, file: str, *words: str) -> list[str]:
        return ["sh", "-c", f'exec "$0" "$@" {self.closed}', *super().words(file, *words)]


def streams(tally: Tally, room: str, base: str) -> None:
    """If standard streams are closed at the start, no connection gets their numbers: the response is as ever, without a
    line of the log, and a service that cannot print where it listens ends."""
    path = f"{room}/closed.sock"
    asked = clients.head("POST", "/consoles/C1/command", BODY.encode()) + BODY.encode()
    for closed in ("", "<&-", "2>&-", "<&- 2>&-"):
        file = f"{room}/closed"
        shutil.copy(base, file)
        with Closed(closed, file, "--log", "--count", "2", socket=path) as service:
            found = [clients.sent(path, asked) for _ in range(2)]
            response = done("0A80 ONLINE  ------ -", rule="GROUP INFO AUTH SYS")
            tally.equal(f"streams closed by '{closed}': the responses", found, [response] * 2)
            status, printed, said = service.ended()
            lines = 0 if "2" in closed else 2
            tally.equal(f"streams closed by '{closed}': the end", (status, printed, said.count("\n")), (0, "", lines))
    said = "E91 Store\nopcmds: standard output: Bad file descriptor\n"
    for closed in (">&-", "<&- >&-", ">&- 2>&-", "<&- >&- 2>&-"):
        words = ["sh", "-c", f'exec "$0" "$@" {closed}', built(), "serve", "--db", f"{room}/closed", "--socket", path]
        ran_so = subprocess.run([*words, "--log"], stdin=subprocess.DEVNULL, capture_output=True, text=True, timeout=20)
        found = (ran_so.returncode, ran_so.stdout, ran_so.stderr)
        tally.equal(f"streams closed by '{closed}'", found, (3, "", "" if "2" in closed else said))
        tally.equal(f"streams closed by '{closed}': no socket is left", os.path.lexists(path), False)
