"""Where it listens, and for how long: ports, sockets with their permissions, counts, deadlines, mistakes in the
options."""
import errno
import os
import socket
import stat
import subprocess
import time

from lib import clients
from lib.model import point
from lib.places import built
from lib.tally import Tally
from .asking import CARL, CARL_DENIED, Point, asked, base_policy, bytes_of, put

MISTAKES = {
    "neither a port nor a socket": ((), "decide needs exactly one of --port and --socket"),
    "both": (("--port", "0", "--socket", "x"), "decide needs exactly one of --port and --socket"),
    "a mode of a port": (("--port", "0", "--socket-mode", "600"), "--socket-mode needs --socket"),
    "a port that is none": (("--port", "65536"), "invalid value for --port"),
    "an empty path": (("--socket", ""), "invalid value for --socket"),
    "another mode": (("--socket", "x", "--socket-mode", "644"), "invalid value for --socket-mode"),
    "strict at a socket": (("--socket", "x", "--strict"), "--strict needs --port"),
    "no connection": (("--port", "0", "--count", "0"), "invalid value for --count"),
    "too many connections": (("--port", "0", "--count", "1000001"), "invalid value for --count"),
    "too long a time": (("--port", "0", "--timeout", "3601"), "invalid value for --timeout"),
    **{
        f"the base {base[:20]!r}": (("--port", "0", "--base", base), "invalid value for --base")
        for base in ("", "a b", 'a"', "a\\", "x" * 201, "http://\u00e9", "a\x7f")
    },
}


def ended(*words: str) -> tuple[int, str, str]:
    """A start that ends by itself."""
    ran = subprocess.run([built(), "decide", *words], stdin=subprocess.DEVNULL, capture_output=True, timeout=20)
    return ran.returncode, ran.stdout.decode(), ran.stderr.decode()


def mistakes(tally: Tally, path: str) -> None:
    """Mistakes are found in the order of this table, before the file is read."""
    for title, (words, said) in MISTAKES.items():
        status, output, errors = ended("--policy", f"{path}.missing", *words)
        good = (status, output) == (2, "") and errors.startswith(f"error: {said}")
        tally.wants(f"a mistake: {title}", good, (status, output, errors))
    pairs = [("--base", ""), ("--port", "x"), ("--count", "0"), ("--timeout", "x")]
    for at, (name, _) in enumerate(pairs):
        rest = [word for pair in pairs[at:] for word in pair]
        given = rest if at <= 1 else ["--port", "0", *rest]
        _, _, errors = ended("--policy", path, *given)
        good = errors.startswith(f"error: invalid value for {name};")
        tally.wants(f"the first of several mistakes is {name}", good, errors)
    status, _, errors = ended("--port", "0")
    tally.wants("no policy file is named", status == 2 and "--policy" in errors, (status, errors))


def ports(tally: Tally, path: str) -> None:
    with socket.create_server((clients.HOST, 0)) as taken:
        port = taken.getsockname()[1]
        said = f"E91 Store\nopcmds: port {port}: {os.strerror(errno.EADDRINUSE)}\n"
        tally.equal("a port in use", ended("--policy", path, "--port", str(port)), (3, "", said))
        status, output, errors = ended("--policy", f"{path}.missing", "--port", str(port))
        good = (status, output) == (3, "") and errors.startswith(f"E91 Store\nopcmds: policy file {path}.missing: ")
        tally.wants("a file that is missing comes before the port", good, (status, output, errors))
    with Point(path, "--count", "1", port=port) as service:
        tally.equal("a port that is free again", service.port, port)
        tally.equal("its one exchange", asked(port, "evaluation", CARL), CARL_DENIED)
        tally.equal("its end", service.ended(), (0, "", ""))


def counts(tally: Tally, path: str) -> None:
    with Point(path, "--count", "4") as service:
        asked(service.port, "evaluation", b"{")
        clients.by_socket(service.port, "GET", point.CONFIGURATION)
        clients.connected(service.port).close()
        tally.equal("the last of four connections", asked(service.port, "evaluation", CARL), CARL_DENIED)
        tally.equal("the end after four connections", service.ended(), (0, "", ""))


def deadlines(tally: Tally, path: str) -> None:
    """A peer that is silent holds up the next for --timeout seconds at most."""
    data = clients.head("POST", point.PATHS["evaluation"], bytes_of(CARL)) + bytes_of(CARL)
    with Point(path, "--timeout", "1") as service:
        for title, begun in (("says nothing", b""), ("stops in its head", data[:30]), ("stops in its body", data[:-3])):
            with clients.connected(service.port) as link:
                link.sendall(begun)
                began = time.monotonic()
                tally.equal(f"after a peer that {title}", asked(service.port, "evaluation", CARL), CARL_DENIED)
                took = time.monotonic() - began
                tally.wants(f"the wait after a peer that {title}", took < 3, took)
    with Point(path, "--timeout", "0", "--count", "1") as service, clients.connected(service.port) as link:
        for at in range(0, len(data), 40):
            link.sendall(data[at:at + 40])
            time.sleep(0.3)
        tally.equal("a slow peer that is waited for", clients.taken(link), CARL_DENIED)


def sockets(tally: Tally, room: str, path: str) -> None:
    """Whatever the umask is, the socket has the permissions that are asked for, and is removed at the end."""
    at = f"{room}/decide.sock"
    for umask in (0o000, 0o022, 0o077):
        for mode in ("", "600", "0660", "660", "666"):
            was = os.umask(umask)
            try:
                with Point(path, *(("--socket-mode", mode) if mode else ()), "--count", "1", socket=at) as service:
                    found = os.lstat(at).st_mode
                    title = f"umask {umask:03o}, permissions {mode or 'not given'}"
                    wanted = True, int(mode or "600", 8)
                    tally.equal(title, (stat.S_ISSOCK(found), stat.S_IMODE(found)), wanted)
                    tally.equal(f"{title}: an exchange", asked(at, "evaluation", CARL), CARL_DENIED)
                    tally.equal(f"{title}: the end", service.ended(), (0, "", ""))
            finally:
                os.umask(was)
            tally.equal(f"{title}: its path afterwards", os.path.lexists(at), False)
    taken(tally, path, at)


def taken(tally: Tally, path: str, at: str) -> None:
    with Point(path, socket=at):
        said = f"E91 Store\nopcmds: socket {at}: {os.strerror(errno.EADDRINUSE)}\n"
        tally.equal("a second service at the path", ended("--policy", path, "--socket", at), (3, "", said))
    tally.equal("the path of a service that was killed", os.path.lexists(at), True)
    with Point(path, "--count", "1", socket=at) as service:
        tally.equal("an exchange over its path", asked(at, "evaluation", CARL), CARL_DENIED)
        tally.equal("the end of its service", service.ended(), (0, "", ""))
    with open(at, "w") as text:
        text.write("precious")
    tally.equal("a file at the path", ended("--policy", path, "--socket", at), (3, "", said))
    with open(at) as text:
        tally.equal("the file stays", text.read(), "precious")


def places(tally: Tally, room: str) -> None:
    path = put(f"{room}/policy.csv", base_policy())
    for part in (mistakes, ports, counts, deadlines):
        part(tally, path)
    sockets(tally, room, path)
