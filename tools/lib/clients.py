"""Clients: a socket of our own, Python's http.client, and curl; each gives the bytes of the whole response."""
import contextlib
import http.client
import socket
import struct
import subprocess
from typing import Iterable, Iterator

HOST = "127.0.0.1"
SECONDS = 20  # of patience


@contextlib.contextmanager
def free_port() -> Iterator[int]:
    """A port that nobody has, at least until now."""
    with socket.create_server((HOST, 0)) as held:
        yield held.getsockname()[1]


def connected(place: int | str) -> socket.socket:
    """A link to a port, or to the Unix socket at a path."""
    if isinstance(place, str):
        link = socket.socket(socket.AF_UNIX)
        link.settimeout(SECONDS)
        link.connect(place)
        return link
    link = socket.create_connection((HOST, place), SECONDS)
    link.setsockopt(socket.IPPROTO_TCP, socket.TCP_NODELAY, 1)
    return link


def taken(link: socket.socket) -> bytes:
    """All that comes until the peer closes."""
    found = b""
    while more := link.recv(1 << 16):
        found += more
    return found


def head(method: str, path: str, body: bytes | None, fields: Iterable[str] = ()) -> bytes:
    lines = [f"{method} {path} HTTP/1.1", "Host: room", *fields]
    if body is not None:
        lines.append(f"Content-Length: {len(body)}")
    return "\r\n".join([*lines, "", ""]).encode()


def sent(place: int | str, data: bytes, closes: bool = False) -> bytes:
    """What comes back for these bytes; `closes` if nothing more is to be sent after them."""
    with connected(place) as link:
        link.sendall(data)
        if closes:
            link.shutdown(socket.SHUT_WR)
        return taken(link)


def by_socket(place: int | str, method: str, path: str, body: bytes | None = None) -> bytes:
    return sent(place, head(method, path, body) + (body or b""))


def by_http_client(
    port: int, method: str, path: str, body: bytes | None = None, fields: dict[str, str] | None = None
) -> bytes:
    link = http.client.HTTPConnection(HOST, port, timeout=SECONDS)
    try:
        link.request(method, path, body=body, headers=fields or {})
        answer = link.getresponse()
        lines = [
            f"HTTP/1.{answer.version % 10} {answer.status} {answer.reason}",
            *(f"{name}: {value}" for name, value in answer.getheaders()),
            "",
            "",
        ]
        return "\r\n".join(lines).encode() + answer.read()
    finally:
        link.close()


def by_curl(port: int, method: str, path: str, body: bytes | None = None, words: Iterable[str] = ()) -> bytes:
    words = ["curl", "-s", "-i", "--globoff", "--path-as-is", "--max-time", str(SECONDS), "-X", method, *words]
    if body is not None:
        words += ["-H", "Content-Type: application/json", "--data-binary", "@-"]
    ran = subprocess.run([*words, f"http://{HOST}:{port}{path}"], input=body or b"", capture_output=True)
    # (an interim response is none of the service's)
    return ran.stdout if ran.returncode == 0 else b"curl ended with status %d: " % ran.returncode + ran.stderr


CLIENTS = {"a socket": by_socket, "http.client": by_http_client, "curl": by_curl}


def reset(link: socket.socket) -> None:
    """Closes a link so that the peer is reset."""
    link.setsockopt(socket.SOL_SOCKET, socket.SO_LINGER, struct.pack("ii", 1, 0))
    link.close()
