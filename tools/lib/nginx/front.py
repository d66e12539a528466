"""nginx with a configuration of examples/, on a port of its own, with a certificate and logins that are made for it."""
import base64
import contextlib
import os
import shutil
import signal
import socket
import ssl
import subprocess
import time
from typing import Iterator, NamedTuple

from lib.clients import HOST, SECONDS, free_port, taken
from lib.places import TOP

NAME = "gate.example"
# the configurations, each with the socket of the service behind it
GATE, PAGE = "nginx.conf", "nginx-decide.conf"
SOCKETS = {GATE: "/run/opcmds/http.sock", PAGE: "/run/opcmds-decide/decide.sock"}
LOGINS = {
    "anna": "of anna", "carl": "of carl", "secadm": "of secadm", "guest": "has no console", "Anna": "of another",
    "ANNA": "of a third",
}
WITHOUT_CONSOLE = ("guest", "Anna", "ANNA")
# What encloses the file: one process, whose user need not have rights, and no folder where a body could be written.
MAIN = """\
daemon off;
master_process off;
pid {folder}/pid;
error_log {folder}/error.log;
events {{}}
http {{
    access_log off;
    client_body_temp_path {folder}/gone;
    proxy_temp_path {folder}/proxy;
    fastcgi_temp_path {folder}/fastcgi;
    uwsgi_temp_path {folder}/uwsgi;
    scgi_temp_path {folder}/scgi;
    include {folder}/site.conf;
}}
"""


class Answer(NamedTuple):
    status: int
    head: str
    body: bytes


class BadSite(Exception):
    pass


def program() -> str | None:
    """The nginx of this computer; its folder is not on everybody's path."""
    return shutil.which("nginx", path=f"{os.environ.get('PATH', os.defpath)}:/usr/sbin")


def site(folder: str, port: int, upstream: str, example: str = GATE) -> str:
    """An example with the paths, the port and the upstream of a test, and nothing else changed."""
    with open(f"{TOP}/examples/{example}", encoding="utf-8") as file:
        text = file.read()
    for old, new in (
        ("listen 443 ssl;", f"listen {HOST}:{port} ssl;"),
        ("/etc/opcmds/tls/certificate.pem", f"{folder}/certificate.pem"),
        ("/etc/opcmds/tls/key.pem", f"{folder}/key.pem"),
        ("/etc/opcmds/logins", f"{folder}/logins"),
        (f"server unix:{SOCKETS[example]};", f"server {upstream};"),
        *([("root /var/www/page;", f"root {folder}/page;")] if example == PAGE else []),
    ):
        if text.count(old) != 1:
            raise BadSite(f"examples/{example} has {old!r} {text.count(old)} times, and not once")
        text = text.replace(old, new)
    return text


def prepare(folder: str) -> None:
    """Makes the certificate and the logins."""
    how = {"stdin": subprocess.DEVNULL, "capture_output": True, "check": True}
    words = ["openssl", "req", "-x509", "-newkey", "rsa:2048", "-nodes", "-days", "1", "-subj", f"/CN={NAME}"]
    files = ["-keyout", f"{folder}/key.pem", "-out", f"{folder}/certificate.pem"]
    subprocess.run([*words, "-addext", f"subjectAltName=DNS:{NAME}", *files], **how)
    with open(f"{folder}/logins", "w", encoding="utf-8") as file:
        for login, password in LOGINS.items():
            ran = subprocess.run(["openssl", "passwd", "-6", password], text=True, **how)
            file.write(f"{login}:{ran.stdout.strip()}\n")


class Front:
    """The running nginx, and requests to it."""

    def __init__(self, folder: str, port: int) -> None:
        self.folder, self.port = folder, port
        self.context = ssl.create_default_context(cafile=f"{folder}/certificate.pem")

    def connected(self, context: ssl.SSLContext | None = None) -> ssl.SSLSocket:
        link = socket.create_connection((HOST, self.port), SECONDS)
        return (context or self.context).wrap_socket(link, server_hostname=NAME)

    def sent(self, data: bytes) -> Answer:
        """What comes back for these bytes."""
        with self.connected() as link:
            link.sendall(data)
            return answer_in(taken(link))

    def asked(
        self, method: str, path: str, body: bytes | None = None, login: str | None = "anna",
        fields: tuple[str, ...] = (), host: str = NAME,
    ) -> Answer:
        return self.sent(head(method, path, body, login, fields, host) + (body or b""))


def head(
    method: str, path: str, body: bytes | None, login: str | None, fields: tuple[str, ...] = (), host: str = NAME
) -> bytes:
    """The head of a request with a login and its password; a login with a colon brings its own."""
    lines = [f"{method} {path} HTTP/1.1", f"Host: {host}", "Connection: close", *fields]
    if login is not None:
        pair = login if ":" in login else f"{login}:{LOGINS[login]}"
        lines.append(f"Authorization: Basic {base64.b64encode(pair.encode()).decode()}")
    if body is not None:
        lines.append(f"Content-Length: {len(body)}")
    return "\r\n".join([*lines, "", ""]).encode()


def answer_in(data: bytes) -> Answer:
    first, _, body = data.partition(b"\r\n\r\n")
    text = first.decode("latin-1")
    return Answer(int(text.split()[1]) if text else 0, text, body)


def is_listening(port: int) -> bool:
    with contextlib.suppress(OSError), socket.create_connection((HOST, port), 1):
        return True
    return False


@contextlib.contextmanager
def front(folder: str, upstream: str, example: str = GATE) -> Iterator[Front]:
    """nginx before this upstream, as a `server` of nginx names it, until it is no longer needed."""
    with free_port() as port:
        pass
    with open(f"{folder}/site.conf", "w", encoding="utf-8") as file:
        file.write(site(folder, port, upstream, example))
    with open(f"{folder}/nginx.conf", "w", encoding="utf-8") as file:
        file.write(MAIN.format(folder=folder))
    words = [program(), "-c", f"{folder}/nginx.conf", "-p", folder, "-e", f"{folder}/error.log"]
    with subprocess.Popen(words, stdin=subprocess.DEVNULL, stdout=subprocess.PIPE, stderr=subprocess.STDOUT) as started:
        try:
            end = time.monotonic() + SECONDS
            while not is_listening(port):
                if started.poll() is not None or time.monotonic() > end:
                    raise BadSite(f"nginx does not start: {started.stdout.read().decode()[-500:]}")
                time.sleep(0.05)
            # so that a body that is written to a file, and not kept in memory, is a fault
            os.rmdir(f"{folder}/gone")
            yield Front(folder, port)
        finally:
            started.send_signal(signal.SIGTERM)
            started.wait(SECONDS)
