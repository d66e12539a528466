"""Heads and bodies at their limits, targets that are none, and the header fields of common clients."""
import json
import shutil

from lib import clients, stored
from lib.answers import done, refused, unread
from lib.places import HEADER
from lib.service import Service
from lib.tally import Tally

MOST = 65_536  # bytes of a body
COMMAND = "/consoles/C2/command"
DISPLAY = b'{"text":"D U"}'
DEVICES = done("0A80 ONLINE  ------ -", rule="GROUP INFO AUTH MASTER")
LOGGED = done(rule="GROUP INFO AUTH MASTER")

# Header fields as clients send them, with the version of HTTP.
FIELDS = {
    "curl": (
        "1.1",
        "Host: 127.0.0.1|User-Agent: curl/7.88.1|Accept: */*|Content-Type: application/x-www-form-urlencoded",
    ),
    "curl that expects": ("1.1", "Host: 127.0.0.1|User-Agent: curl/8.5.0|Accept: */*|Expect: 100-continue"),
    "wget": (
        "1.1",
        "User-Agent: Wget/1.21.3|Accept: */*|Accept-Encoding: identity|Host: 127.0.0.1|Connection: Keep-Alive",
    ),
    "urllib": ("1.1", "Accept-Encoding: identity|Host: 127.0.0.1|User-Agent: Python-urllib/3.11|Connection: close"),
    "requests": (
        "1.1",
        "Host: 127.0.0.1|User-Agent: python-requests/2.31.0|Accept-Encoding: gzip, deflate, br|Accept: */*|"
        "Connection: keep-alive",
    ),
    "Go": ("1.1", "Host: 127.0.0.1|User-Agent: Go-http-client/1.1|Accept-Encoding: gzip"),
    "Java": (
        "1.1",
        "Connection: Upgrade, HTTP2-Settings|Host: 127.0.0.1|HTTP2-Settings: AAEAAEAAAAIAAAABAAMAAABkAAQBAAAAAAUAAEAA|"
        "Upgrade: h2c|User-Agent: Java-http-client/17.0.9",
    ),
    "a browser": (
        "1.1",
        "Host: 127.0.0.1|User-Agent: Mozilla/5.0 (X11; Linux x86_64; rv:120.0) Gecko/20100101 Firefox/120.0|"
        "Accept: application/json, */*;q=0.8|Accept-Language: de,en-US;q=0.7,en;q=0.3|"
        "Accept-Encoding: gzip, deflate, br|Origin: http://127.0.0.1|DNT: 1|Connection: keep-alive|"
        'Cookie: a=b; c="d"|Sec-Fetch-Dest: empty|Sec-Fetch-Mode: cors|Sec-Fetch-Site: same-origin|'
        "Pragma: no-cache|Cache-Control: no-cache",
    ),
    "nginx before it": (
        "1.0",
        "Host: room|X-Real-IP: 192.0.2.7|X-Forwarded-For: 192.0.2.7, 198.51.100.2|X-Forwarded-Proto: https|"
        "Connection: close",
    ),
    "HAProxy before it": (
        "1.1",
        "host: room|user-agent: curl/7.88.1|accept: */*|x-forwarded-for: 192.0.2.7|"
        "forwarded: for=192.0.2.7;proto=https",
    ),
    "no field": ("1.0", ""),
}


def request(
    fields: str, version: str = "1.1", method: str = "POST", path: str = COMMAND, body: bytes = DISPLAY,
    length: int | str | None = None,
) -> bytes:
    lines = [
        f"{method} {path} HTTP/{version}",
        *(fields.split("|") if fields else []),
        f"Content-Length: {len(body) if length is None else length}",
        "",
        "",
    ]
    return "\r\n".join(lines).encode() + body


def of_clients(tally: Tally, port: int) -> None:
    for name, (version, fields) in FIELDS.items():
        tally.equal(f"the header fields of {name}", clients.sent(port, request(fields, version)), DEVICES)
    expecting = clients.by_curl(port, "POST", COMMAND, DISPLAY.rjust(2_000), ["-H", "Expect: 100-continue"])
    tally.equal("a curl that expects 100 before it goes on", expecting, DEVICES)
    streaming = clients.by_curl(port, "POST", COMMAND, DISPLAY, ["-H", "Transfer-Encoding: chunked"])
    tally.equal("a body in chunks", streaming, unread(400))
    chosen = clients.by_http_client(port, "POST", COMMAND, DISPLAY, {"Connection": "keep-alive", "Accept": "text/html"})
    tally.equal("a client that would go on and takes no JSON", chosen, DEVICES)


def heads(tally: Tally, port: int) -> None:
    for size, wanted in ((8_192, DEVICES), (8_193, unread(400))):
        bare = len(request("X: ")) - len(DISPLAY)
        tally.equal(f"a head of {size:,} bytes", clients.sent(port, request("X: " + "x" * (size - bare))), wanted)
    for count, wanted in ((32, DEVICES), (33, unread(400))):
        tally.equal(
            f"{count} fields", clients.sent(port, request("|".join(f"X{at}: y" for at in range(count - 1)))), wanted
        )
    for length in ("+14", "14,14", "0000000014", "", "-1", "0x0E", "14 14"):
        tally.equal(f"the length {length!r}", clients.sent(port, request("", length=length)), unread(400))
    tally.equal("two lengths", clients.sent(port, request("Content-Length: 14")), unread(400))
    tally.equal("spaces round a length", clients.sent(port, request("", length=" \t14 ")), DEVICES)
    tally.equal("a head of lines without CR", clients.sent(port, request("").replace(b"\r\n", b"\n")), DEVICES)
    tally.equal("no head", clients.sent(port, b"what is this?\r\n\r\n"), unread(400))
    tally.equal("nothing at all", clients.sent(port, b"", closes=True), unread(400))


def targets(tally: Tally, port: int) -> None:
    for path in (
        "/", "/consoles/C2", "/consoles//command", "/consoles/C2/command/", "/consoles/C2/command?a=b",
        "http://room/consoles/C2/command", "*",
    ):
        tally.equal(f"the target {path}", clients.sent(port, request("", path=path)), unread(404))
    for method in ("GET", "HEAD", "PUT", "DELETE", "OPTIONS", "post"):
        tally.equal(f"{method} of a command", clients.sent(port, request("", method=method)), unread(405, "POST"))
    for path in ("/consoles/C2/profiles/OPERCMDS", "/consoles/C2/account/1/10"):
        tally.equal(f"POST of {path}", clients.sent(port, request("", path=path)), unread(405, "GET"))
    for path in (
        "/consoles/c2/command", "/consoles/C%32/command", "/consoles/C/command", "/consoles/C2/import/0",
        "/consoles/C2/import/1000000000",
    ):
        tally.equal(f"the path {path}", clients.sent(port, request("", path=path)), unread(400))
    for path in (
        "profiles/FACILITY", "account/1/0", "account/1/1001", "account/x/1", f"account/{'1' * 19}/1", "account/1/+1"
    ):
        tally.equal(
            f"the path {path}",
            clients.sent(port, request("", method="GET", path=f"/consoles/C2/{path}", body=b"")),
            unread(400),
        )


def bodies(tally: Tally, port: int) -> None:
    for size, wanted in ((MOST, LOGGED), (MOST + 1, unread(413))):
        body = b'{"text":"L \'large\'"}'.ljust(size)
        for name, ask in clients.CLIENTS.items():
            tally.equal(f"a body of {size:,} bytes, by {name}", ask(port, "POST", COMMAND, body), wanted)
    for body in (
        b"", b"D U", b'"D U"', b'["D U"]', b"{}", b'{"text":1}', b'{"text":"D U","more":1}', b'{"Text":"D U"}',
        b'{"text":"D U"', b'{"text":"\xff"}',
    ):
        tally.equal(f"the body {body!r}", clients.sent(port, request("", body=body)), unread(400))
    twice = b'{"text":"XYZ","text":"D U"}'
    tally.equal("a key that stands twice", clients.sent(port, request("", body=twice)), DEVICES)
    escaped = b'{"text":"\\u0044 U"}'
    tally.equal("an escape", clients.sent(port, request("", body=escaped)), DEVICES)
    more = request("") + b"x" * 100_000
    tally.equal("bytes after the body", clients.sent(port, more), DEVICES)


def batches(tally: Tally, port: int, file: str) -> None:
    """A policy file at the limit of a body: rows, and empty lines up to it."""
    lines = [HEADER, *(f"group,,G{at:05},,,,," for at in range(3_000))]
    data = "".join(f"{line}\n" for line in lines).encode().ljust(MOST, b"\n")
    path = "/consoles/C2/import/7"
    tally.equal("a policy file of 65,537 bytes", clients.by_curl(port, "POST", path, data + b"\n"), unread(413))
    tally.equal("a policy file of 65,536 bytes", clients.by_curl(port, "POST", path, data), done("BATCH 7 KEPT"))
    tally.equal("its rows", stored.rows(file, "SELECT count(*) FROM grp WHERE name GLOB 'G[0-9]*'"), ["3000"])
    tally.equal("a policy file that is not UTF-8", clients.by_curl(port, "POST", path, b"\xff\xfe"), unread(400))


def limits(tally: Tally, room: str, base: str) -> None:
    file = f"{room}/limits"
    shutil.copy(base, file)
    with Service(file) as service:
        for part in (of_clients, heads, targets, bodies):
            part(tally, service.port)
        tally.equal("no row of the account before", stored.account(file), [])
        tally.equal("the lines of the log", stored.rows(file, "SELECT text FROM log"), ["large"] * len(clients.CLIENTS))
        strange = clients.by_curl(service.port, "POST", "/consoles/A%231/command", DISPLAY)
        tally.equal("a console with an escape", strange, refused("E10", "NoConsole"))
        logon = clients.by_curl(service.port, "POST", COMMAND, json.dumps({"text": "LOGON SECADM,ABC"}).encode())
        tally.equal("a logon", logon, done(rule="NOPROFILE"))
        batches(tally, service.port, file)
        tally.equal("the account", stored.account(file), ["1 A#1 - E10 -"])
