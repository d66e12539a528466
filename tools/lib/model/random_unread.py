"""What almost reads as a request over HTTP: bodies, heads, targets and lengths with something that is likely to be
bad."""
import json
from random import Random
from typing import Any

from .exchange import Sent
from .world import one_in

# JSON values that no key takes, or only some.
STRANGE = (
    None, True, 7, "", "X", "9X", "anna", "READ", "C1", "*", [], {}, 0.5, "é", "A" * 64, "a" * 64, "OPERCMDS", "MVS.**",
    "SYS,SYS", "IO,SYS", "AUTO",
)
# What stands in the place of an object's closing brace.
ENDS = (
    "", ",}", ',"id":01}', ',"id":"\t"}', ',"text":NaN}', ',"text":1e999}', ',"text":"\\ud800"}',
    ',"text":"\\ud800","text":"D U"}', ',"text":"D\\u0020U\\ud83d\\ude00"}', ',"text":"D U"}', "}x", "}\x00",
    "} \r\n\t", '}"', "}}",
)
BODIES = (b"", b"[]", b'"text"', b"null", b"{}", b"{", b" ", b'{"text":"\xff"}')

TARGETS = (
    "/", "/consoles", "/consoles/C1", "/consoles/C1/command/", "/consoles//command", "/consoles/C1/profiles/operator",
    "/consoles/C1/profiles/", "/consoles/C1/profiles/OPERCMD%53", "/consoles/C1/account/1", "/consoles/C1/account/1/0",
    "/consoles/C1/account/+1/1", "/consoles/C1/account/1/1001", "/consoles/C1/account/1/00001",
    "/consoles/C1/account/1234567890123456789/1", "/consoles/C1/account/1/-1", "/consoles/C1/import/0",
    "/consoles/C1/import/000", "/consoles/C1/import/1000000000", "/consoles/C1/import/+1",
    "/consoles/C1/import/0000000001", "/consoles/C1/import/x", "/consoles/C1/import/1.0", "/consoles/C1/import/%31",
)
CONSOLES = ("%43", "c", "%23", "%24%40", "%2523", "#", "%40C", "9", "A%23A", "%2", "%23%23%23%23%23%23%23%23")
METHODS = ("GET", "POST", "PUT", "DELETE", "OPTIONS", "HEAD", "post")
FIELDS = (
    ("Transfer-Encoding", "chunked"), ("transfer-encoding", ""), ("Content-Length", "0"), ("Expect", "100-continue"),
    ("X", "y"), ("Content-Type", "text/plain"),
)
# Fields of a request to a strict service, where PORT stands for its port: those that name it, and those that do not, or
# say that a web page sends it.
HOSTS = ("127.0.0.1:PORT", "localhost:PORT", "LocalHost:PORT")
OTHER_HOSTS = (
    "127.0.0.1", "localhost", "127.0.0.1:", "127.0.0.1:0PORT", "127.0.0.1:PORT0", "127.0.0.2:PORT", "[::1]:PORT",
    "localhost.:PORT", "room:PORT", "evil.example", "PORT", "", "http://127.0.0.1:PORT",
    "127.0.0.1:PORT,localhost:PORT",
)
OF_PAGES = (
    ("Origin", "null"), ("origin", "http://127.0.0.1:PORT"), ("ORIGIN", ""), ("Sec-Fetch-Site", "cross-site"),
    ("sec-fetch-site", "none"), ("Host", "localhost:PORT"), ("host", "evil.example"),
)
NOT_OF_PAGES = (
    ("Origins", "x"), ("X-Origin", "null"), ("Referer", "http://evil.example/"), ("Sec-Fetch-Mode", "cors"),
    ("X-Host", "evil.example"),
)


def spoiled(chance: Random, found: dict[str, Any]) -> bytes:
    """The text of an object with something that is likely to be bad."""
    found, key = dict(found), chance.choice(list(found))
    way = chance.randrange(8)
    if way == 0:
        del found[key]
    elif way == 1:
        found[chance.choice(("x", "Op", "restricted", "when", "id", ""))] = chance.choice(STRANGE)
    elif way <= 4:
        found[key] = chance.choice(STRANGE)
    elif way == 5:
        text = json.dumps(found)
        return chance.choice(
            (f"[{text}]", f"\ufeff{text}", text.replace('"', "'"), text.replace(":", ""), text.replace(",", ",,"))
        ).encode()
    elif way == 6:
        return (json.dumps(found)[:-1] + chance.choice(ENDS)).encode()
    else:
        return chance.choice(BODIES)
    return json.dumps(found).encode()


def unread(chance: Random, sent: Sent) -> Sent:
    """What was to be sent, with something that is likely to be bad around its body."""
    target, size = sent.target, len(sent.body)
    lengths = (
        f"+{size}", f"{size},{size}", f"{size:09}", f"{size:010}", "", "-1", "x", f"  {size}\t", "65537", f"{size}.0",
        str(size + 1), str(max(size - 1, 0)), "999999999",
    )
    targets = (
        target + "/", target + "?x=1", target.replace("/C", "//C", 1), target.replace("/C", "/C/", 1), target.upper(),
        target.rpartition("/")[0], target + "é", target + "/1", target + "\x7f", target + " x",
    )
    ways = [
        lambda: sent._replace(target=chance.choice(targets)),
        lambda: sent._replace(target=target.replace("C", chance.choice(CONSOLES), 1)),
        lambda: sent._replace(target=chance.choice(TARGETS), method=chance.choice(("GET", "POST"))),
        lambda: sent._replace(method=chance.choice(METHODS)),
        lambda: sent._replace(fields=(*sent.fields, chance.choice(FIELDS))),
        lambda: sent._replace(fields=(("CONTENT-length", chance.choice(lengths)),)),
        lambda: sent._replace(body=sent.body[:chance.randrange(size)] if size else b""),
        lambda: sent._replace(body=sent.body + b"{}"),
        lambda: sent._replace(size=chance.randrange(len(sent.data()) - size)),
        # the body of a GET is read, and ignored
        lambda: sent._replace(
            method="GET", target="/consoles/C1/profiles/OPERCMDS", body=b"abc",
            fields=(("Content-Length", chance.choice("234")),),
        ),
    ]
    found = chance.choice(ways)()
    return chance.choice(ways)() if one_in(chance, 8) else found


def addressed(chance: Random, sent: Sent) -> Sent:
    """What was to be sent, to a strict service: mostly with a field Host that names it, and with no field of a page."""
    fields = [] if one_in(chance, 20) else [("Host", chance.choice(OTHER_HOSTS if one_in(chance, 12) else HOSTS))]
    fields += [chance.choice(OF_PAGES)] if one_in(chance, 12) else []
    fields += [chance.choice(NOT_OF_PAGES)] if one_in(chance, 6) else []
    chance.shuffle(fields)
    return sent._replace(fields=(*fields, *sent.fields))


def post(target: str, body: bytes) -> Sent:
    return Sent("POST", target, body, (("Content-Length", str(len(body))),))
