"""Requests over HTTP whose heads, targets or bodies are turned, to one service after another."""
import json
from dataclasses import dataclass
from random import Random
from typing import Callable

from lib.model import exchange, random_lines, random_requests, random_unread, tables
from lib.model.exchange import Sent
from lib.model.machine import State
from lib.model.steps import CLOCK, SOME_PORT, answered, without_clock
from lib.model.world import one_in
from lib.service import Service
from . import bases, heads, rules, runs, turning
from .bases import Base
from .inputs import Input, shown
from .runs import Wrong

FIELDS = (
    b"Host: room", b"Content-Length: 0", b"content-length:14", b"Transfer-Encoding: chunked", b"Expect: 100-continue",
    b"Connection: keep-alive", b"X:", b":x", b" X: y", b"X : y", b"X", b"X: \xff\xfe", b"X: a\x00b", b"X: a\rb",
    b"X: \x7f", b"X-\xc3\xa9: y", b"Content-Length: +5", b"Content-Length: 5, 5", b"Content-Length:  5\t",
    b"Content-Length: 65537", b"Content-Length: 999999999", b"Content-Length: 9999999999",
    b"Content-Length: 18446744073709551616", b"Upgrade: h2c", b"Content-Length: 0x5", b"Content-Length:", b"X: y\r\n z",
    b"Origin: null", b"origin:", b"ORIGIN : x", b"Sec-Fetch-Site: none", b"sec-fetch-SITE:", b"Host: localhost:PORT",
    b"host:127.0.0.1:PORT", b"Host: 127.0.0.1:PORT\xe9", b"Host:",
)
HEADS = (*turning.PIECES, b"\r\n\r\n", b"\n\n", b" HTTP/1.1", b"HTTP/2.0", b"GET ", b"POST  ", b"\r\n ", *FIELDS)
TARGETS = (
    *turning.PIECES, b"%23", b"%24", b"%40", b"%2", b"%2F", b"%00", b"%25", b"/..", b"/./", b"//", b"?", b"#", b"&x=1",
    b"/consoles/", b"/command", b"/import/1", b"/account/0/1", b"/profiles/CONSOLE", b"999999999", b"000000001", b";",
    b"http://room", b"\xd9\xa1", b"1e3",
)
DIGITS = (
    b"0", b"1", b"00", b"7", b"1000", b"1001", b"0030", b"00030", b"999999999", b"1000000000", b"0000000001", b"+1",
    b"999999999999999999", b"1000000000000000000", b"0000000000000000001", b"-1", b"1.0", b"\xd9\xa1", b"1e3", b"0x1",
    b"18446744073709551616", b"9" * 400,
)
PARTS = (
    *DIGITS, b"%23A", b"%24", b"A%40", b"%2", b"%25", b"C1", b"C2", b"C3", b"C", b"c2", b"9", b"#A", b"CONSOLE",
    b"OPERCMDS", b"OPERCMD%53", b".", b"..", b";", b"\x00", b"\xff", b"~",
)
FORMS = (
    "/consoles/C2/command", "/consoles/C2/import/7", "/consoles/C2/account/0/5", "/consoles/C1/profiles/OPERCMDS",
    "/consoles/%23A%24%40/command", "/consoles/C2/admin", "/consoles/C2/account/1/1000",
    "/consoles/C2/profiles/CONSOLE",
)
COMMANDS = (*(piece.encode() for piece in random_lines.PIECES), *turning.PIECES)
BODIES = (
    *turning.PIECES, b'"text"', b'"op":"AddUser",', b"null", b"true", b"-0", b"1e999", b"1E5", b"\\u0000", b"\\ud800",
    b"\\udc00", b"\\ud83d\\ude00", b"\\x41", b"\\/", b"[" * 100, b'{"a":' * 100, b'"when":null,', b'"id":"*"', b"/**/",
    b"NaN", b"Infinity", b"0.0", b"01", b"\xc0\x80", b"\xf4\x90\x80\x80",
)
GROUP = 50  # requests to one service


@dataclass
class Requests(Input):
    """Requests to one service, where PORT stands for its port; each is compared with the model, which knows what those
    before it left."""
    pieces: list
    base: Base
    is_strict: bool

    def tried(self, room: str) -> None:
        file = f"{room}/db"
        bases.copy(self.base.file("plain"), file)
        try:
            self.served(file, room)
        finally:
            bases.remove(file)

    def served(self, file: str, room: str) -> None:
        state = copied(self.base.state)
        # (one more ends the service, after its memory was looked at)
        with Service(file, "--count", str(len(self.pieces) + 1), *self.words()) as service:
            for self.at, piece in enumerate(self.pieces):
                data = piece.replace(b"PORT", b"%d" % service.port)
                strict = service.port if self.is_strict else None
                wants_response(service, data, without_clock(answer(state, data, strict)))
            memory = most_memory(service.process.pid)
            answered(service.port, b"")
            ended = service.ended(runs.SECONDS)
        if ended != (0, "", ""):
            raise Wrong("how the service ends", ended)
        if memory > runs.MEMORY:
            raise Wrong("it takes too much memory", f"{memory >> 20} MB")
        held = bases.looked(file, room)
        if held.faults:
            raise Wrong("the file is not sound afterwards", held.faults)
        bases.wants_rows(held, tables.printed(tables.of_state(state)))

    def words(self) -> list[str]:
        return ["--strict"] if self.is_strict else []

    def kept(self) -> dict[str, bytes]:
        files = {f"request-{at}": data.replace(b"PORT", b"8011") for at, data in enumerate(self.pieces)}
        with open(self.base.file("plain"), "rb") as file:
            words = ["serve", "--db", "db", "--port", "8011", *self.words()]
            return {**files, "db": file.read(), "words": shown(words)}


def copied(state: State) -> State:
    return State(state.policy.copied(), state.board.copied(), list(state.account), dict(state.batches))


def answer(state: State, data: bytes, strict: int | None) -> bytes:
    """The model's response, also by a strict service at this port."""
    return exchange.exchange(state, CLOCK, heads.sent(data), strict)


def wants_response(service: Service, data: bytes, wanted: bytes) -> None:
    try:
        found = without_clock(answered(service.port, data))
    except OSError as error:
        status, _, said = service.ended(1)
        raise Wrong("no response", f"{error!r}, its status {status}, it says {said[:600]!r}") from None
    wrong = rules.wrong_response(found)
    if wrong:
        status, _, said = service.ended(0.1) if not found else (None, "", "")
        raise Wrong("not the form of a response", f"{wrong} {status} {said[:600]!r}" if not found else wrong)
    if found != wanted:
        raise Wrong("not the model's response", f"asked {data[:300]!r}, program {found!r}, model {wanted!r}"[:2_000])


def most_memory(process: int) -> int:
    """The most bytes of memory that a process had so far."""
    with open(f"/proc/{process}/status", encoding="utf-8") as file:
        return next(int(line.split()[1]) << 10 for line in file if line.startswith("VmHWM:"))


def make(turns: Callable[[Random, Sent], bytes]) -> Callable[[Random, Base, int], Requests]:
    """What makes a group of requests: those of the model's tool, turned. Each is made along the model."""
    def made(chance: Random, base: Base, size: int) -> Requests:
        state, found, kept, is_strict = copied(base.state), [], {}, one_in(chance, 4)
        for _ in range(size):
            sent = random_requests.any_sent(chance, state, kept)
            data = turns(chance, random_unread.addressed(chance, sent) if is_strict else sent)
            answer(state, data.replace(b"PORT", b"%d" % SOME_PORT), SOME_PORT if is_strict else None)
            found.append(data)
        return Requests(found, base, is_strict)
    return made


def turned_head(chance: Random, sent: Sent) -> bytes:
    """A request whose head is turned; its body is as it was."""
    data = sent.data()
    head, end, body = data.partition(b"\r\n\r\n")
    lines, way = (head + end).split(b"\r\n"), chance.randrange(12)
    if way <= 3:
        return turning.turned(chance, head + end, HEADS) + body
    if way <= 5:
        lines[1:1] = chance.choices(FIELDS, k=chance.choice((1, 1, 2)))
    elif way == 6:
        lines[1:1] = [b"X%d: y" % at for at in range(32 - len(lines) + 3 + chance.randint(-2, 2))]
    elif way == 7:
        size = 8_192 - len(head) - 9 + chance.randint(-2, 2)
        lines[1:1] = [b"X: " + chance.choice((b"y", b"\xff", b" ", b"\t")) * size]
    elif way == 8:
        return chance.choice((b"\r\n", b"\n", b"\r", b" ", b"\n\r\n", b"\xef\xbb\xbf", b"\r\n" * 4_000)) + data
    elif way == 9:
        return head.replace(b"\r\n", b"\n") + chance.choice((b"\n\n", b"\r\n\n", b"\n\r\n", b"\r\r\n")) + body
    elif way == 10:
        lines[0] = turning.turned(chance, lines[0], HEADS)
    else:
        return data[:chance.randint(0, len(data))]
    return b"\r\n".join(lines) + body


def turned_target(chance: Random, sent: Sent) -> bytes:
    """A request whose target is turned, as a whole or in one of its parts."""
    parts = (chance.choice(FORMS) if one_in(chance, 3) else sent.target).encode().split(b"/")
    if len(parts) < 4 or one_in(chance, 3):
        turned = turning.turned(chance, b"/".join(parts), TARGETS)
    else:
        at = chance.choice([2, *range(4, len(parts))])
        pool = DIGITS if parts[3] in (b"account", b"import") and at >= 4 else PARTS
        parts[at] = chance.choice(pool) if one_in(chance, 3) else turning.once(chance, parts[at], pool)
        turned = b"/".join(parts)
    head, end, body = sent._replace(target="TARGET").data().partition(b" HTTP/")
    return head.replace(b"TARGET", turned) + end + body


def turned_value(chance: Random, body: bytes) -> bytes:
    """A body of JSON of which one value is another, or one text is turned or written by escapes; it mostly reads."""
    try:
        found = json.loads(body)
    except (ValueError, RecursionError):
        found = None
    if not isinstance(found, dict) or not found:
        return turning.turned(chance, body, BODIES)
    key, way = chance.choice(list(found)), chance.randrange(6)
    value = found[key]
    if way == 0 or not isinstance(value, str):
        found[key] = chance.choice(random_unread.STRANGE)
    elif way <= 2:
        found[key] = turning.turned(chance, value.encode(errors="replace"), COMMANDS).decode(errors="replace")
    elif way == 3:
        found[key] = random_lines.almost(chance, value)
    text = json.dumps(found, ensure_ascii=one_in(chance, 2), indent=chance.choice((None, None, 1)))
    if way == 4:
        # letters and digits stand in texts, or in words and numbers, which no escape may stand in
        at = chance.choice([at for at, character in enumerate(text) if character.isalnum() and character.isascii()])
        text = f"{text[:at]}\\u{ord(text[at]):04x}{text[at + 1:]}"
    return text.encode(errors="replace")


def turned_whole(chance: Random, body: bytes) -> bytes:
    return turning.turned(chance, body, BODIES)


def turned_body(chance: Random, sent: Sent) -> bytes:
    """A request whose body is turned, with its length; now and then with another length."""
    body = sent.body
    others = [field for field in sent.fields if field[0].lower() in ("host", "origin", "sec-fetch-site")]
    if sent.method != "POST" or one_in(chance, 4):
        sent = random_requests.post("/consoles/C2/command", b"")
        body = chance.choice((b'{"text":"D U"}', b'{"text":"L \'x\'"}', b'{"text":"D C","text":"D R"}'))
    for _ in range(chance.choice((1, 1, 1, 2))):
        body = (turned_value if not one_in(chance, 3) else turned_whole)(chance, body)
    if one_in(chance, 40):
        body = chance.choice((body.ljust(65_536), body.ljust(65_537), b"[" * 400 + b"]" * 400, body + b"\n" * 60_000))
    length = len(body) + (chance.choice((-1, 1, 7)) if one_in(chance, 20) else 0)
    fields = (*others, ("Content-Length", str(max(length, 0))))
    return sent._replace(fields=fields, body=b"").data() + body
