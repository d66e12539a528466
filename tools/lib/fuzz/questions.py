"""Requests to `decide` whose heads, targets or bodies are turned, to one service after another."""
import json
from dataclasses import dataclass
from random import Random
from typing import Any

from lib.decide.asking import Point, put
from lib.decide.compared import lines_of
from lib.model import decide, point, random_lines, random_questions, random_unread
from lib.model.exchange import Sent
from lib.model.steps import answered
from lib.model.world import one_in
from . import heads, requests, runs, turning
from .bases import Base
from .inputs import Input, shown
from .policies import base_lines
from .runs import Wrong

TARGETS = (
    *turning.PIECES, b"/access/v1/", b"/search/", b"evaluation", b"s", b"subject", b"action", b"resource",
    b"/.well-known/", b"authzen-configuration", b"%2F", b"%65", b"/..", b"/./", b"//", b"?", b"#", b"http://room",
)
FIELDS = (
    b"X-Request-ID: 7", b"x-request-id:\t7 ", b"X-Request-ID: \xc3\xa9", b"X-Request-ID:", b"X-Request-ID: a b",
    b"X-Request-ID: " + b"x" * 129, b"X-Request-ID : 7",
)
BODIES = (
    *requests.BODIES, b'"subject":', b'{"type":"user","id":"ANNA"}', b'"evaluations":[{}],', b'"options":{},',
    b'"page":', b'{"limit":1}', b'"context":null,', b"1e308", b"[" * 126 + b"]" * 126, b"{}", b"[{}]",
)

LONGEST = 500_000  # (a service discards a million bytes that it does not read, and then resets)


def turned_value(chance: Random, value: Any) -> Any:
    """A value of JSON of which one text is turned, or one part is another."""
    if isinstance(value, (dict, list)) and value:
        changed = value.copy()
        key = chance.choice(list(changed)) if isinstance(changed, dict) else chance.randrange(len(changed))
        changed[key] = turned_value(chance, changed[key])
        return changed
    if isinstance(value, str) and not one_in(chance, 4):
        if one_in(chance, 2):
            return random_lines.almost(chance, value)
        return turning.turned(chance, value.encode(errors="replace"), requests.COMMANDS).decode(errors="replace")
    return chance.choice(random_questions.STRANGE)


def turned_body(chance: Random, sent: Sent) -> bytes:
    """A request whose body is turned, with its length; now and then with another length."""
    body, others = sent.body, [field for field in sent.fields if field[0].lower() != "content-length"]
    for _ in range(chance.choice((1, 1, 1, 2))):
        try:
            found = None if one_in(chance, 3) else json.loads(body)
        except (ValueError, RecursionError):
            found = None
        if isinstance(found, dict) and found:
            body = json.dumps(turned_value(chance, found), ensure_ascii=one_in(chance, 2)).encode(errors="replace")
        else:
            body = turning.turned(chance, body, BODIES)
    if one_in(chance, 40):
        body = chance.choice((body.ljust(65_536), body.ljust(65_537), b"[" * 400 + b"]" * 400, body + b"\n" * 60_000))
    length = len(body) + (chance.choice((-1, 1, 7)) if one_in(chance, 20) else 0)
    return sent._replace(fields=(*others, ("Content-Length", str(max(length, 0)))), body=b"").data() + body


def turned_target(chance: Random, sent: Sent) -> bytes:
    turned = turning.turned(chance, sent.target.encode(), TARGETS)
    head, end, body = sent._replace(target="TARGET").data().partition(b" HTTP/")
    return head.replace(b"TARGET", turned) + end + body


def turned_head(chance: Random, sent: Sent) -> bytes:
    data = requests.turned_head(chance, sent)
    return data.replace(b"\r\n", b"\r\n" + chance.choice(FIELDS) + b"\r\n", 1) if one_in(chance, 3) else data


@dataclass
class Questions(Input):
    """Questions to one service, where PORT stands for its port; each response and each line of the log is the
    model's."""
    pieces: list
    policy: bytes
    is_strict: bool

    def tried(self, room: str) -> None:
        held, path, told = decide.present(self.policy), put(f"{room}/policy.csv", self.policy), []
        with open(f"{room}/log", "wb") as errors:
            # (one more ends the service, after its memory was looked at)
            words = ["--log", "--count", str(len(self.pieces) + 1), *["--strict"] * self.is_strict]
            with Point(path, *words, errors=errors) as service:
                for self.at, piece in enumerate(self.pieces):
                    told.append(self.one(service, held, piece.replace(b"PORT", b"%d" % service.port)))
                memory = requests.most_memory(service.process.pid)
                answered(service.port, b"")
                ended = service.ended(runs.SECONDS)
        if ended != (0, "", ""):
            raise Wrong("how the service ends", ended)
        if memory > runs.MEMORY:
            raise Wrong("it takes too much memory", f"{memory >> 20} MB")
        for found, wanted in zip(lines_of(f"{room}/log"), [*told, "- - 400 H400 - - -"], strict=True):
            if found != wanted:
                raise Wrong("not the model's line of the log", f"program {found!r}, model {wanted!r}")

    def one(self, service: Point, held: decide.Present, data: bytes) -> str:
        strict = service.port if self.is_strict else None
        wanted, told = point.exchanged(held, point.local_base(service.port), heads.sent(data), strict)
        try:
            found = answered(service.port, data)
        except OSError as error:
            status, _, said = service.ended(1)
            raise Wrong("no response", f"{error!r}, its status {status}, it says {said[:600]!r}") from None
        if found != wanted:
            more = f"asked {data[:300]!r}, program {found!r}, model {wanted!r}"
            raise Wrong("not the model's response", more[:2_000])
        return told.line()

    def kept(self) -> dict[str, bytes]:
        files = {f"request-{at}": data.replace(b"PORT", b"8012") for at, data in enumerate(self.pieces)}
        words = ["decide", "--policy", "policy.csv", "--port", "8012", *["--strict"] * self.is_strict]
        return {**files, "policy.csv": self.policy, "words": shown(words)}


def make(chance: Random, _: Base, size: int) -> Questions:
    """A group of questions over a policy that is good: those of the model's tool, turned."""
    policy = b"".join(base_lines()) if one_in(chance, 4) else random_questions.any_policy(chance)
    held = decide.present(policy)
    if held is None:
        policy = b"".join(base_lines())
        held = decide.present(policy)
    found, is_strict = [], one_in(chance, 4)
    for _ in range(size):
        sent = random_questions.any_sent(chance, held.state)
        turns = chance.choices((turned_head, turned_target, turned_body), (3, 1, 5))[0]
        found.append(turns(chance, random_unread.addressed(chance, sent) if is_strict else sent)[:LONGEST])
    return Questions(found, policy, is_strict)
