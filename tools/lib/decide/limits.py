"""Bodies at their limits, and JSON that is hostile."""
import json
from typing import Any

from lib import clients
from lib.answers import unread
from lib.model import point
from lib.model.exchange import MOST
from lib.model.json_values import DEEPEST
from lib.tally import Tally
from .asking import Point, answer, asked, base_policy, bytes_of, entering, fault, put, response, user
from .worked import ANNA, BACKUP, COMMANDS, ENTER

GOOD = entering(ANNA, "C BACKUP")
TEXT = bytes_of(GOOD)
ALLOWED = response(answer("ALLOWED", BACKUP))
NO_JSON = response("the body is no JSON", 400)


def with_more(text: str) -> bytes:
    """The good question with one more key, which is not read, and has this value."""
    return TEXT[:-1] + f',"more":{text}}}'.encode()


def sizes(tally: Tally, place: int | str) -> None:
    for size, wanted in ((MOST, ALLOWED), (MOST + 1, unread(413))):
        body = TEXT.ljust(size)
        for name, ask in clients.CLIENTS.items():
            found = ask(place, "POST", point.PATHS["evaluation"], body)
            tally.equal(f"a body of {size:,} bytes, by {name}", found, wanted)
    tally.equal("a body that is announced too long", asked_with(place, b"Content-Length: 65537"), unread(413))
    for size in (8_192, 8_193):
        bare = clients.head("POST", point.PATHS["evaluation"], TEXT, ["X: "])
        head = clients.head("POST", point.PATHS["evaluation"], TEXT, ["X: " + "x" * (size - len(bare))])
        wanted = ALLOWED if size == 8_192 else unread(400)
        tally.equal(f"a head of {size:,} bytes", clients.sent(place, head + TEXT), wanted)
    for count in (32, 33):
        fields = [f"X{at}: y" for at in range(count - 2)]
        found = asked(place, "evaluation", GOOD, *fields)
        tally.equal(f"{count} fields", found, ALLOWED if count == 32 else unread(400))


def asked_with(place: int | str, field: bytes) -> bytes:
    return clients.sent(place, b"POST /access/v1/evaluation HTTP/1.1\r\n" + field + b"\r\n\r\n")


def elements(tally: Tally, place: int | str) -> None:
    """1,000 questions in a list, and one more."""
    shared: dict[str, Any] = {"subject": ANNA, "action": ENTER}
    yes, no = answer("ALLOWED", BACKUP), fault("resource.id: E04 UnknownVerb 0 6")
    for count in (999, 1_000):
        body = json.dumps({**shared, "evaluations": [COMMANDS[2]] * count}, separators=(",", ":")).encode()
        wanted = response({"evaluations": [yes] * count})
        tally.wants(f"{count} questions are not too long", len(body) <= MOST, len(body))
        tally.equal(f"{count} questions", asked(place, "evaluations", body), wanted)
    many = [COMMANDS[3], COMMANDS[2]] * 500
    body = json.dumps({**shared, "evaluations": many}, separators=(",", ":")).encode()
    wanted = response({"evaluations": [no, yes] * 500})
    tally.equal("1,000 questions, half of them bad", asked(place, "evaluations", body), wanted)
    for count, ending in ((1_001, {}), (1_001, {"options": {"evaluations_semantic": "permit_on_first_permit"}})):
        body = json.dumps({**GOOD, **ending, "evaluations": [{}] * count}, separators=(",", ":")).encode()
        wanted = response("the key evaluations is invalid", 400)
        tally.equal(f"{count} questions", asked(place, "evaluations", body), wanted)
    body = json.dumps({**GOOD, "evaluations": [{}] * 1_000}, separators=(",", ":")).encode()
    tally.equal("1,000 empty objects", asked(place, "evaluations", body), response({"evaluations": [yes] * 1_000}))
    body = json.dumps({**GOOD, "evaluations": [[]] * 1_000}, separators=(",", ":")).encode()
    wanted = response({"evaluations": [fault("the key evaluations is invalid")] * 1_000})
    tally.equal("1,000 empty arrays", asked(place, "evaluations", body), wanted)


def depths(tally: Tally, place: int | str) -> None:
    """Arrays and objects within one another; the body itself is one."""
    for opens, inner, closes in (("[", "", "]"), ('{"a":', "1", "}"), ('[{"":', "{}", "}]")):
        per = opens.count("[") + opens.count("{")
        for deep in (DEEPEST, DEEPEST + 1):
            count = (deep - 1 - inner.count("{")) // per
            more = deep - 1 - inner.count("{") - count * per
            text = "[" * more + opens * count + inner + closes * count + "]" * more
            wanted = ALLOWED if deep == DEEPEST else NO_JSON
            tally.equal(f"{deep} of {opens} within one another", asked(place, "evaluation", with_more(text)), wanted)
    for text in ("[" * 60_000, '{"a":' * 12_000, "[" * 30_000 + "]" * 30_000, '{"subject":' * 5_000 + "}" * 5_000):
        tally.equal(f"{text[:12]}.., {len(text):,} bytes", asked(place, "evaluation", text.encode()), NO_JSON)


def values(tally: Tally, place: int | str) -> None:
    """What is no JSON is refused, also where it is not read; the last of equal keys counts."""
    for text in (
        "0", "-0", "1e308", "-1.5E-999", "123456789012345678901234567890", "0.1e1", "9" * 308, "1" + "0" * 308,
        '"\\ud834\\udd1e"', '"\\u0000\\/\\b"', '"\x7f"', '{"":{"":[]}}', " null ", "true", "\r\n\t[\r\n]",
    ):
        tally.equal(f"a key more, {text[:40]}", asked(place, "evaluation", with_more(text)), ALLOWED)
    for text in (
        "01", "-", "+1", "1.", ".5", "1e", "0x1", "NaN", "Infinity", "-Infinity", "1e309", "-1e999", "9" * 309, "nul",
        "True", "'x'", '"', '"\x00"', '"\n"', '"\\x41"', '"\\u12"', '"\\ud834"', '"\\udd1e"', '"\\ud834\\u0041"',
        '"\\udd1e\\ud834"',
        '"\\ud834x"', "[1,]", "{,}", '{"a"}', '{"a":1,}', "{1:2}", "/**/1", "1}{", "\ufeff1", "\u00a0", '"\ud800"',
    ):
        body = with_more("x").replace(b":x}", b":" + text.encode(errors="surrogatepass") + b"}")
        tally.equal(f"a key more, {text[:40]!r}", asked(place, "evaluation", body), NO_JSON)
    for body in (TEXT + b"x", TEXT + b"\x00", b"\xef\xbb\xbf" + TEXT, TEXT.replace(b"C BACKUP", b"C BACKUP\xc0\x80")):
        tally.equal(f"the body {body[-20:]!r}", asked(place, "evaluation", body), NO_JSON)
    tally.equal("spaces around the body", asked(place, "evaluation", b" \r\n\t" + TEXT + b"\r\n "), ALLOWED)
    twice(tally, place)


def twice(tally: Tally, place: int | str) -> None:
    text = TEXT.decode()
    for title, body in {
        "a subject twice": text.replace('{"subject"', '{"subject":{"type":"user","id":"CARL"},"subject"', 1),
        "a subject twice, at first none": text.replace('{"subject"', '{"subject":7,"subject"', 1),
        "an id twice": text.replace('"id": "ANNA"', '"id":"CARL","id":"ANNA"', 1),
        "a key by its escapes": text.replace('"subject"', '"\\u0073ubject"', 1),
        "a value by its escapes": text.replace("C BACKUP", "\\u0043\\u0020BACKUP", 1),
    }.items():
        tally.equal(title, asked(place, "evaluation", body.encode()), ALLOWED)
    other = text.replace('"id": "ANNA"', '"id":"ANNA","id":"anna"', 1).encode()
    tally.equal("an id twice, the last of which is bad", asked(place, "evaluation", other),
                response("the key subject.id is invalid", 400))
    strange = entering(user("ANNA"), "L '\U0001d11e'")
    tally.equal("a command of other characters", asked(place, "evaluation", strange),
                response("resource.id: E03 BadCharacter 3", 400))


def limits(tally: Tally, room: str) -> None:
    path = put(f"{room}/policy.csv", base_policy())
    with Point(path) as service:
        for part in (sizes, elements, depths, values):
            part(tally, service.port)
        tally.wants("it still runs", service.is_running())
