"""Worked questions over the base policy, by docs/rules/decide.md: their routes, bodies and answers."""
from typing import Any, NamedTuple

from lib import clients
from lib.model import point
from lib.tally import Tally
from .asking import Point, answer, asked, base_policy, bytes_of, console, entering, fault, having, put, response
from .asking import results, user

PAYROLL = "PROFILE OPERCMDS MVS.CANCEL.JOB.PAY* HELD NONE NEEDED UPDATE"
BACKUP = "PROFILE OPERCMDS MVS.CANCEL.JOB.* HELD UPDATE NEEDED UPDATE"
DISPLAY = "PROFILE OPERCMDS MVS.DISPLAY.** HELD READ NEEDED READ"
VARY = "PROFILE OPERCMDS MVS.VARY.DEV HELD NONE NEEDED UPDATE WARNED"
LOG = "PROFILE OPERCMDS MVS.** HELD READ NEEDED READ"
ANNA, BERT, CARL = user("ANNA"), user("BERT"), user("CARL")
ENTER, COMMAND = {"name": "enter"}, "command"
LOGON = {"name": "LOGON"}


class Worked(NamedTuple):
    title: str
    kind: str
    body: object
    value: object
    status: int = 200


def one(title: str, body: object, value: object, status: int = 200) -> Worked:
    return Worked(title, "evaluation", body, value, status)


def bad(title: str, body: object, text: str, kind: str = "evaluation") -> Worked:
    return Worked(title, kind, body, text, 400)


def with_part(key: str, value: object, body: dict[str, Any] | None = None) -> dict[str, Any]:
    """A good question, or this one, with something else as one of its parts."""
    return (body or entering(ANNA, "C BACKUP")) | {key: value}


def without(key: str) -> dict[str, Any]:
    return {own: value for own, value in entering(ANNA, "C BACKUP").items() if own != key}


QUESTIONS = [
    one("a command that a profile denies", entering(ANNA, "C PAYROLL", console="C1"), answer("DENIED", PAYROLL)),
    one("a command that a profile allows", entering(ANNA, "C BACKUP"), answer("ALLOWED", BACKUP)),
    one("a command that only a warning lets pass", entering(ANNA, "V 0A80,OFFLINE"), answer("WARNED", VARY)),
    one("a command that needs more than is held", entering(ANNA, "FORCE PAYROLL"),
        answer("DENIED", "PROFILE OPERCMDS MVS.** HELD READ NEEDED CONTROL")),
    one("a command whose line is hidden", entering(ANNA, "D A,SECRET", console="C1"),
        answer("HIDDEN", "PROFILE OPERCMDS MVS.DISPLAY.JOB.SECRET HELD NONE NEEDED READ")),
    one("a command by nobody", entering(console("C1"), "C PAYROLL"), answer("ALLOWED", "GROUP SYS AUTH SYS")),
    one("a command by nobody at a console that wants a logon", entering(console("C3"), "D U"),
        answer("DENIED", "LOGONREQUIRED")),
    one("a command by nobody at a console that is missing", entering(console("C9"), "D U"), answer("NOCONSOLE", None)),
    one("a command by a user who is missing", entering(user("ZOE"), "D U"), answer("NOUSER", None)),
    one("a command about a job", entering(ANNA, "C CICS"), answer("ALLOWED", BACKUP)),
    one("the same command about a started task", entering(ANNA, "C CICS", **{"as": "STC:CICSPROD"}),
        answer("DENIED", "PROFILE OPERCMDS MVS.** HELD READ NEEDED UPDATE")),
    one("a level of access", having(ANNA, "READ", "OPERCMDS", "MVS.LOG"), answer("ALLOWED", LOG)),
    one("a level that is not held", having(ANNA, "UPDATE", "OPERCMDS", "MVS.CANCEL.JOB.PAYROLL"),
        answer("DENIED", PAYROLL)),
    one("a level that no profile decides", having(ANNA, "READ", "CONSOLE", "C1"), answer("UNDECIDED", None)),
    one("a level of a user who is missing", having(user("ZOE"), "READ", "OPERCMDS", "MVS.LOG"), answer("NOUSER", None)),
    one("a LOGON", having(BERT, "LOGON", "CONSOLE", "C1"), answer("ALLOWED", "NOPROFILE")),
    one("a LOGON at a console that is missing", having(BERT, "LOGON", "CONSOLE", "C9"), answer("NOCONSOLE", None)),
    one("a LOGON as a command", entering(BERT, "LOGON BERT,X", console="C1"), answer("ALLOWED", "NOPROFILE")),
    one("keys that are not read",
        with_part("more", [1.5e3], with_part("subject", {**ANNA, "properties": {"ip": "::1"}})),
        answer("ALLOWED", BACKUP)),
]
BAD = [
    bad("no JSON", b"{", "the body is no JSON"),
    bad("an empty body", b"", "the body is no JSON"),
    bad("no UTF-8", b'{"subject":"\xff"}', "the body is no JSON"),
    bad("a body after the body", b"{} {}", "the body is no JSON"),
    bad("an array", [], "the body is no object"),
    bad("null", b"null", "the body is no object"),
    bad("nothing", {}, "the key subject is missing"),
    bad("a subject that is null", with_part("subject", None), "the key subject is invalid"),
    bad("a subject without a type", with_part("subject", {"id": "ANNA"}), "the key subject.type is missing"),
    bad("a subject of another type", with_part("subject", {"type": "group", "id": "OPS"}),
        "the key subject.type is invalid"),
    bad("a subject without an id", with_part("subject", {"type": "user"}), "the key subject.id is missing"),
    bad("a number as an id", with_part("subject", {"type": "user", "id": 7}), "the key subject.id is invalid"),
    bad("a user in small letters", with_part("subject", user("anna")), "the key subject.id is invalid"),
    bad("a console of one letter", with_part("subject", console("C")), "the key subject.id is invalid"),
    bad("no action", without("action"), "the key action is missing"),
    bad("an action without a name", with_part("action", {}), "the key action.name is missing"),
    bad("another action", with_part("action", {"name": "Enter"}), "the key action.name is invalid"),
    bad("the level NONE", having(ANNA, "NONE", "OPERCMDS", "MVS.LOG"), "the key action.name is invalid"),
    bad("no resource", without("resource"), "the key resource is missing"),
    bad("a resource without a type", with_part("resource", {"id": "C BACKUP"}), "the key resource.type is missing"),
    bad("a resource without an id", with_part("resource", {"type": COMMAND}), "the key resource.id is missing"),
    bad("a command of class OPERCMDS", with_part("resource", {"type": "OPERCMDS", "id": "MVS.LOG"}),
        "the key resource.type is invalid"),
    bad("a level of a command", having(ANNA, "READ", COMMAND, "D U"), "the key resource.type is invalid"),
    bad("a level of a pattern", having(ANNA, "READ", "OPERCMDS", "MVS.**"), "the key resource.id is invalid"),
    bad("a LOGON at a resource", having(ANNA, "LOGON", "OPERCMDS", "C1"), "the key resource.type is invalid"),
    bad("a LOGON at no console's name", having(ANNA, "LOGON", "CONSOLE", "9X"), "the key resource.id is invalid"),
    bad("a LOGON by nobody, as an action", having(console("C1"), "LOGON", "CONSOLE", "C1"),
        "the key subject.type is invalid"),
    bad("a LOGON by nobody, as a command", entering(console("C1"), "LOGON ANNA,ABC"),
        "the key subject.type is invalid"),
    bad("a LOGON by nobody, as a command at a console that is missing", entering(console("C9"), "LOGON"),
        "the key subject.type is invalid"),
    bad("a level of nobody", having(console("C1"), "READ", "OPERCMDS", "MVS.LOG"), "the key subject.type is invalid"),
    bad("a context that is null", with_part("context", None), "the key context is invalid"),
    bad("a console that is no name", with_part("context", {"console": "c1"}), "the key context.console is invalid"),
    bad("a console that is null", with_part("context", {"console": None}), "the key context.console is invalid"),
    bad("a unit of another kind", with_part("context", {"as": "STC"}), "the key context.as is invalid"),
    bad("nobody, and another console", entering(console("C1"), "D U", console="C2"),
        "the key context.console is invalid"),
    bad("a LOGON, and another console", having(ANNA, "LOGON", "CONSOLE", "C1", console="C2"),
        "the key context.console is invalid"),
    bad("a LOGON as a command, at no console", entering(ANNA, "LOGON ANNA,ABC"), "the key context.console is missing"),
    bad("a LOGOFF", entering(ANNA, "LOGOFF"), "resource.id: the command needs nothing"),
    bad("a text that is no command", entering(ANNA, "CANCLE X"), "resource.id: E04 UnknownVerb 0 6"),
    bad("an empty command", entering(ANNA, ""), "resource.id: E01 Empty"),
    bad("a long command", entering(ANNA, "D " * 64), "resource.id: E02 TooLong"),
]
SHARED = {"subject": BERT, "action": ENTER}
COMMANDS = [{"resource": {"type": COMMAND, "id": text}} for text in ("C PAYROLL", "D U", "C BACKUP", "CANCLE X")]
ANSWERS = [
    answer("DENIED", "PROFILE OPERCMDS MVS.CANCEL.JOB.PAY* HELD READ NEEDED UPDATE"), answer("ALLOWED", DISPLAY),
    answer("ALLOWED", BACKUP),
    fault("resource.id: E04 UnknownVerb 0 6"),
]


def several(title: str, body: dict[str, Any], *answers: object) -> Worked:
    return Worked(title, "evaluations", body, {"evaluations": list(answers)})


def ending(semantic: str, elements: list[dict]) -> dict[str, Any]:
    return {**SHARED, "evaluations": elements, "options": {"evaluations_semantic": semantic}}


SEVERAL = [
    several("several questions", {**SHARED, "evaluations": COMMANDS}, *ANSWERS),
    several("all of them", ending("execute_all", COMMANDS), *ANSWERS),
    several("up to the first denial, which is the first", ending("deny_on_first_deny", COMMANDS), ANSWERS[0]),
    several("up to the first denial", ending("deny_on_first_deny", COMMANDS[1:]), *ANSWERS[1:]),
    several("up to the first permit", ending("permit_on_first_permit", COMMANDS), *ANSWERS[:2]),
    several("up to the first permit, without one", ending("permit_on_first_permit", [COMMANDS[0], COMMANDS[3]]),
            ANSWERS[0], ANSWERS[3]),
    several("options without a semantic", {**SHARED, "evaluations": COMMANDS[:1], "options": {"x": 1}}, ANSWERS[0]),
    several("an element with a subject of its own", {**SHARED, "evaluations": [{**COMMANDS[2], "subject": CARL}]},
            answer("DENIED", "PROFILE OPERCMDS MVS.CANCEL.JOB.* HELD NONE NEEDED UPDATE")),
    several("a part of an element is a whole object", {**SHARED, "evaluations": [{**COMMANDS[2], "subject": {}}]},
            fault("the key subject.type is missing")),
    several("a shared context", {**SHARED, "context": {"console": "C1"}, "evaluations": COMMANDS[:1]}, ANSWERS[0]),
    several("a context of its own",
            {**SHARED, "context": {"console": "c"}, "evaluations": [{**COMMANDS[0], "context": {}}]}, ANSWERS[0]),
    several("an element that is no object", {**SHARED, "evaluations": [7, *COMMANDS[1:2]]},
            fault("the key evaluations is invalid"), ANSWERS[1]),
    several("an element that lacks what nothing shares", {"evaluations": [COMMANDS[0]]},
            fault("the key subject is missing")),
    Worked("no list", "evaluations", entering(ANNA, "C BACKUP"), answer("ALLOWED", BACKUP)),
    Worked("an empty list", "evaluations", with_part("evaluations", []), answer("ALLOWED", BACKUP)),
    Worked("an empty list, whatever the options are", "evaluations",
           with_part("evaluations", [], with_part("options", 7)), answer("ALLOWED", BACKUP)),
    bad("no list, and no question", {}, "the key subject is missing", "evaluations"),
    bad("several in no list", {**SHARED, "evaluations": {}}, "the key evaluations is invalid", "evaluations"),
    bad("several, null", {**SHARED, "evaluations": None}, "the key evaluations is invalid", "evaluations"),
    bad("options that are none", {**ending("", COMMANDS), "options": []}, "the key options is invalid", "evaluations"),
    bad("another semantic", ending("EXECUTE_ALL", COMMANDS), "the key options.evaluations_semantic is invalid",
        "evaluations"),
    bad("a semantic that is null", {**ending("", COMMANDS), "options": {"evaluations_semantic": None}},
        "the key options.evaluations_semantic is invalid", "evaluations"),
]


def search(kind: str, title: str, body: dict[str, Any], value: object) -> Worked:
    return Worked(title, kind, body, value)


def paged(body: dict[str, Any], **page: object) -> dict[str, Any]:
    return {**body, "page": page}


WHO = {"subject": {"type": "user"}, "action": ENTER, "resource": {"type": COMMAND, "id": "C BACKUP"}}
NOBODY = {**WHO, "subject": {"type": "console"}}
LOGGING_ON = {**NOBODY, "resource": {"type": COMMAND, "id": "LOGON"}}
WHAT = {"subject": ANNA, "resource": {"type": "OPERCMDS", "id": "MVS.CANCEL.JOB.BACKUP"}}
WHERE = {"subject": BERT, "action": LOGON, "resource": {"type": "CONSOLE"}}
NAMES = [{"name": name} for name in ("READ", "UPDATE")]
AT = [{"id": name, "type": "CONSOLE"} for name in ("C1", "C2", "C3")]
SEARCHES = [
    search("subject", "who may enter a command", WHO, results(ANNA, BERT)),
    search("subject", "at which consoles nobody may", NOBODY, results(console("C1"), console("C2"))),
    search("subject", "who has a level", {**WHO, **having({"type": "user"}, "READ", "OPERCMDS", "MVS.LOG")},
           results(ANNA, BERT)),
    search("subject", "who may log on", {**WHO, **having({"type": "user"}, "LOGON", "CONSOLE", "C3")},
           results(ANNA, BERT, CARL, user("SECADM"))),
    search("subject", "an id that is not looked at", {**WHO, "subject": {"type": "user", "id": 7}},
           results(ANNA, BERT)),
    search("subject", "nobody is found", {**WHO, "resource": {"type": COMMAND, "id": "C PAYROLL"}}, results()),
    search("action", "which levels a user has", WHAT, results(*NAMES)),
    search("action", "whether a user may enter a command", {**WHAT, "resource": {"type": COMMAND, "id": "C BACKUP"}},
           results(ENTER)),
    search("action", "what a user may at a console", {**WHAT, "resource": AT[0]}, results(LOGON)),
    search("action", "an action that is not looked at", {**WHAT, "action": 7}, results(*NAMES)),
    search("action", "a user who is missing", {**WHAT, "subject": user("ZOE")}, results()),
    search("resource", "where a user may log on", WHERE, results(*AT)),
    search("resource", "an id that is no console", {**WHERE, "resource": {"type": "CONSOLE", "id": 7}}, results(*AT)),
    search("subject", "nobody, at one console", {**NOBODY, "context": {"console": "C2"}}, results(console("C2"))),
    search("subject", "nobody, at one console where nobody may", {**NOBODY, "context": {"console": "C3"}}, results()),
    search("resource", "whether a user may log on at one console", {**WHERE, "context": {"console": "C3"}},
           results(AT[2])),
    search("resource", "the first page", paged(WHERE, limit=2), results(*AT[:2], next="C2", total=3)),
    search("resource", "the next page", paged(WHERE, limit=2, token="C2"), results(AT[2], total=3)),
    search("resource", "a page that ends with the last", paged(WHERE, limit=3), results(*AT)),
    search("resource", "a page after the last", paged(WHERE, token="C9"), results(total=3)),
    search("resource", "a page from a name on that nothing has", paged(WHERE, token="C"), results(*AT)),
    search("subject", "a page of one", paged(WHO, limit=1, token=""), results(ANNA, next="ANNA", total=2)),
    search("action", "the next page of levels", paged(WHAT, limit=1, token="READ"), results(NAMES[1], total=2)),
    bad("a search without a subject", {}, "the key subject is missing", "subject"),
    bad("a search for groups", {**WHO, "subject": {"type": "group"}}, "the key subject.type is invalid", "subject"),
    bad("a search without an action", {"subject": {"type": "user"}}, "the key action is missing", "subject"),
    bad("a search for resources of OPERCMDS", {**WHERE, "resource": {"type": "OPERCMDS"}},
        "the key resource.type is invalid", "resource"),
    bad("a search for commands", {**WHERE, "resource": {"type": COMMAND}}, "the key resource.type is invalid",
        "resource"),
    bad("a search at a console that is missing", {**WHERE, "context": {"console": "C9"}},
        "the key context.console is invalid", "resource"),
    bad("a search for consoles that enter LOGON", LOGGING_ON, "the key subject.type is invalid", "subject"),
    bad("a search for consoles that enter LOGON, at the first", {**LOGGING_ON, "context": {"console": "C1"}},
        "the key subject.type is invalid", "subject"),
    bad("a search for consoles that enter LOGON, at another", {**LOGGING_ON, "context": {"console": "C2"}},
        "the key context.console is invalid", "subject"),
    bad("a search for actions without a subject", {"resource": AT[0]}, "the key subject is missing", "action"),
    *(
        bad(f"the limit {limit!r}", paged(WHERE, limit=limit), "the key page.limit is invalid", "resource")
        for limit in (0, 1_001, -1, 1.0, "1", None, True, 2 ** 64)
    ),
    bad("a token that is a number", paged(WHERE, token=1), "the key page.token is invalid", "resource"),
    bad("a page that is none", {**WHERE, "page": []}, "the key page is invalid", "resource"),
]
ALL = [*QUESTIONS, *BAD, *SEVERAL, *SEARCHES]


def worked(tally: Tally, room: str) -> None:
    """Each of them over a port and over a socket, whose responses are the same."""
    path = put(f"{room}/policy.csv", base_policy())
    with Point(path) as service, Point(path, socket=f"{room}/decide.sock") as other:
        for it in ALL:
            wanted = response(it.value, it.status)
            tally.equal(f"{it.kind}: {it.title}", asked(service.port, it.kind, it.body), wanted)
            tally.equal(f"{it.kind}, by a socket: {it.title}", asked(other.socket, it.kind, it.body), wanted)
        for name, ask in clients.CLIENTS.items():
            for it in (QUESTIONS[0], BAD[0], SEVERAL[0], SEARCHES[0]):
                found = ask(service.port, "POST", point.PATHS[it.kind], bytes_of(it.body))
                tally.equal(f"{it.title}, by {name}", found, response(it.value, it.status))
