"""Random questions to `decide`: of each kind and of each route, some with something that is likely to be bad."""
import json
from random import Random
from typing import Any

from . import cases, decide, names, point, random_lines, random_policies, random_requests, random_unread, trying, world
from .exchange import Sent
from .machine import State
from .world import mostly, one_in

STRANGE_TARGETS = (
    "/", "/access", "/access/v1", "/access/v1/evaluation/", "/access/v1/evaluation?x=1", "/access/v1/Evaluation",
    "/access/v1/search", "/access/v1/search/subjects", "/access/v2/evaluation", "//access/v1/evaluation",
    "/.well-known/authzen-configuration/", "/.well-known/authzen%2dconfiguration", "/consoles/C1/command",
    "/access/v1/evaluation\u00e9", "http://room/access/v1/evaluation",
)
IDS = (
    "1", "bfe9eb29-ab87-4ca3-be83-a1d5d8305716", "x" * 128, "x" * 129, "", "a b", "~!\"\\", "\u00e9", "a\tb",
    " padded\t",
)
# keys that are ignored, some with what no number or text may be where it is read
MORE = (
    ("properties", {"ip": "192.0.2.7"}), ("more", [1.5, -0.0, 1e300, None, True]), ("id2", "\U0001d11e"), ("", {}),
    ("evaluation", 1), ("n", 123456789012345678901234567890), ("page", {"limit": 7, "x": 1}),
)
STRANGE = (
    None, True, 7, -1, 0.5, "", "X", "9X", "anna", "NONE", "READ", "ENTER", "Logon", "C1", "*", [], {}, "\u00e9",
    "A" * 40, "OPERCMDS", "operator", "user", "console", "command", "MVS.**", {"type": "user", "id": "ANNA"},
    {"name": "enter"},
)
SEMANTICS = ("execute_all", "deny_on_first_deny", "permit_on_first_permit")


def any_user(chance: Random, state: State) -> dict[str, Any]:
    return {"type": "user", "id": mostly(chance, state.policy.users, (*world.USERS, "NOBODY9"))}


def any_console(chance: Random, state: State) -> str:
    return mostly(chance, state.board.consoles, (*world.CONSOLES, *filter(names.is_console, world.USERS), "C9"))


def any_context(chance: Random, state: State, console: str | None = None) -> dict[str, Any]:
    """A context, or none; now and then it names another console than the question."""
    found = {}
    if one_in(chance, 2):
        found["console"] = console if console and not one_in(chance, 6) else any_console(chance, state)
    if one_in(chance, 4):
        found["as"] = chance.choice(("TSU", "STC:PAY", "JOB") * 6 + ("STC:", "STC:A.B", "JOB:PAY", "stc:PAY"))
    return {"context": found} if found or one_in(chance, 8) else {}


def any_command(chance: Random, state: State) -> dict[str, Any]:
    text = random_lines.any_line(chance, state)
    if one_in(chance, 6):
        text = random_lines.typed(chance, chance.choice(("LOGON", "LOGON ANNA", "LOGON X,Y,Z", "LOGOFF")))
    elif one_in(chance, 3):
        text = random_lines.typed(chance, f"D A,{chance.choice(world.UNITS)}")
    elif one_in(chance, 3):
        text = random_lines.typed(chance, f"{chance.choice(('C', 'P', 'FORCE', 'S'))} {chance.choice(world.UNITS)}")
    return {"type": "command", "id": text}


def question(chance: Random, state: State) -> dict[str, Any]:
    """A question of any kind, which mostly reads."""
    way = chance.randrange(8)
    if way <= 3:
        action, resource, console = "enter", any_command(chance, state), None
    elif way <= 5:
        of = chance.choice(names.CLASSES)
        id = any_console(chance, state) if of == "CONSOLE" and not one_in(chance, 4) else world.any_resource(chance)
        action, resource, console = chance.choice(names.LEVELS[1:]), {"type": of, "id": id}, None
    else:
        console = any_console(chance, state)
        action, resource = "LOGON", {"type": "CONSOLE", "id": console}
    subject = any_user(chance, state)
    if action == "enter" and one_in(chance, 3) or one_in(chance, 20):
        console = any_console(chance, state)
        subject = {"type": "console", "id": console}
    return {
        "subject": subject, "action": {"name": action}, "resource": resource, **any_context(chance, state, console)
    }


def several(chance: Random, state: State) -> dict[str, Any]:
    """Several questions, which share what they lack."""
    shared = question(chance, state)
    # (most actions have resources of their own)
    kept = [key for key in shared if not one_in(chance, 3 if key in ("subject", "context") else 2)]
    kept = [key for key in kept if key != "action" or one_in(chance, 3)]
    elements: list[Any] = []
    for _ in range(chance.choice((0, 1, 2, 3, 5, 12))):
        made = question(chance, state)
        element = {key: value for key, value in made.items() if key not in kept or one_in(chance, 4)}
        elements.append(strange(chance, element) if one_in(chance, 8) else element)
    if one_in(chance, 10) and elements:
        elements.insert(chance.randrange(len(elements)), chance.choice(STRANGE))
    found: dict[str, Any] = {key: shared[key] for key in kept}
    if not one_in(chance, 8):
        found["evaluations"] = elements
    if one_in(chance, 2):
        found["options"] = {"evaluations_semantic": chance.choice(SEMANTICS)}
    elif one_in(chance, 8):
        found["options"] = chance.choice(({}, {"evaluations_semantic": "all"}, {"evaluations_semantic": None}, [], "x"))
    return found


def search(chance: Random, state: State, kind: str) -> dict[str, Any]:
    """A search, mostly without what it looks for; some ask for one page of what is found."""
    found = question(chance, state)
    if kind == "resource" and not one_in(chance, 6):
        found |= {"action": {"name": chance.choice(("LOGON", "LOGON", "READ", "UPDATE"))}}
        found |= {"resource": {"type": "CONSOLE", "id": any_console(chance, state)}, "subject": any_user(chance, state)}
        found.pop("context" if one_in(chance, 2) else "", None)
    if kind == "action":
        found.pop("action" if one_in(chance, 2) else "", None)
    elif one_in(chance, 2):
        found[kind] = {key: value for key, value in found[kind].items() if key != "id"}
    if one_in(chance, 2):
        token = chance.choice(("", "ANNA", "C1", "READ", "B", "\u00e9"))
        page = {"limit": chance.choice((1, 2, 3, 1_000)), "token": token}
        found["page"] = {key: value for key, value in page.items() if not one_in(chance, 3)}
    elif one_in(chance, 6):
        found["page"] = chance.choice((
            {"limit": 0}, {"limit": 1_001}, {"limit": 1.0}, {"limit": "1"}, {"limit": -1}, {"token": 7},
            {"token": None}, [], None, {"limit": None}, {"limit": True}, {"size": 3}, {"limit": 2 ** 64},
        ))
    return found


def strange(chance: Random, found: dict[str, Any]) -> dict[str, Any]:
    """A body of which one part, or one key of a part, is missing, strange, or more than is read."""
    if not found:
        return {"x": chance.choice(STRANGE)}
    found = dict(found)
    key = chance.choice(list(found))
    if one_in(chance, 4):
        found |= dict([chance.choice(MORE)])
    if isinstance(found[key], dict) and found[key] and not one_in(chance, 3):
        inner = dict(found[key])
        own, way = chance.choice(list(inner)), chance.randrange(4)
        if way == 0:
            del inner[own]
        elif way == 1:
            inner |= dict([chance.choice(MORE)])
        else:
            inner[own] = chance.choice(STRANGE)
        return found | {key: inner}
    if one_in(chance, 2):
        del found[key]
        return found
    return found | {key: chance.choice(STRANGE)}


def any_body(chance: Random, state: State, kind: str) -> bytes:
    makes = {"evaluation": question, "evaluations": several}
    found = makes[kind](chance, state) if kind in makes else search(chance, state, kind)
    if one_in(chance, 5):
        found = strange(chance, found)
    if one_in(chance, 12) and found:
        return random_unread.spoiled(chance, found)
    return random_requests.written(chance, found) if found else b"{}"


def any_sent(chance: Random, state: State) -> Sent:
    """A request of any route, now and then with an id, and now and then with something that is bad around its body."""
    if one_in(chance, 20):
        sent = Sent("GET", point.CONFIGURATION)
    else:
        kind = chance.choices(list(point.PATHS), (5, 4, 2, 2, 2))[0]
        sent = random_unread.post(point.PATHS[kind], any_body(chance, state, kind))
    if one_in(chance, 4):
        fields = [("X-Request-ID", chance.choice(IDS))] * chance.choice((1, 1, 1, 2))
        sent = sent._replace(fields=(*fields, *sent.fields))
    if one_in(chance, 25):
        sent = sent._replace(target=chance.choice(STRANGE_TARGETS))
    elif one_in(chance, 25):
        sent = sent._replace(method=chance.choice(random_unread.METHODS))
    elif one_in(chance, 15):
        sent = random_unread.unread(chance, sent)
    return sent


def any_policy(chance: Random) -> bytes:
    """A policy file, mostly one that is good: with consoles of all modes, or with many profiles of commands."""
    if one_in(chance, 30):
        return chance.choice((b"", b"kind,\n", b"\xff"))
    if one_in(chance, 3):
        return cases.with_consoles(chance)
    return random_policies.joined(chance, random_policies.written(chance, trying.taken(trying.any_rows(chance))))


def asked(chance: Random, count: int) -> tuple[bytes, list[Sent]]:
    """A policy file, with questions."""
    data = any_policy(chance)
    held = decide.present(data)
    state = held.state if held else State()
    return data, [any_sent(chance, state) for _ in range(count)]
