"""Questions of other programs, in the form of the AuthZEN Authorization API: what a policy answers to their bodies."""
import hashlib
from typing import Any, Callable, Iterable, NamedTuple

from . import counting, files, json_values, logons, names, policy, questions, who, why
from .faults import Fault, wants
from .machine import State
from .told import Told

MOST_ELEMENTS, MOST_RESULTS = 1_000, 1_000
SEMANTICS = {"execute_all": (), "deny_on_first_deny": (False,), "permit_on_first_permit": (True,)}
ACTIONS = {
    "OPERCMDS": ("ALTER", "CONTROL", "READ", "UPDATE"),
    "CONSOLE": ("ALTER", "CONTROL", "LOGON", "READ", "UPDATE"),
    "command": ("enter",),
}
MISSING = object()

Words = dict[str, str]  # a question, as the options by which `explain` asks it


class Bad(Exception):
    """Why a body asks no question, and what the log has of that."""

    def __init__(self, text: str, told: str | None = None) -> None:
        super().__init__(text)
        self.told = told or text


class Reply(NamedTuple):
    """A status, a value of JSON, and what the log has of the question."""
    status: int
    value: object
    told: Told


class Present(NamedTuple):
    """The policy of a file, and the digits by which answers name it."""
    state: State
    name: str


def present(data: bytes | None) -> Present | None:
    """The policy of a file with these bytes; none if there is no file, or if it is no policy."""
    state = State()
    try:
        state.bootstrap(files.read(data or b""))
    except Fault:
        return None
    return Present(state, hashlib.sha256(data).hexdigest()[:16])


# Parts of a body

def wants_valid(holds: object, path: str) -> None:
    if not holds:
        raise Bad(f"the key {path} is invalid")


def object_of(element: dict, shared: dict, key: str) -> dict:
    """The object of a key of an element or, if it has none, the one that all elements share."""
    found = element.get(key, shared.get(key, MISSING))
    if found is MISSING:
        raise Bad(f"the key {key} is missing")
    wants_valid(isinstance(found, dict), key)
    return found


def text_if(held: dict, path: str) -> str | None:
    """The text of the last key of a path, if it is there."""
    found = held.get(path.rpartition(".")[2])
    wants_valid(isinstance(found, str) or path.rpartition(".")[2] not in held, path)
    return found


def text_of(held: dict, path: str) -> str:
    found = text_if(held, path)
    if found is None:
        raise Bad(f"the key {path} is missing")
    return found


# A question

def kind_of(subject: dict) -> str:
    kind = text_of(subject, "subject.type")
    wants_valid(kind in ("user", "console"), "subject.type")
    return kind


def subject_of(element: dict, shared: dict) -> tuple[str, str]:
    """The type of a subject, and its id."""
    subject = object_of(element, shared, "subject")
    kind, id = kind_of(subject), text_of(subject, "subject.id")
    wants_valid(names.is_user(id) if kind == "user" else names.is_console(id), "subject.id")
    return kind, id


def action_of(element: dict, shared: dict) -> str:
    name = text_of(object_of(element, shared, "action"), "action.name")
    wants_valid(name in ("LOGON", "enter") or name in names.LEVELS[1:], "action.name")
    return name


def context_of(element: dict, shared: dict) -> Words:
    """The console and what the unit of a command is taken for, as far as they are said."""
    if "context" not in element and "context" not in shared:
        return {}
    context = object_of(element, shared, "context")
    console = text_if(context, "context.console")
    wants_valid(console is None or names.is_console(console), "context.console")
    taken = text_if(context, "context.as")
    member = (taken or "").removeprefix("STC:")
    is_task = member != taken and names.is_name(member, 8)
    wants_valid(taken in (None, "JOB", "TSU") or is_task, "context.as")
    return {name: text for name, text in (("console", console), ("as", taken)) if text is not None}


def question_by(subject: tuple[str, str], action: str, element: dict, shared: dict) -> Words:
    """A question with the resource and the context of an element."""
    resource = object_of(element, shared, "resource")
    of, id = text_of(resource, "resource.type"), text_of(resource, "resource.id")
    return question_about(subject, action, of, id, context_of(element, shared))


def question_about(subject: tuple[str, str], action: str, of: str, id: str, context: Words) -> Words:
    (kind, name), console = subject, context.get("console")
    if kind == "console":
        wants_valid(action == "enter", "subject.type")
        wants_valid(console in (None, name), "context.console")
        context = context | {"console": name}
    user = name if kind == "user" else "-"
    if action == "enter":
        wants_valid(of == "command", "resource.type")
        asked = wanted({**context, "command": id, "user": user})
        wants_valid(kind == "user" or not questions.asks_to_log_on(asked), "subject.type")
        return asked
    if action == "LOGON":
        wants_valid(of == "CONSOLE", "resource.type")
        wants_valid(names.is_console(id), "resource.id")
        wants_valid(console in (None, id), "context.console")
        return {"command": "LOGON", "console": id, "user": user}
    wants_valid(of in names.CLASSES, "resource.type")
    wants_valid(names.is_resource(id), "resource.id")
    at = {"console": console} if console else {}
    return {"class": of, "resource": id, "level": action, "user": user, **at}


def wanted(words: Words) -> Words:
    """The question about a command, if a policy decides about it."""
    try:
        questions.wants_command(words)
    except Fault as fault:
        # (places would say how long a password is)
        raise Bad(f"resource.id: {fault.printed()}", f"resource.id: {fault.code}") from None
    if questions.asks_to_log_on(words):
        if "console" not in words:
            raise Bad("the key context.console is missing")
    elif questions.is_about_nothing(words):
        raise Bad("resource.id: the command needs nothing")
    return words


def question_of(element: dict, shared: dict) -> Words:
    """The question of an element; what it does not have is what all elements share."""
    subject = subject_of(element, shared)
    return question_by(subject, action_of(element, shared), element, shared)


# A decision

def ruled(state: State, words: Words) -> tuple[str, str]:
    """What comes out, with the rule; a policy without the user or the console has a fault."""
    user, console = words["user"], words.get("console")
    if "level" in words:
        why.wants_user(state, user)
        return policy.verdict(state.policy, words["class"], words["resource"], user, words["level"], console)
    if questions.asks_to_log_on(words):
        why.wants_user(state, user)
        wants(console in state.board.consoles, "E10")
        is_admitted, rule = logons.tried(state, console, user)
        return "ALLOWED" if is_admitted else "DENIED", rule
    needed = questions.needs_of(words)
    found = why.with_nobody(state, console, needed) if user == "-" else why.with_user(state, user, console, needed)
    return found[1:]


def decided(held: Present, words: Words) -> tuple[bool, dict]:
    """Whether it is permitted, and what is answered."""
    state = State(held.state.policy, held.state.board.copied())
    try:
        outcome, rule = ruled(state, words)
        outcome, rule = who.word(outcome, rule), None if outcome == "UNDECIDED" else rule
    except Fault as fault:
        outcome, rule = "NOUSER" if fault.code == "E53" else "NOCONSOLE", None
    counting.met["decide", outcome] += 1
    permits = outcome in ("ALLOWED", "WARNED")
    return permits, {"context": {"policy": held.name, "rule": rule, "verdict": outcome}, "decision": permits}


def evaluation(held: Present, body: dict) -> object:
    return decided(held, question_of(body, body))[1]


def told_of(words: Words, answer: dict) -> Told:
    """What the log has of a question and its answer."""
    said = answer["context"]
    if "level" in words:
        shown = f"{words['level']} {words['class']} {words['resource']}"
    else:
        shown = f"LOGON {words['console']}" if questions.asks_to_log_on(words) else f"enter {words['command']}"
    user = None if words["user"] == "-" else words["user"]
    return Told(words.get("console"), user, 200, said["verdict"], shown, said["rule"], said["policy"])


def element_answer(held: Present, element: object, shared: dict) -> tuple[bool, dict]:
    try:
        wants_valid(isinstance(element, dict), "evaluations")
        return decided(held, question_of(element, shared))
    except Bad as bad:
        counting.met["decide", "an element that does not read"] += 1
        return False, {"context": {"error": {"message": str(bad), "status": 400}}, "decision": False}


def evaluations(held: Present, body: dict) -> object:
    elements = body.get("evaluations", [])
    wants_valid(isinstance(elements, list) and len(elements) <= MOST_ELEMENTS, "evaluations")
    if not elements:
        return evaluation(held, body)
    options = object_of(body, {"options": {}}, "options")
    semantic = text_if(options, "options.evaluations_semantic")
    wants_valid(semantic is None or semantic in SEMANTICS, "options.evaluations_semantic")
    answers = []
    for element in elements:
        permits, answer = element_answer(held, element, body)
        answers.append(answer)
        if permits in SEMANTICS[semantic or "execute_all"]:
            counting.met["decide", f"ends by {semantic}"] += 1
            break
    return {"evaluations": answers}


# Searches

class Candidate(NamedTuple):
    """What a search tries: its name, its value in the results, and its question."""
    name: str
    value: dict
    question: Callable[[], Words]


def page_of(body: dict) -> tuple[int, str]:
    """The most results, and the last one of the page before."""
    page = object_of(body, {"page": {}}, "page")
    limit = page.get("limit", MOST_RESULTS)
    wants_valid(type(limit) is int and 1 <= limit <= MOST_RESULTS, "page.limit")
    return limit, text_if(page, "page.token") or ""


def fault_of(candidate: Candidate) -> Bad | None:
    try:
        candidate.question()
    except Bad as fault:
        return fault
    return None


def is_found(held: Present, candidate: Candidate) -> bool:
    try:
        return decided(held, candidate.question())[0]
    except Bad:
        return False


def results(held: Present, body: dict, candidates: Iterable[Candidate]) -> object:
    """The page of those with whom the question is permitted. If it reads about none, what is wrong about the first is
    wrong with the body."""
    limit, token = page_of(body)
    tried = list(candidates)
    faults = [fault_of(candidate) for candidate in tried]
    if faults and all(faults):
        raise faults[0]
    found = [candidate for candidate in tried if is_found(held, candidate)]
    rest = [candidate for candidate in found if candidate.name.encode() > token.encode()]
    shown = rest[:limit]
    counting.met["decide", "a page, and more" if len(shown) < len(rest) else "the last page"] += 1
    last = shown[-1].name if len(shown) < len(rest) else ""
    page = {"count": len(shown), "next_token": last, "total": len(found)}
    return {"page": page, "results": [candidate.value for candidate in shown]}


def subject_search(held: Present, body: dict) -> object:
    kind = kind_of(object_of(body, body, "subject"))
    ids = held.state.policy.users if kind == "user" else held.state.board.consoles
    return results(held, body, [
        Candidate(
            id, {"id": id, "type": kind}, lambda id=id: question_by((kind, id), action_of(body, body), body, body)
        )
        for id in sorted(ids)
    ])


def action_search(held: Present, body: dict) -> object:
    of = text_of(object_of(body, body, "resource"), "resource.type")
    wants_valid(of in ACTIONS, "resource.type")
    return results(held, body, [
        Candidate(name, {"name": name}, lambda name=name: question_by(subject_of(body, body), name, body, body))
        for name in ACTIONS[of]
    ])


def resource_search(held: Present, body: dict) -> object:
    of = text_of(object_of(body, body, "resource"), "resource.type")
    wants_valid(of == "CONSOLE", "resource.type")

    def question(id: str) -> Words:
        subject = subject_of(body, body)
        action = action_of(body, body)
        return question_about(subject, action, of, id, context_of(body, body))

    consoles = sorted(held.state.board.consoles)
    return results(held, body, [Candidate(id, {"id": id, "type": of}, lambda id=id: question(id)) for id in consoles])


SAID = {
    "evaluations": "evaluations", "subject": "subject search", "action": "action search", "resource": "resource search",
}
KINDS = {
    "evaluation": evaluation, "evaluations": evaluations, "subject": subject_search, "action": action_search,
    "resource": resource_search,
}


def answered(held: Present, kind: str, data: bytes) -> Reply:
    try:
        body: Any = json_values.read(data)
    except ValueError:
        raise Bad("the body is no JSON") from None
    if not isinstance(body, dict):
        raise Bad("the body is no object")
    value = KINDS[kind](held, body)
    if kind == "evaluation":
        return Reply(200, value, told_of(question_of(body, body), value))
    return Reply(200, value, Told(None, None, 200, None, SAID[kind], None, held.name))


def reply(held: Present | None, kind: str, data: bytes) -> Reply:
    """What is answered to a body."""
    if held is None:
        return Reply(500, "no policy", Told(None, None, 500, None, "no policy", None, None))
    try:
        return answered(held, kind, data)
    except Bad as bad:
        counting.met["decide", f"400 {str(bad).split(':')[0]}"] += 1
        return Reply(400, str(bad), Told(None, None, 400, None, bad.told, None, held.name))
