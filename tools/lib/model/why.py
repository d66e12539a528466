"""Why a command may or may not be entered, as `explain` prints it: what it needs, which profiles cover, and the
ruling."""
from . import counting, lines, logons, names, policy, questions, who
from .faults import Fault, wants
from .machine import State
from .policy import Policy
from .questions import Need

Ruled = tuple[str, str]  # what comes out, and the rule


def ruled(state: State, console: str, need: Need) -> Ruled:
    is_allowed, rule = who.by_ruling(state, console, need)
    return "ALLOWED" if is_allowed else "DENIED", rule


def with_line(command: Ruled, line: Ruled | None = None) -> Ruled:
    """What comes out of a command, by its ruling and that of the line that it asks for, if it asks for one."""
    if line is None or command[0] == "DENIED":
        return command
    if line[0] == "DENIED":
        return "HIDDEN", line[1]
    order = (command[0] == "UNDECIDED", policy.is_passed_by_warning(command[1]))
    return command if order > (line[0] == "UNDECIDED", policy.is_passed_by_warning(line[1])) else line


def with_nobody(state: State, console: str | None, needed: list[Need]) -> tuple[str | None, str, str]:
    """Who acts at the unattended console, and what comes out there."""
    wants(console in state.board.consoles, "E10")
    assert console is not None
    return (state.acting(console), *with_line(*(ruled(state, console, need) for need in needed)))


def wants_user(state: State, user: str) -> None:
    if user not in state.policy.users:
        raise Fault("E53", user)


def with_user(state: State, user: str, console: str | None, needed: list[Need]) -> tuple[str | None, str, str]:
    """The user, and what comes out with the user on at a console that the policy has; else what the profiles say."""
    wants_user(state, user)
    is_there = console in state.board.consoles
    why = logons.why_not(state, console if is_there else None, user)
    if is_there:
        state.board.consoles[console].user = user
        found = [ruled(state, console, need) for need in needed]
    else:
        found = [policy.verdict(state.policy, "OPERCMDS", it.resource, user, it.level, console) for it in needed]
    if why is None or found[0][0] == "DENIED":
        return (user, *with_line(*found))
    counting.met["why", f"NOLOGON {why.split()[0]}"] += 1
    return user, "NOLOGON", why


def covers(held: Policy, of: str, resource: str, user: str, words: dict[str, str]) -> list[dict]:
    """Each pattern that covers, with the level that the user holds there, and its source."""
    found, console = [], words.get("console")
    for pattern in policy.covering(held, of, resource):
        by, level, is_raised = who.source(held, held.profiles[of, pattern], user, console)
        counting.met["why", by.split()[0] + " AT" * is_raised] += 1
        found.append({"pattern": pattern, "held": level, "source": by, "at": console if is_raised else None})
    return found


def covers_line(covering: dict, words: dict[str, str]) -> str:
    """The line of a pattern that covers; with --why it has the level and its source."""
    line = f"COVERS {covering['pattern']}"
    if "why" in words:
        line += f" HELD {covering['held']} BY {covering['source']}"
        line += f" AT {covering['at']}" if covering["at"] else ""
    return line


def printed(asked: dict, parts: list[tuple[str | None, list[dict]]], found: Ruled, words: dict[str, str]) -> str:
    """The answer, as text or as JSON; `asked` has the keys of the question, and a part is the first line of a question,
    if it has one, and what covers."""
    outcome, rule = found
    if "json" in words:
        counting.met["explain", "as JSON"] += 1
        keys = {"shows": None, "covers": parts[0][1], "verdict": outcome, "rule": rule}
        return lines.json_line(keys | asked)
    shown = [
        line for first, covering in parts
        for line in (*([first] if first else []), *(covers_line(one, words) for one in covering))
    ]
    return "".join(f"{line}\n" for line in (*shown, f"{outcome} {rule}"))


def reads(words: dict[str, str]) -> bool:
    """Whether the values of the options read, and belong together."""
    of = words["user"]
    if of == "-" and questions.asks_to_log_on(words):
        return False
    return questions.reads(words) and ("console" in words if of == "-" else names.is_user(of))


def of_logon(state: State, words: dict[str, str]) -> tuple[str, str]:
    """What comes out of a LOGON at a console, and what is printed."""
    user, console = words["user"], words["console"]
    wants_user(state, user)
    wants(console in state.board.consoles, "E10")
    is_admitted, rule = logons.tried(state, console, user)
    outcome = "ALLOWED" if is_admitted else "DENIED"
    asked = {
        "as": None, "class": "CONSOLE", "console": console, "group": None, "level": "READ", "resource": console,
        "user": user,
    }
    part = f"NEEDS READ {console} CLASS CONSOLE", covers(state.policy, "CONSOLE", console, user, words)
    return outcome, printed(asked, [part], (outcome, rule), words)


def answer(state: State, words: dict[str, str]) -> tuple[str, str]:
    """What comes out, and what is printed."""
    if questions.asks_to_log_on(words):
        return of_logon(state, words)
    if questions.is_about_nothing(words):
        return "ALLOWED", who.nothing(words)
    needed, console, user = questions.needs_of(words), words.get("console"), words["user"]
    found = with_nobody(state, console, needed) if user == "-" else with_user(state, user, console, needed)
    acting, outcome, rule = found
    covering = [covers(state.policy, "OPERCMDS", need.resource, acting, words) if acting else [] for need in needed]
    command, *line = needed
    asked = {
        "as": questions.taken_for(words), "class": "OPERCMDS", "console": console, "group": command.group,
        "level": command.level, "resource": command.resource, "user": None if user == "-" else user,
        "shows": {"covers": covering[1], "level": line[0].level, "resource": line[0].resource} if line else None,
    }
    parts = [*zip(questions.first_lines(needed, words), covering)]
    return outcome, printed(asked, parts, (outcome, rule), words)
