"""Who may do what, as `who` prints it: each user, each user whom an entry for one console raises there, and each
unattended console."""
from . import counting, lines, logons, names, policy, questions
from .faults import Fault, wants
from .lines import ConsoleLine, Said, UserLine
from .machine import State
from .policy import Policy, Profile
from .questions import Need


def given_by(held: Policy, entries: dict[str, str], name: str) -> tuple[str, str] | None:
    """The first source among these entries, with its level: own, the first of the highest groups, everyone."""
    if name in entries:
        return "OWN", entries[name]
    groups = sorted(group for user, group in held.connects if user == name and group in entries)
    if groups:
        best = names.highest([entries[group] for group in groups])
        return f"GROUP {next(group for group in groups if entries[group] == best)}", best
    if "*" in entries and not held.users[name].restricted:
        return "EVERYONE", entries["*"]
    return None


def source(held: Policy, profile: Profile, name: str, console: str | None) -> tuple[str, str, bool]:
    """What gives a user the level in a profile, the level, and whether it is an entry for that console alone."""
    everywhere = {id: level for (id, when), level in profile.entries.items() if when is None}
    there = {id: level for (id, when), level in profile.entries.items() if when is not None and when == console}
    rest = ("RESTRICTED", "NONE") if held.users[name].restricted else ("UACC", profile.uacc)
    by, level = given_by(held, everywhere, name) or rest
    raised = given_by(held, there, name)
    if raised and not names.is_at_least(level, raised[1]):
        return raised[0], raised[1], True
    return by, level, False


def word(outcome: str, rule: str) -> str:
    return "WARNED" if policy.is_passed_by_warning(rule) else outcome


def of_user(held: Policy, of: str, resource: str, needed: str, name: str, console: str | None) -> tuple[UserLine, bool]:
    """What is said of a user, and whether an entry for the console alone decides it."""
    if held.users[name].revoked:
        return UserLine("DENIED", name, "REVOKED"), False
    outcome, rule = policy.verdict(held, of, resource, name, needed, console)
    if outcome == "UNDECIDED":
        return UserLine(outcome, name, None, instead="NOPROFILE"), False
    profile = held.profiles[of, policy.deciding(held, of, resource)]
    by, level, is_raised = source(held, profile, name, console)
    counting.met["who", "a user, " + by.split()[0] + " AT" * is_raised] += 1
    return UserLine(word(outcome, rule), name, rule, (level, by, console if is_raised else None)), is_raised


def of_need(state: State, need: Need, user: str, console: str | None) -> tuple[UserLine, bool]:
    return of_user(state.policy, "OPERCMDS", need.resource, need.level, user, console)


def by_ruling(state: State, name: str, need: Need) -> tuple[bool, str]:
    """The ruling at a console as it is, with its rule."""
    try:
        return True, state.ruling(name, state.board.consoles[name], need.resource, need.level, need.group)
    except Fault as fault:
        return False, fault.rule


def of_console(state: State, name: str, need: Need) -> ConsoleLine:
    is_allowed, rule = by_ruling(state, name, need)
    is_auto = state.board.consoles[name].mode == "AUTO" and name in state.policy.users
    counting.met["who", f"a console, {'AUTO' if is_auto else 'NOBODY'}"] += 1
    return ConsoleLine(word("ALLOWED" if is_allowed else "DENIED", rule), name, rule, is_auto)


def at_console(state: State, name: str, user: str, need: Need) -> UserLine:
    """What is said of a user who is on at a console."""
    line, _ = of_need(state, need, user, name)
    if line.verdict != "UNDECIDED":
        return line
    auth = state.board.consoles[name].auth
    verdict = "ALLOWED" if names.enters(auth, need.group) else "DENIED"
    return UserLine(verdict, user, f"GROUP {need.group} AUTH {auth}")


def of_logon(state: State, console: str, user: str) -> UserLine:
    """What is said of a user who logs on at the console."""
    is_admitted, rule = logons.tried(state, console, user)
    line, _ = of_user(state.policy, "CONSOLE", console, "READ", user, console)
    if rule == "NODIGEST":
        line = UserLine("DENIED", user, rule)
    elif line.verdict == "UNDECIDED":
        line = UserLine("ALLOWED", user, "NOPROFILE")
    assert lines.may(line) == is_admitted and line.rule == rule, (line, rule)
    return line


def decides(held: Policy, of: str, resource: str) -> str:
    pattern = policy.deciding(held, of, resource)
    if of not in held.active:
        return f"DECIDES NOPROFILE, CLASS {of} INACTIVE"
    if pattern is None:
        return "DECIDES NOPROFILE"
    profile = held.profiles[of, pattern]
    return f"DECIDES PROFILE {of} {pattern} UACC {profile.uacc}" + " WARNING" * profile.warning


def question(held: Policy, of: str, resource: str, level: str, group: str | None) -> dict:
    """The object of what is asked."""
    pattern = policy.deciding(held, of, resource) if of in held.active else None
    profile = None if pattern is None else held.profiles[of, pattern]
    return {
        "kind": "question", "active": of in held.active, "as": None, "class": of, "resource": resource,
        "level": level, "group": group, "pattern": pattern, "uacc": profile.uacc if profile else None,
        "warning": profile.warning if profile else False,
    }


def nothing(words: dict[str, str]) -> str:
    """The answer about a command that needs nothing."""
    return lines.json_line({"needs": "nothing"}) if "json" in words else "NEEDS NOTHING\n"


def of_command_by(state: State, needed: list[Need], console: str | None, user: str) -> UserLine:
    """What is said of a user who enters a command, at a console or at none. The first need is the command's own, and a
    second that of the line that it asks for."""
    command, *line = [
        at_console(state, console, user, need) if console else of_need(state, need, user, None)[0] for need in needed
    ]
    why = None if command.verdict == "DENIED" else logons.why_not(state, console, user)
    return lines.shown(lines.kept_off(command, why), *line)


def is_raised(state: State, needed: list[Need], console: str, user: str) -> bool:
    """Whether an entry for the console alone gives the user a level there."""
    return any(of_need(state, need, user, console)[1] for need in needed)


def of_command(state: State, words: dict[str, str]) -> str:
    """The answer about a command, at a console if one is named."""
    needed, console = questions.needs_of(words), words.get("console")
    wants(console is None or console in state.board.consoles, "E10")
    there, everybody = sorted(state.board.consoles) if console is None else [console], sorted(state.policy.users)
    asked = [question(state.policy, "OPERCMDS", need.resource, need.level, need.group) for need in needed]
    asked[0]["as"] = questions.taken_for(words)
    asked[-1]["kind"] = "shows" if asked[1:] else "question"
    first = [
        text
        for line, need in zip(questions.first_lines(needed, words), needed)
        for text in (line, decides(state.policy, "OPERCMDS", need.resource))
    ]
    consoles = [lines.shown(*(of_console(state, name, need) for need in needed)) for name in there]
    said = Said(first, asked, [of_command_by(state, needed, console, user) for user in everybody], consoles=consoles)
    said.end = f", {lines.share(consoles)} unattended consoles"
    if console is None:
        said.raised = [
            of_command_by(state, needed, name, user)
            for name in there for user in everybody if is_raised(state, needed, name, user)
        ]
    return said.printed(words)


def of_logons(state: State, words: dict[str, str]) -> str:
    """The answer about a LOGON at a console."""
    console = words["console"]
    wants(console in state.board.consoles, "E10")
    first = [f"NEEDS READ {console} CLASS CONSOLE", decides(state.policy, "CONSOLE", console)]
    users = [of_logon(state, console, user) for user in sorted(state.policy.users)]
    return Said(first, [question(state.policy, "CONSOLE", console, "READ", None)], users).printed(words)


def of_access(state: State, of: str, words: dict[str, str]) -> str:
    """The answer about a level of access to a resource."""
    resource, level, console = words["resource"], words["level"], words.get("console")
    there, everybody = sorted(state.board.consoles) if console is None else [], sorted(state.policy.users)
    asked = question(state.policy, of, resource, level, None)
    users = [of_user(state.policy, of, resource, level, user, console)[0] for user in everybody]
    found = [of_user(state.policy, of, resource, level, user, name) for name in there for user in everybody]
    said = Said([decides(state.policy, of, resource)], [asked], users, [line for line, at in found if at])
    said.end = "; --command shows consoles, too"
    return said.printed(words)


def answer(state: State, words: dict[str, str]) -> str:
    """What is printed for these options."""
    if "command" not in words:
        return of_access(state, words.get("class", "OPERCMDS"), words)
    if questions.is_about_nothing(words):
        return nothing(words)
    return of_logons(state, words) if questions.asks_to_log_on(words) else of_command(state, words)
