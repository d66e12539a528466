"""What users may enter who log on at a console: what `who` says of them, beside what comes of it."""
import json
from dataclasses import dataclass
from random import Random
from typing import Callable

from . import counting, needs, random_lines, random_policies, reading, scripts, world
from .machine import State
from .steps import Answers, Step, options_of, run
from .world import one_in

PASSWORDS = {digest: word for word, digest in world.DIGESTS.items()}
# what refuses a command for authority: other refusals say that it may be entered
NOT_ALLOWED = ("E12", "E13", "E20", "E21")
# what `who` says of a user, by what comes of it
SAID = {
    "may": ("ALLOWED", "WARNED"), "shown": ("ALLOWED", "WARNED"), "hidden": ("HIDDEN",), "may not": ("DENIED",),
    "no logon": ("DENIED", "NOLOGON"),
}


def unit_event(words: dict[str, str]) -> list[str]:
    """The event that makes the unit what the command takes it for, or that there is one to be shown."""
    form, operands = reading.read(words["command"])
    kind = words.get("as", "JOB" if form == "D A,name" else "")
    return [f"* JOBIN {operands[0]} {kind.replace(':', ' ')}"] if kind and operands else []


def script_of(state: State, user: str, words: dict[str, str]) -> list[str]:
    """The lines of this user, who needs no LOGON where the console acts for the user."""
    console, stored = words["console"], state.policy.users[user]
    log_on = f"{console} LOGON {user},{PASSWORDS.get(stored.digest, world.PASSWORD)}"
    if is_logon(words):
        lines = [log_on]
    else:
        lines = [*unit_event(words), *[log_on] * (state.acting(console) != user), f"{console} {words['command']}"]
    return [f"{at} {line}\n" for at, line in enumerate(lines)]


def is_logon(words: dict[str, str]) -> bool:
    return reading.read(words["command"]).form == "LOGON"


def came_of(script: list[str], printed: str, words: dict[str, str]) -> str:
    """Whether the command may be entered: the LOGON before it has to be done, if there is one. Of a unit that is asked
    for, whether it is shown."""
    lines = printed.splitlines()
    answers = [line.split(" ") for line in lines if not line.startswith(" ")]
    if any(" LOGON " in line and answer[1] != "DONE" for line, answer in zip(script, answers)):
        return "no logon"
    if answers[-1][2] in NOT_ALLOWED:
        return "may not"
    if reading.read(words["command"]).form == "D A,name":
        return "shown" if lines[-1].startswith(" ") else "hidden"
    return "may"


@dataclass
class Enter:
    """Each user logs on at a console of a policy file and enters the command there. What `who` said of the user has to
    be what comes of it."""
    words: dict
    rows: bytes

    def each(self, runs: Callable[[bytes], str], said: Callable[[str, str], str | None]) -> Answers:
        """By user the script, what was said of it, and what comes of it."""
        state, found = random_policies.state_of(self.rows), []
        # (a case that is cut down may lack the console)
        users = state.policy.users if self.words["console"] in state.board.consoles else {}
        for user in sorted(users):
            script = script_of(state, user, self.words)
            came = came_of(script, runs("".join(script).encode()), self.words)
            found.append((script, (said(user, came), came)))
        return found

    def program(self, file: str) -> Answers:
        with open(f"{file}.csv", "wb") as policy_file:
            policy_file.write(self.rows)
        _, output, _ = run(["who", "--json", *options_of(self.words)], self.rows)
        lines = [line for line in map(json.loads, output.splitlines()) if line["kind"] == "user"]
        verdicts = {line["id"]: line["verdict"] for line in lines}
        return self.each(
            lambda script: run(["run", "--policy", f"{file}.csv"], script)[1],
            lambda user, came: came if verdicts.get(user) in SAID[came] else verdicts.get(user),
        )

    def model(self, _: State) -> Answers:
        def runs(script: bytes) -> str:
            return scripts.run(random_policies.state_of(self.rows), script)[1]

        def said(_: str, came: str) -> str:
            counting.met["entering", came] += 1
            return came

        return self.each(runs, said)


def cases(chance: Random) -> list[Step]:
    """A policy file with a command at a console, which each user enters there."""
    state, form = State(), "LOGOFF"
    while not state.board.consoles:
        rows = random_policies.with_doors(chance)
        first = random_policies.joined(chance, random_policies.written(chance, rows), plain=True)
        state = random_policies.state_of(first)
    while form == "LOGOFF":
        command = random_lines.any_command(chance, state)
        if one_in(chance, 4):
            command = f"D A,{chance.choice(world.UNITS)}"
        command = random_lines.typed(chance, command)
        form = reading.read(command).form
    words = {"command": command, "console": chance.choice(sorted(state.board.consoles))}
    if form in needs.OF_UNITS and not one_in(chance, 3):
        words["as"] = chance.choice(("JOB", "TSU", "STC:PAY", "STC:CICSPROD"))
    return [Enter(words, first)]
