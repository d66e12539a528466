"""Random policies and questions, and what the program answers to them."""
import subprocess
from random import Random
from typing import NamedTuple

from lib.model import cases, counting
from lib.model.steps import Check, Explain, ExplainCommand, Step, Who, options_of
from lib.model.trying import Diff, May
from lib.places import built

# what is asked in turn, as the model makes it; `sheet` takes the policies of `check`
ASKED = ("explain", "who", "check", "may", "diff", "explain", "who", "check", "may", "sheet")
COMMANDS = {Explain: "explain", ExplainCommand: "explain", Who: "who", May: "may"}
# the names of the policies of `diff`, for its messages
OLD, NEW = "old.csv", "new.csv"


class Case(NamedTuple):
    """The words of a question, the policy, and the new one of `diff`."""
    words: list[str]
    policy: bytes
    new: bytes = b""


class Reply(NamedTuple):
    status: int
    output: bytes
    errors: bytes


def case_of(step: Step) -> Case | None:
    """What a step of the model asks a policy file, or two; here no file is named, nor a database."""
    match step:
        case Check(as_json, allowed, data, _):
            allow = ["--allow", ",".join(allowed)] if allowed else []
            return Case(["check", *["--json"] * as_json, *allow], data)
        case Diff(words, bytes(old), bytes(new)):
            return Case(["diff", OLD, NEW, *options_of(words)], old, new)
        case Explain(words, bytes(rows)) | ExplainCommand(words, bytes(rows)) | Who(words, bytes(rows)) | May(
            words, bytes(rows)
        ):
            given = {name: value for name, value in words.items() if name not in ("policy", "db")}
            return Case([COMMANDS[type(step)], *options_of(given)], rows)
    return None


def case(seed: int, number: int) -> Case:
    asked = ASKED[number % len(ASKED)]
    chance = Random(f"{seed} {asked} {number}")
    found = None
    while found is None:
        with counting.aside():
            found = case_of(cases.PARTS["check" if asked == "sheet" else asked](chance)[-1])
    return found._replace(words=["sheet"]) if asked == "sheet" else found


def answered(asked: Case, room: str) -> Reply:
    """The program's answer, run in a folder that has the files of `diff`."""
    for name, data in ((OLD, asked.policy), (NEW, asked.new)):
        with open(f"{room}/{name}", "wb") as file:
            file.write(data)
    ran = subprocess.run([built(), *asked.words], input=asked.policy, capture_output=True, cwd=room, timeout=60)
    return Reply(ran.returncode, ran.stdout, ran.stderr)
