"""Scripts that are turned, in memory over the base policy or a random one."""
import functools
from dataclasses import dataclass
from random import Random

from lib.model import cases, files, random_lines, random_policies, scripts
from lib.model.machine import State
from lib.model.world import one_in
from lib.places import POLICY
from . import rules, turning
from .inputs import Input, shown, written
from .runs import Wrong, run, wants_answer, wants_end

PIECES = (*turning.PIECES, *(piece.encode() for piece in random_lines.PIECES), b" * ", b" C1 ", b"0 C2 ", b"ASK 07 ")


@functools.cache
def base_policy() -> bytes:
    with open(POLICY, "rb") as file:
        return file.read()


@dataclass
class Script(Input):
    pieces: list
    policy: bytes

    def data(self) -> bytes:
        return b"".join(self.pieces)

    def model(self) -> tuple[int, str, str]:
        state = State()
        state.bootstrap(files.read(self.policy))
        return scripts.run(state, self.data())

    def tried(self, room: str) -> None:
        ran = run(["run", "--policy", written(f"{room}/policy.csv", self.policy)], self.data())
        wants_end(ran)
        wrong = rules.wrong_answers(ran.printed)
        if wrong:
            raise Wrong("not the form of answers", wrong)
        wants_answer(ran, self.model())

    def kept(self) -> dict[str, bytes]:
        words = shown(["run", "--policy", "policy.csv"])
        return {"script": self.data(), "policy.csv": self.policy, "words": words}


def make(chance: Random) -> Script:
    policy = base_policy()
    if one_in(chance, 3):
        found = random_policies.joined(
            chance, random_policies.written(chance, random_policies.first_policy(chance)), plain=True
        )
        policy = found if cases.state_of(found).policy.users else policy
    lines = [line.encode() for line in any_lines(chance, cases.state_of(policy))]
    for _ in range(chance.choice((0, 1, 2, 4, 8))):
        at = chance.randrange(len(lines))
        # (an invalid event would end it all)
        if b" * " not in lines[at] or one_in(chance, 12):
            lines[at] = turned_text(chance, lines[at])
    if one_in(chance, 6):
        lines = turning.turned(chance, b"".join(lines), PIECES).splitlines(keepends=True) or [b""]
    if one_in(chance, 20):
        lines[chance.randrange(len(lines))] += chance.choice((b"\n", b" \n", b"\r\n", b"\x00\n", b"\xff\n", b"9 C1 "))
    if one_in(chance, 8):
        lines[-1] = lines[-1].rstrip(b"\r\n") + chance.choice((b"", b"\r", b"\r\r\n", b"\r\n", b"\n\n"))
    return Script(lines, policy)


def any_lines(chance: Random, state: State) -> list[str]:
    """Lines along the model, some of which almost read."""
    found = [*cases.begun(chance, state), "".join(f"2 * {event}\n" for event in ("JOBIN PAY JOB", "ATTACH 0A80"))]
    scripts.run(state, "".join(found).encode())
    for moment in range(3, chance.choice((8, 16, 32))):
        line = random_lines.script_line(chance, moment, state, one_in(chance, 3)) + "\n"
        scripts.run(state, line.encode())
        found.append(line)
    return found


def turned_text(chance: Random, line: bytes) -> bytes:
    """A line of which only what is typed or happens is turned, so that the script mostly reads."""
    moment, console, text = (line.split(b" ", 2) + [b"", b""])[:3]
    turned = turning.turned(chance, text.rstrip(b"\n"), PIECES).replace(b"\n", b" ")
    turned = turned if one_in(chance, 8) else turned.decode(errors="replace").encode()
    return b" ".join((moment, console, turned)) + b"\n"
