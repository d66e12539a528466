"""Requests of every kind over HTTP, round and round. They leave the board and the policy as they were: only the
account, the log and the kept batches grow."""
import itertools
from typing import Iterator, NamedTuple

from lib import clients, requests
from lib.places import POLICY

# The policy that they need: the base policy, with consoles at which nobody is on: the authority of C4 decides, and C5
# refuses all but a logon.
CONSOLES = "console,,C4,,MASTER,,OPTIONAL,\nconsole,,C5,,ALL,,REQUIRED,\n"
BEGINS = "".join(f"1 {line}\n" for line in (
    "C1 LOGON ANNA,ABC", "C2 LOGON SECADM,ABC", "* JOBIN PAYROLL JOB", "* JOBIN BACKUP JOB", "* ATTACH 0A80",
))


class Asked(NamedTuple):
    """The bytes of a request, and the HTTP status of its response."""
    data: bytes
    status: int


def of_step(step: requests.Step, status: int = 200) -> Asked:
    return Asked(clients.head(step.method, step.path, step.body) + (step.body or b""), status)


def typed(console: str, text: str, status: int = 200) -> Asked:
    return of_step(requests.command(console, text, None), status)


def policy() -> str:
    with open(POLICY, encoding="utf-8") as file:
        return file.read() + CONSOLES


def imports() -> Iterator[Asked]:
    """New batches, each followed by the same again and by another under its number."""
    rows = ["group,,OPS,,,,,", "group,,NIGHT,,,,,"]
    for batch in itertools.count(1):
        yield of_step(requests.imported("C2", batch, rows, None))
        yield of_step(requests.imported("C2", batch, rows, None))
        yield of_step(requests.imported("C2", batch, rows[1:], None), 409)


def operations() -> list[Asked]:
    """Each operation, and those that undo them."""
    pattern = "MVS.STOP.STC.NEW"
    return [
        of_step(requests.add_user("C2", "NEW", None)),
        of_step(requests.alt_user("C2", "NEW", None, revoked=True)),
        of_step(requests.operation("C2", None, "AddGroup", name="OPS"), 409),
        of_step(requests.operation("C2", None, "Connect", user="NEW", group="OPS")),
        of_step(requests.define("C2", pattern, None)),
        of_step(requests.define("C2", pattern, None, op="RAlter", uacc="READ")),
        of_step(requests.permit("C2", pattern, "NEW", "READ", None)),
        of_step(requests.permit_delete("C2", pattern, "NEW", None)),
        of_step(requests.delete("C2", pattern, None)),
        of_step(requests.operation("C2", None, "Remove", user="NEW", group="OPS")),
        of_step(requests.operation("C2", None, "DelUser", id="NEW")),
        of_step(requests.class_active("C2", "CONSOLE", True, None)),
        of_step(requests.define_console("C2", "C3", "ALL", "REQUIRED", None)),
        of_step(requests.operation("C1", None, "AddGroup", name="LATE"), 403),
    ]


def kinds() -> dict[str, Iterator[Asked]]:
    """The requests of each kind, without an end."""
    turns = {
        "commands done": [
            typed("C4", "D A,L"), typed("C4", "V 0A80,OFFLINE"), typed("C4", "V 0A80,ONLINE"), typed("C1", "D U"),
            typed("C4", "L 'a line for the log'"), typed("C1", "D C"),
        ],
        "commands refused": [
            typed("C9", "D U", 404), typed("C1", "C PAYROLL", 403), typed("C5", "D R", 403),
            typed("C4", "C NOJOB", 409), typed("C4", "DISPLAY X", 400), typed("C1", "FORCE BACKUP", 403),
        ],
        "listings": [
            of_step(requests.profiles("C2", "OPERCMDS", None)), of_step(requests.profiles("C1", "OPERCMDS", None)),
            of_step(requests.account("C2", 1, 10, None)), of_step(requests.account("C1", 1, 10, None), 403),
        ],
        "logons": [
            typed("C3", "LOGON BERT,WRONG", 403), typed("C3", "LOGON BERT,ABC"), typed("C3", "LOGON CARL,ABC", 403),
            typed("C3", "LOGOFF"),
        ],
        "administration": operations(),
        "no requests": [
            Asked(b"GET / HTTP/1.1\r\n\r\n", 404), Asked(b"no head\r\n\r\n", 400),
            of_step(requests.Step("POST", "/consoles/C1/command", b"[" * 1_000, b""), 400),
        ],
    }
    return {**{kind: itertools.cycle(asked) for kind, asked in turns.items()}, "imports": imports()}


def mixed(names: list[str]) -> Iterator[Asked]:
    """Requests of these kinds in turn."""
    every = kinds()
    return (next(every[name]) for name in itertools.cycle(names))
