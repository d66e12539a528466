"""Random lists of requests: a service whose cache goes on answers as services do that begin each request with an empty
one."""
import random
import shutil
import tempfile
from random import Random

from lib import clients, requests, stored
from lib.requests import Step
from lib.service import Service
from lib.tally import Tally
from .rows import timeless

LISTS, LENGTH = 8, 40
TEXTS = (
    "C PAYROLL", "C BACKUP", "C X1", "D A,L", "D C", "V 0A80,OFFLINE", "V 0A80,ONLINE", "LOGON ANNA,ABC",
    "LOGON BERT,ABC", "LOGOFF",
)
PATTERNS = (
    "MVS.CANCEL.JOB.*", "MVS.CANCEL.JOB.PAY*", "MVS.CANCEL.JOB.PAYROLL", "MVS.CANCEL.**", "MVS.VARY.DEV", "MVS.**", "**"
)
LEVELS = ("NONE", "READ", "UPDATE", "ALTER")
# more jobs than the names that the cache keeps, 256, and patterns of some of them
JOBS = [f"X{number}" for number in range(300)]
WIDE = ("MVS.CANCEL.JOB.X1*", "MVS.CANCEL.JOB.X2*", "MVS.CANCEL.JOB.*", "MVS.CANCEL.JOB.X25")
ROUNDS, AGAIN = 2, 40


def any_request(chance: Random, batch: int) -> Step:
    """A command, an operation that may change what decides, an import, or a listing; no answer is wanted of it."""
    pattern, level, user = chance.choice(PATTERNS), chance.choice(LEVELS), chance.choice(("ANNA", "BERT", "OPS"))
    kinds = [
        lambda: requests.command(chance.choice(("C1", "C3")), chance.choice(TEXTS), None),
        lambda: requests.define("C2", pattern, None, uacc=level, warning=chance.random() < 0.2),
        lambda: requests.define("C2", pattern, None, op="RAlter", uacc=level),
        lambda: requests.delete("C2", pattern, None),
        lambda: requests.permit("C2", pattern, user, level, None),
        lambda: requests.class_active("C2", "OPERCMDS", chance.random() < 0.8, None),
        lambda: requests.imported("C2", batch, [f"profile,OPERCMDS,{pattern},,{level},SECADM,,"], None),
        lambda: requests.profiles("C1", "OPERCMDS", None),
        lambda: requests.account("C2", 1, 50, None),
    ]
    return chance.choices(kinds, weights=[12, 3, 1, 3, 2, 1, 1, 1, 1])[0]()


def begun() -> list[Step]:
    return [requests.logon("C2", "SECADM"), requests.logon("C1", "BERT")]


def any_list(chance: Random) -> list[Step]:
    return [*begun(), *(any_request(chance, at + 1) for at in range(LENGTH))]


def any_change(chance: Random) -> Step:
    """A pattern of some jobs defined or deleted, which empties the cache."""
    pattern = chance.choice(WIDE)
    return chance.choice(
        (requests.delete("C2", pattern, None), requests.define("C2", pattern, None, uacc=chance.choice(LEVELS)))
    )


def long_list(chance: Random) -> list[Step]:
    """Changes, and then every job, so that the cache is filled and forgets names, and some of them again; and last
    changes between commands."""
    def cancel(job: str) -> Step:
        return requests.command("C1", f"C {job}", None)

    steps = begun()
    for _ in range(ROUNDS):
        steps += [any_change(chance) for _ in range(4)]
        steps += [cancel(job) for job in [*chance.sample(JOBS, len(JOBS)), *chance.choices(JOBS, k=AGAIN)]]
    for job in chance.sample(JOBS, AGAIN):
        steps += [any_change(chance), cancel(job)] if chance.random() < 0.3 else [cancel(job)]
    return steps


def together(file: str, steps: list[Step]) -> list[bytes]:
    """The responses of one service."""
    with Service(file, "--count", str(len(steps))) as service:
        return [timeless(step, clients.by_socket(service.port, step.method, step.path, step.body)) for step in steps]


def apart(file: str, steps: list[Step]) -> list[bytes]:
    """The responses of one service for each request."""
    return [response for step in steps for response in together(file, [step])]


def compared(tally: Tally, title: str, room: str, base: str, steps: list[Step]) -> list[bytes]:
    """The responses to these requests, which are the same both ways, with what they leave."""
    found = []
    for way in (together, apart):
        file = f"{tempfile.mkdtemp(dir=room)}/db"
        shutil.copy(base, file)
        found.append((way(file, steps), stored.whole(file)))
    (cached, left), (uncached, left_apart) = found
    for at, (one, other) in enumerate(zip(cached, uncached), 1):
        tally.equal(f"{title}, request {at}: {steps[at - 1].path} {steps[at - 1].body}", one, other)
    tally.equal(f"{title}: what it leaves", left, left_apart)
    return cached


def lists(tally: Tally, room: str, base: str) -> None:
    for seed in range(LISTS):
        title = f"random list {seed}"
        done = sum(
            b'"status":"done"' in answer for answer in compared(tally, title, room, base, any_list(random.Random(seed)))
        )
        tally.wants(f"{title}: some are done and some refused", LENGTH // 5 < done < LENGTH - LENGTH // 10, done)
    answers = compared(tally, "a list of many names", room, base, long_list(random.Random(LISTS)))
    denied = sum(b"DeniedProfile" in answer for answer in answers)
    tally.wants(
        "a list of many names: some are denied and some not",
        len(answers) // 10 < denied < len(answers) - len(answers) // 10,
        denied,
    )
