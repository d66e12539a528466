"""The worked rows, asked by each kind of client."""
import re
import shutil
import subprocess
import time
from typing import Callable

from lib import requests, stored
from lib.clients import CLIENTS
from lib.places import POLICY, built
from lib.requests import Step
from lib.service import Service
from lib.tally import Tally
from . import worked

# what stands before a listed row of the account
MOMENT = re.compile(rb'(?<=")(\d+) \d{%d} ' % len(requests.MOMENT))


def timeless(step: Step, found: bytes) -> bytes:
    """The response, without the moments if it lists the account."""
    return MOMENT.sub(rb"\1 %s " % requests.MOMENT.encode(), found) if "/account/" in step.path else found


def asked(tally: Tally, title: str, service: Service, ask: Callable[..., bytes], steps: list[Step]) -> None:
    """Asks the steps in turn, and judges each response by its bytes."""
    for at, step in enumerate(steps, 1):
        found = ask(service.port, step.method, step.path, step.body)
        tally.equal(f"{title}, step {at}", timeless(step, found), step.wanted)


def exported(file: str) -> list[str]:
    """The lines of the policy file that comes out of this one."""
    ran = subprocess.run([built(), "export", "--db", file], stdin=subprocess.DEVNULL, capture_output=True, text=True)
    return ran.stdout.splitlines()


def is_policy_of_operations(file: str) -> bool:
    """Whether the policy is the base policy with what the row of each operation changes."""
    with open(POLICY) as base:
        wide = {f"{line},," for line in base.read().splitlines()[1:]}
    taken, given = (
        {line.replace("{digest}", requests.DIGEST) for line in lines} for lines in (worked.TAKEN, worked.GIVEN)
    )
    return taken <= wide and set(exported(file)[1:]) == (wide - taken) | given


def alters(step: Step) -> bool:
    """Whether it is an operation or an import that is done."""
    return re.search("/(admin|import)", step.path) is not None and step.wanted.startswith(b"HTTP/1.1 200 ")


def rows(tally: Tally, room: str, base: str) -> None:
    unaltered = exported(shutil.copy(base, f"{room}/unaltered"))
    for by, ask in CLIENTS.items():
        for title, (steps, account) in worked.ROWS.items():
            file, began = f"{room}/rows", int(time.time())
            shutil.copy(base, file)
            title = f"{title}, by {by}"
            with Service(file, "--count", str(len(steps))) as service:
                asked(tally, title, service, ask, steps)
                tally.equal(f"{title}: how it ends", service.ended(), (0, "", ""))
            tally.equal(f"{title}: the account", stored.account(file), account)
            tally.wants(f"{title}: the moments", all(began <= moment <= time.time() for moment in stored.moments(file)))
            if title.startswith(worked.OPERATIONS):
                tally.wants(f"{title}: the policy", is_policy_of_operations(file), exported(file))
            if not any(map(alters, steps)):
                tally.equal(f"{title}: the policy and the consoles, as before", exported(file), unaltered)
