"""The model alone, by the worked rows that are asked of the service: their responses, and the account that they
leave."""
from lib import stored
from lib.places import POLICY
from lib.requests import Step
from lib.serve import rows, worked
from . import exchange, files, machine, scripts
from .exchange import Sent
from .steps import CLOCK


def base() -> machine.State:
    """The state in which each worked row begins."""
    state = machine.State()
    with open(POLICY, "rb") as policy_file:
        state.bootstrap(files.read(policy_file.read()))
    status, _, _ = scripts.run(state, stored.EVENTS.encode())
    assert status == 0
    return state


def sent(step: Step) -> Sent:
    fields = (("Content-Length", str(len(step.body))),) if step.body is not None else ()
    return Sent(step.method, step.path, step.body or b"", fields)


def checked() -> tuple[int, int]:
    """How many worked rows the model answers as they are answered, and how many it does not."""
    passed, failed = 0, 0
    for title, (steps, account) in worked.ROWS.items():
        state, good = base(), True
        for at, step in enumerate(steps, 1):
            found = rows.timeless(step, exchange.exchange(state, CLOCK, sent(step)))
            if found != step.wanted:
                good = False
                print(f"{title}, step {at}: the model answers {found!r}, and not {step.wanted!r}")
        left = [" ".join(map(str, (number, *row[1:]))) for number, row in enumerate(state.account, 1)]
        if left != account:
            good = False
            print(f"{title}: the model's account is {left!r}, and not {account!r}")
        passed, failed = passed + good, failed + (not good)
    print(f"rows: {passed} passed, {failed} failed")
    return passed, failed
