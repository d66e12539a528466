"""A service over a file that meets a fault, and one exchange with it."""
import select
import shutil
from typing import NamedTuple

from lib import clients, files
from lib.requests import Step
from lib.serve.rows import timeless as timeless_response
from lib.service import FIRST, Service
from . import faults, forks
from .faults import Kind
from .held import Held, Tables, held_in, timeless
from .prepared import Prepared
from .single import AFTER, BEFORE, DATABASE, EITHER, Allowed, Single
from .work import ABORTED, ANSWERED, UNREAD, UNWRITTEN


class Ran(NamedTuple):
    """One run: the response to each request or None, the status, and what it printed more and said."""
    responses: list[bytes | None]
    status: int | None
    output: str
    errors: str


class Faulty(Service):
    """A service that may end before it listens."""

    def listening(self) -> int | None:
        ready, _, _ = select.select([self.process.stdout], [], [], 20)
        found = FIRST.fullmatch(self.process.stdout.readline().decode()) if ready else None
        return int(found[1]) if found else None

    def response(self, step: Step) -> bytes | None:
        """None if the link ends without one."""
        if self.port is None:
            return None
        try:
            return timeless_response(step, clients.by_socket(self.port, step.method, step.path, step.body)) or None
        except OSError:
            return None


def asked(steps: list[Step], file: str, environment: dict[str, str]) -> Ran:
    """What one service answers to these requests."""
    with Faulty(file, "--count", str(len(steps)), **environment) as service:
        responses = [service.response(step) for step in steps]
        return Ran(responses, *service.ended())


class Exchange(Single):
    """One request to a service, after others that meet no fault: calls are counted from its link on."""

    def __init__(self, title: str, state: Prepared, step: Step, earlier: list[Step]) -> None:
        self.steps, self.step = [*earlier, step], step
        wanted = Ran([one.wanted for one in self.steps], 0, "", "")
        super().__init__(title, state, [], "", wanted)
        self.counted_from = str(len(self.steps))

    def learn(self, room: str) -> None:
        super().learn(room)
        if len(self.steps) > 1:
            file = f"{room}/earlier"
            shutil.copy(self.state.file(), file)
            asked(self.steps[:-1], file, {})
            self.outcome = self.outcome._replace(before=held_in(file))

    def run(self, file: str, environment: dict[str, str]) -> Ran:
        return asked(self.steps, file, environment)

    def forked(self, room: str, file: str, environment: dict[str, str], places: list[int]) -> forks.Forked[Ran]:
        """One service, which forks before it accepts the request: each child answers it, and at last the service."""
        said = f"{room}/err"
        environment = {**environment, **forks.forking(room, file, places, [said])}
        with open(said, "wb") as errors:
            with Faulty(file, "--count", str(len(self.steps)), errors=errors, **environment) as service:
                earlier = [service.response(step) for step in self.steps[:-1]]
                of_each = {at: service.response(self.step) for at in places}
                response = service.response(self.step)
                status, output, _ = service.ended(forks.PATIENCE)
        whole = Ran([*earlier, response], status, output, forks.text_of(said))
        children = {
            at: (Ran([*earlier, of_each[at]], found.status, output, "".join(found.printed)), found.file)
            for at, found in forks.endings(room).items()
        }
        return forks.Forked(whole, children)

    def tables_in(self, file: str) -> Tables:
        return held_in(file)

    def compared(self, held: Held) -> Tables | str:
        return timeless(held.tables)

    def allowed(self, kind: Kind, ran: Ran) -> Allowed:
        if ran.responses[:-1] != self.wanted.responses[:-1] or ran.output:
            return {}
        response, whole = ran.responses[-1] or b"", self.step.wanted
        if kind.is_stop():
            is_so = (ran.status, ran.errors) == (faults.STOPPED, "") and whole.startswith(response)
            return ({AFTER: ANSWERED} if response else EITHER) if is_so else {}
        is_closed = ran.status == 3 and faults.is_reported(kind, ran.errors, DATABASE)
        if not is_closed and (ran.status, ran.errors) != (0, ""):
            return {}
        if response == whole:
            return {AFTER: ANSWERED}
        if response == faults.response(kind.code()):
            return EITHER if is_closed else {BEFORE: ABORTED}
        if is_closed or not whole.startswith(response):
            return {}
        return self.unwritten(kind, response)

    def unwritten(self, kind: Kind, response: bytes) -> Allowed:
        """Where no response came, or the start of one."""
        if kind.call == "write":
            return {AFTER: UNWRITTEN}
        if response:
            return {}
        return {"alloc": EITHER, "read": {BEFORE: UNREAD}}.get(kind.call, {})
