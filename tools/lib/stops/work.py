"""What is run again and again, each time with another call refused."""
import shutil
from typing import Generic, TypeVar

from lib import files
from . import forks
from .faults import KINDS, Kind
from .held import Held, Known
from .prepared import Prepared

Ran = TypeVar("Ran")  # how a run ended
# How far a run came: it read no request, it aborted it, the request was done or refused and no answer was written, or
# the answer was. Where no answer says it, a later call means no earlier stage.
UNREAD, ABORTED, UNWRITTEN, ANSWERED = "unread", "aborted", "unwritten", "answered"


class Work(Generic[Ran]):
    """A run over a copy of a file in which all before it is done."""

    kinds = KINDS
    loses_most = False  # whether more stops at which something is lost are tried of this work than of others
    counted_from: str | None = None  # FAULT_FROM of lib/inject/faults.c; none: the start of the process
    skips_opening = False  # whether the calls of the opening are left out, if the count cannot begin after them
    is_whole = False  # whether every call is tried, and not a sample, even of those after which something is lost
    can_fork = True  # whether one run can fork at each call that is tried

    def __init__(self, title: str, state: Prepared | None) -> None:
        self.title, self.state, self.known = title, state, Known()

    def learn(self, room: str) -> None:
        """Finds what comes of it without a fault, in an empty folder."""
        raise NotImplementedError

    def begin(self, file: str) -> None:
        if self.state:
            shutil.copy(self.state.file(), file)

    def command(self, file: str) -> tuple[list[str], str]:
        """The words and the input of a run of the program alone."""
        raise NotImplementedError

    def seen(self, ran: files.Ran, file: str) -> files.Ran:
        """How a run of the program over this file ended, without what does not count."""
        return ran

    def run(self, file: str, environment: dict[str, str]) -> Ran:
        words, data = self.command(file)
        return self.seen(files.run(words, data, environment), file)

    def forked(self, room: str, file: str, environment: dict[str, str], places: list[int]) -> forks.Forked[Ran]:
        """One run, in this folder, which forks at the calls with these numbers."""
        found = forks.of_program(room, *self.command(file), file, environment, places)
        children = {at: (self.seen(ran, file), left) for at, (ran, left) in found.children.items()}
        return forks.Forked(self.seen(found.whole, file), children)

    def held(self, file: str) -> Held:
        """What is in the file then."""
        return self.known.held(file)

    def stage(self, kind: Kind, ran: Ran, held: Held) -> str | None:
        """How far the run came; none if it is bad."""
        raise NotImplementedError

    def left(self, held: Held) -> str:
        """What a bad run left, in a few words."""
        return f"the next opening: {held.opened!r}"
