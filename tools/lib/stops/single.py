"""Works of one request each."""
from typing import NamedTuple

from lib import files
from . import faults
from .faults import Kind
from .held import OPENED, Held, Tables
from .prepared import Prepared
from .work import ABORTED, ANSWERED, UNREAD, UNWRITTEN, Work

# by what may be in the file afterwards, before or after the request: how far the run came then
Allowed = dict[str, str]
BEFORE, AFTER = "before", "after"
EITHER = {BEFORE: UNREAD, AFTER: UNWRITTEN}
DATABASE, INPUT, OUTPUT = "database ", "standard input: ", "standard output: "


class Outcome(NamedTuple):
    """The tables before a work, and after it without a fault."""
    before: Tables
    after: Tables


class Single(Work[files.Ran]):
    """A run of the program with one request. It ends with the answer, and then the request is in the file; or it
    reports that it was aborted, and then the file is as before; or the answer could not be written, and then the
    request is in the file, or was not read, by what the run says. Where a fault of the disk closed the database the
    request is there as a whole or not at all."""

    counted_from = "stdin"

    def __init__(self, title: str, state: Prepared | None, words: list[str], data: str, wanted: files.Ran) -> None:
        super().__init__(title, state)
        self.words, self.data, self.wanted, self.outcome = words, data, wanted, None

    def learn(self, room: str) -> None:
        file = f"{room}/db"
        self.begin(file)
        before = self.tables_in(file)
        if (ran := self.run(file, {})) != self.wanted:
            raise RuntimeError(f"{self.title}, without a fault: {ran}")
        self.outcome = Outcome(before, self.tables_in(file))

    def tables_in(self, file: str) -> Tables:
        return files.tables(file)

    def command(self, file: str) -> tuple[list[str], str]:
        return [self.words[0], "--db", file, *self.words[1:]], self.data

    def aborted(self, code: str) -> str | None:
        """What is printed of a request that was aborted, if anything is."""
        return None

    def allowed(self, kind: Kind, ran: files.Ran) -> Allowed:
        """What may be in the file after a run that ended so; nothing if it may not end so."""
        status, output, errors = self.wanted
        if kind.is_stop():
            # what is printed is printed once the request is kept
            is_so = ran[0] == faults.STOPPED and output.startswith(ran[1]) and errors.startswith(ran[2])
            return ({AFTER: ANSWERED} if ran[1] or ran[2] else EITHER) if is_so else {}
        # if the write of the fault itself is refused, the status alone says it
        if ran == self.wanted or kind.call == "write" and errors and ran == (status, output, ""):
            return {AFTER: ANSWERED}
        if ran[0] != 3:
            return {}
        if ran[1] == self.aborted(kind.code()):
            return {BEFORE: ABORTED} if ran[2] == "" else EITHER if faults.is_reported(kind, ran[2], DATABASE) else {}
        if ran[1] == output and (output or errors) and ran[2].startswith(errors):
            # it could not be closed
            return {AFTER: ANSWERED} if faults.is_reported(kind, ran[2].removeprefix(errors), DATABASE) else {}
        return self.unanswered(kind, ran[1], ran[2]) if output.startswith(ran[1]) else {}

    def unanswered(self, kind: Kind, output: str, errors: str) -> Allowed:
        """Where less than the answer was printed."""
        if kind.call == "write":
            return {AFTER: UNWRITTEN} if faults.is_reported(kind, errors, OUTPUT) else {}
        if kind.call == "read" and faults.is_reported(kind, errors, INPUT):
            return {BEFORE: UNREAD} if output == "" else {}
        return EITHER if kind.call == "alloc" and faults.is_reported(kind, errors) and output == "" else {}

    def is_kept(self, held: Held) -> bool:
        """Whether the next opening is good and finds what another program found."""
        return held.opened == OPENED and held.tables == held.tables_then

    def compared(self, held: Held) -> Tables | str:
        return held.tables

    def states(self, held: Held) -> list[str]:
        """Which of the two the file holds: both, if the request leaves all as it was."""
        tables = self.compared(held)
        return [state for state, wanted in zip((BEFORE, AFTER), self.outcome) if tables == wanted]

    def stage(self, kind: Kind, ran: files.Ran, held: Held) -> str | None:
        allowed = self.allowed(kind, ran)
        found = [allowed[state] for state in self.states(held) if state in allowed]
        if not found or not self.is_kept(held):
            return None
        # (what leaves all as it was does not say how far a run came without an answer)
        return found[0] if len(found) == 1 else ANSWERED

    def left(self, held: Held) -> str:
        return f"the file is as {' and '.join(self.states(held)) or 'neither before nor after'}, {super().left(held)}"


class Line(Single):
    """A script of one line."""

    def __init__(self, state: Prepared, line: str, *wanted: str) -> None:
        moment, console, text = line.split(" ", 2)
        is_done = wanted[0].startswith("DONE ")
        what = f"an event: {text}" if console == "*" else f"a command: {console} {text}"
        answer = "".join(f"{text}\n" for text in (f"{moment} {wanted[0]}", *(f"  {more}" for more in wanted[1:])))
        title = f"{what}, {'done' if is_done else wanted[0].split(' ')[1]}"
        super().__init__(title, state, ["run"], f"{line}\n", (0 if is_done else 1, answer, ""))
        self.moment = moment

    def aborted(self, code: str) -> str | None:
        return faults.answer(self.moment, code)


class Aborting(Single):
    """What reports on standard error that it was aborted: a fault of the database, and once more that of its closing
    if it could not be closed then."""

    def unanswered(self, kind: Kind, output: str, errors: str) -> Allowed:
        half = errors[: len(errors) // 2]
        if kind.call != "alloc" and output == "" and errors == 2 * half and faults.is_reported(kind, half, DATABASE):
            return EITHER
        if kind.call != "alloc" and output == "" and faults.is_reported(kind, errors, DATABASE):
            # without an answer of its own this may be the fault of the closing
            return {BEFORE: ABORTED} if self.wanted[1] + self.wanted[2] else EITHER
        return super().unanswered(kind, output, errors)
